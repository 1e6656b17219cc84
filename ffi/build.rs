//! Links the static library: the archive that CLEVISROOT_ARCHIVE names (a full path, or one from the
//! repository root), or else target/staticlib/libclevisroot.a there. The latter is a copy of what
//! `rt lib` writes, which runs where it is missing, or older than crates/ and crates.txt.

use std::env;
use std::fs::{self, OpenOptions};
use std::io::{self, Write};
use std::path::{Path, PathBuf};
use std::process::{Command, ExitCode, ExitStatus};
use std::time::SystemTime;

fn main() -> ExitCode {
    match link() {
        Ok(()) => ExitCode::SUCCESS,
        Err(told) => {
            eprintln!("clevisroot: {told}");
            ExitCode::FAILURE
        }
    }
}

fn link() -> Result<(), String> {
    let root = repository();
    println!("cargo:rerun-if-env-changed=CLEVISROOT_ARCHIVE");
    for source in ["crates", "crates.txt"] {
        println!("cargo:rerun-if-changed={}", root.join(source).display());
    }
    let archive = match env::var_os("CLEVISROOT_ARCHIVE") {
        Some(path) => given_archive(&root, root.join(path)),
        None => own_archive(&root)?,
    };
    println!("cargo:rerun-if-changed={}", archive.display());

    // A copy under the linker's name, so that the archive may have any name.
    let out = PathBuf::from(env::var_os("OUT_DIR").expect("cargo sets OUT_DIR"));
    fs::copy(&archive, out.join("libclevisroot.a"))
        .map_err(|error| format!("{}: {error}", archive.display()))?;
    println!("cargo:rustc-link-search=native={}", out.display());
    println!("cargo:rustc-link-lib=static=clevisroot");
    Ok(())
}

fn repository() -> PathBuf {
    let ffi = PathBuf::from(env::var_os("CARGO_MANIFEST_DIR").expect("cargo sets it"));
    ffi.parent()
        .expect("ffi/ is in the repository")
        .to_path_buf()
}

/// The archive that the environment names is taken as it is; nothing is built for it.
fn given_archive(root: &Path, archive: PathBuf) -> PathBuf {
    if archive.exists() && is_stale(root, &archive) {
        warn_stale(&archive, "CLEVISROOT_ARCHIVE names it, so it is used");
    }
    archive
}

fn own_archive(root: &Path) -> Result<PathBuf, String> {
    let archive = root.join("target/staticlib/libclevisroot.a");
    let missing = !archive.exists();
    if !missing && !is_stale(root, &archive) {
        return Ok(archive);
    }
    match write_archive(root) {
        Ok(status) if status.success() => copy_written(root, &archive)?,
        Ok(status) => return Err(format!("rt lib, in {CRATE}: {status}")),
        Err(error) if error.kind() != io::ErrorKind::NotFound => {
            return Err(format!("rt lib, in {CRATE}: {error}"))
        }
        Err(_) if missing => return Err(NO_RT.to_string()),
        Err(_) => warn_stale(&archive, "rt is not there to build it again, so it is used"),
    }
    Ok(archive)
}

/// The crate of the static library.
const CRATE: &str = "crates/clevisroot";

/// Code for any x86-64 machine: without --cpu it would need a newer one. The Makefile has the same.
const RT_LIB: [&str; 2] = ["lib", "--cpu=x86-64"];

const NO_RT: &str = "the static library, target/staticlib/libclevisroot.a, is not built yet, and \
`rt`, which proves and compiles it, is not in PATH.
Install the Rattle kit (README.md, \"What you need\"), or set CLEVISROOT_ARCHIVE to a \
libclevisroot.a that was built elsewhere.";

/// Through cargo, and on the terminal too, because `cargo -q` keeps warnings to itself.
fn warn_stale(archive: &Path, but: &str) {
    let archive = archive.display();
    let told = format!("STALE: {archive} is older than its sources in crates/; {but}");
    println!("cargo:warning={told}");
    if let Some(mut terminal) = terminal() {
        let _ = writeln!(terminal, "clevisroot: {told}");
    }
}

/// Whether a source of the proved crates, or their list, is newer than the archive.
fn is_stale(root: &Path, archive: &Path) -> bool {
    let parts = ["src", "specs", "proofs"];
    let crates = entries(&root.join("crates"));
    let newest = crates
        .iter()
        .flat_map(|one| parts.map(|part| newest_below(&one.join(part))))
        .chain([modified(&root.join("crates.txt"))])
        .max();
    newest.flatten() > modified(archive)
}

/// The newest time of a folder and of everything in it; a file that is taken away changes its folder.
fn newest_below(path: &Path) -> Option<SystemTime> {
    let inside = entries(path);
    let newest = inside.iter().map(|path| newest_below(path)).max();
    newest.flatten().max(modified(path))
}

fn entries(folder: &Path) -> Vec<PathBuf> {
    let found = fs::read_dir(folder).into_iter().flatten();
    found.flatten().map(|entry| entry.path()).collect()
}

fn modified(path: &Path) -> Option<SystemTime> {
    fs::metadata(path).and_then(|file| file.modified()).ok()
}

fn write_archive(root: &Path) -> io::Result<ExitStatus> {
    let mut rt = Command::new("rt");
    rt.args(RT_LIB).current_dir(root.join(CRATE));
    let Some(mut terminal) = terminal() else {
        return rt.status();
    };
    rt.stdout(terminal.try_clone()?);
    rt.stderr(terminal.try_clone()?);
    let mut running = rt.spawn()?;
    let told = "clevisroot: rt proves and compiles the static library; minutes the first time";
    let _ = writeln!(terminal, "{told}");
    running.wait()
}

/// A copy of what `rt lib` wrote, where everything that is not proved looks for it.
fn copy_written(root: &Path, archive: &Path) -> Result<(), String> {
    let written = root.join(CRATE).join("out/libclevisroot.a");
    let folder = archive.parent().expect("the archive is in a folder");
    fs::create_dir_all(folder)
        .and_then(|()| fs::copy(&written, archive))
        .map(|_| ())
        .map_err(|error| format!("{}: {error}", written.display()))
}

/// The terminal, if there is one: cargo keeps what a build script prints, and nobody would see rt's
/// progress.
fn terminal() -> Option<fs::File> {
    OpenOptions::new().write(true).open("/dev/tty").ok()
}
