//! build.rs in a made-up repository: with and without `rt`, with an archive that is missing, fresh
//! or older than its sources.

use std::env;
use std::fs;
use std::path::{Path, PathBuf};
use std::process::{self, Command, Output};
use std::sync::OnceLock;
use std::time::{Duration, SystemTime};

/// The compiled build script, once for all tests.
fn build_script() -> &'static Path {
    static SCRIPT: OnceLock<PathBuf> = OnceLock::new();
    SCRIPT.get_or_init(|| {
        let script = Path::new(env!("CARGO_TARGET_TMPDIR")).join("build-script");
        let source = Path::new(env!("CARGO_MANIFEST_DIR")).join("build.rs");
        let mut rustc = Command::new("rustc");
        rustc.args(["--edition", "2021", "-o"]).arg(&script);
        assert!(rustc.arg(source).status().expect("rustc runs").success());
        script
    })
}

/// Outside the checkout, in which `rt ci` takes no other crates, and gone with its test.
struct Repository(PathBuf);

impl Drop for Repository {
    fn drop(&mut self) {
        let _ = fs::remove_dir_all(&self.0);
    }
}

impl Repository {
    /// One crate beside the library's, a folder for programs that is all of PATH, and one for the output.
    fn new(name: &str) -> Repository {
        let root = env::temp_dir().join(format!("clevisroot-{}-{name}", process::id()));
        let folders = "ffi crates/one/src crates/clevisroot/out target/staticlib bin out";
        for folder in folders.split(' ') {
            fs::create_dir_all(root.join(folder)).expect("a folder can be made");
        }
        let repository = Repository(root);
        repository.write("crates.txt", 100);
        repository.write("crates/one/src/lib.rt", 100);
        repository.write("crates/one/src/more.rt", 100);
        repository.age("crates/one/src", 100);
        repository
    }

    /// A file that was changed this many seconds ago.
    fn write(&self, name: &str, seconds_ago: u64) {
        fs::write(self.0.join(name), "").expect("a file can be written");
        self.age(name, seconds_ago);
    }

    /// A file or folder that was changed this many seconds ago.
    fn age(&self, name: &str, seconds_ago: u64) {
        let file = fs::File::open(self.0.join(name)).expect("it is there");
        let time = SystemTime::now() - Duration::from_secs(seconds_ago);
        file.set_modified(time).expect("its time can be set");
    }

    /// An `rt` that writes an archive and a line for each call.
    fn install_rt(&self) {
        use std::os::unix::fs::PermissionsExt;
        let rt = self.0.join("bin/rt");
        let script = "#!/bin/sh\necho \"$@\" >> ../../calls\n: > out/libclevisroot.a\n";
        fs::write(&rt, script).expect("a script can be written");
        fs::set_permissions(&rt, fs::Permissions::from_mode(0o755)).expect("it can be run");
    }

    fn calls_of_rt(&self) -> String {
        fs::read_to_string(self.0.join("calls")).unwrap_or_default()
    }

    fn run(&self, given: Option<&str>) -> Output {
        let mut script = Command::new(build_script());
        script
            .env("CARGO_MANIFEST_DIR", self.0.join("ffi"))
            .env("OUT_DIR", self.0.join("out"))
            .env("PATH", self.0.join("bin"))
            .env_remove("CLEVISROOT_ARCHIVE");
        if let Some(archive) = given {
            script.env("CLEVISROOT_ARCHIVE", archive);
        }
        script.output().expect("the build script runs")
    }
}

const OWN: &str = "target/staticlib/libclevisroot.a";

fn stdout(ran: &Output) -> String {
    String::from_utf8_lossy(&ran.stdout).into_owned()
}

/// Failed with a message that has these words, and not by a panic.
fn assert_told(ran: &Output, words: &str) {
    let told = String::from_utf8_lossy(&ran.stderr);
    assert!(!ran.status.success());
    assert!(told.contains(words), "{told}");
    assert!(!told.contains("panicked"), "{told}");
}

#[test]
fn without_rt_and_archive_it_says_what_to_do() {
    let ran = Repository::new("no-rt").run(None);
    assert_told(&ran, "`rt`, which proves and compiles it, is not in PATH");
    assert_told(&ran, "CLEVISROOT_ARCHIVE");
}

#[test]
fn a_missing_archive_is_built() {
    let repository = Repository::new("missing");
    repository.install_rt();
    let ran = repository.run(None);
    assert!(ran.status.success());
    assert_eq!(repository.calls_of_rt(), "lib --cpu=x86-64\n");
    assert!(stdout(&ran).contains("cargo:rustc-link-lib=static=clevisroot"));
    assert!(repository.0.join("out/libclevisroot.a").exists());
}

#[test]
fn a_fresh_archive_is_left_alone() {
    let repository = Repository::new("fresh");
    repository.install_rt();
    repository.write(OWN, 50);
    let ran = repository.run(None);
    assert!(ran.status.success() && !stdout(&ran).contains("STALE"));
    assert_eq!(repository.calls_of_rt(), "");
}

#[test]
fn an_archive_older_than_a_source_is_built_again() {
    for source in ["crates/one/src/lib.rt", "crates.txt"] {
        let repository = Repository::new("stale");
        repository.install_rt();
        repository.write(OWN, 50);
        repository.write(source, 10);
        assert!(repository.run(None).status.success());
        assert_eq!(repository.calls_of_rt(), "lib --cpu=x86-64\n");
    }
}

#[test]
fn an_archive_of_a_source_that_was_taken_away_is_built_again() {
    let repository = Repository::new("taken-away");
    repository.install_rt();
    repository.write(OWN, 50);
    fs::remove_file(repository.0.join("crates/one/src/more.rt")).expect("it can be removed");
    assert!(repository.run(None).status.success());
    assert_eq!(repository.calls_of_rt(), "lib --cpu=x86-64\n");
}

#[test]
fn a_stale_archive_without_rt_is_used_with_a_warning() {
    let repository = Repository::new("stale-no-rt");
    repository.write(OWN, 200);
    let ran = repository.run(None);
    assert!(ran.status.success());
    assert!(stdout(&ran).contains("cargo:warning=STALE"));
}

#[test]
fn a_given_archive_is_used_as_it_is() {
    let repository = Repository::new("given");
    repository.install_rt();
    repository.write("elsewhere.a", 50);
    let ran = repository.run(Some("elsewhere.a"));
    assert!(ran.status.success() && !stdout(&ran).contains("STALE"));
    repository.write("elsewhere.a", 200);
    let ran = repository.run(Some("elsewhere.a"));
    assert!(ran.status.success() && stdout(&ran).contains("STALE"));
    assert_eq!(repository.calls_of_rt(), "");
    assert_told(&repository.run(Some("nowhere.a")), "nowhere.a: ");
}

#[test]
fn sources_and_their_list_are_watched() {
    let repository = Repository::new("watched");
    repository.write(OWN, 50);
    let told = stdout(&repository.run(None));
    for watched in ["crates", "crates.txt", OWN] {
        let path = repository.0.join(watched);
        let line = format!("cargo:rerun-if-changed={}\n", path.display());
        assert!(told.contains(&line), "{told}");
    }
}
