//! Whether standard output was open when the program was started. Rust's runtime opens /dev/null in
//! place of a closed one before `main`, so that all that is printed is lost without an error; this
//! looks before the runtime does.

#[cfg(target_os = "linux")]
mod looked {
    use std::os::raw::c_int;
    use std::sync::atomic::{AtomicBool, Ordering};

    const F_GETFD: c_int = 1;
    const STANDARD_OUTPUT: c_int = 1;

    extern "C" {
        fn fcntl(descriptor: c_int, command: c_int, ...) -> c_int;
    }

    pub static CLOSED: AtomicBool = AtomicBool::new(false);

    extern "C" fn look() {
        // SAFETY: F_GETFD takes no argument and changes nothing.
        let flags = unsafe { fcntl(STANDARD_OUTPUT, F_GETFD) };
        CLOSED.store(flags < 0, Ordering::Relaxed);
    }

    /// The loader calls the functions of this section before `main`.
    #[used]
    #[link_section = ".init_array"]
    static LOOK: extern "C" fn() = look;
}

/// Where it cannot be told, it counts as open.
pub fn standard_output_was_open() -> bool {
    #[cfg(target_os = "linux")]
    return !looked::CLOSED.load(std::sync::atomic::Ordering::Relaxed);
    #[cfg(not(target_os = "linux"))]
    true
}
