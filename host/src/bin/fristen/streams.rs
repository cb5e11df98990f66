//! The standard input and output, as the program found them. One that was closed, or not opened for
//! this, fails: the standard library hides it, and lines would be missed or an answer lost without
//! a word.

use std::io::{self, StdinLock, StdoutLock, Write};

/// What the lines come from.
///
/// # Errors
///
/// That it cannot be read.
pub fn input() -> io::Result<StdinLock<'static>> {
    found(start::is_readable())?;
    Ok(io::stdin().lock())
}

pub struct Output(StdoutLock<'static>);

impl Output {
    pub fn standard() -> Output {
        Output(io::stdout().lock())
    }
}

impl Write for Output {
    fn write(&mut self, bytes: &[u8]) -> io::Result<usize> {
        found(start::is_writable())?;
        self.0.write(bytes)
    }

    fn flush(&mut self) -> io::Result<()> {
        found(start::is_writable())?;
        self.0.flush()
    }
}

fn found(open: bool) -> io::Result<()> {
    match open {
        true => Ok(()),
        false => Err(io::Error::from(io::ErrorKind::NotConnected)),
    }
}

#[cfg(target_os = "linux")]
mod start {
    use std::ffi::c_int;
    use std::sync::atomic::{AtomicBool, Ordering};

    static READABLE: AtomicBool = AtomicBool::new(false);
    static WRITABLE: AtomicBool = AtomicBool::new(false);

    const STANDARD_INPUT: c_int = 0;
    const STANDARD_OUTPUT: c_int = 1;
    // Linux's numbers: of the command that gives how a descriptor was opened, or -1 if there is
    // none; of the part of it that says for what, and the two for one thing alone.
    const F_GETFL: c_int = 3;
    const O_ACCMODE: c_int = 3;
    const O_RDONLY: c_int = 0;
    const O_WRONLY: c_int = 1;

    extern "C" {
        fn fcntl(descriptor: c_int, command: c_int, ...) -> c_int;
    }

    /// Run before the standard library begins, which opens /dev/null in place of what is closed.
    #[used]
    #[link_section = ".init_array"]
    static LOOK: extern "C" fn() = look;

    extern "C" fn look() {
        READABLE.store(is_open(STANDARD_INPUT, O_WRONLY), Ordering::Relaxed);
        WRITABLE.store(is_open(STANDARD_OUTPUT, O_RDONLY), Ordering::Relaxed);
    }

    /// For something else too.
    fn is_open(descriptor: c_int, other: c_int) -> bool {
        // SAFETY: the C library has this function; the command takes no third argument and changes
        // nothing.
        let flags = unsafe { fcntl(descriptor, F_GETFL) };
        flags != -1 && flags & O_ACCMODE != other
    }

    pub fn is_readable() -> bool {
        READABLE.load(Ordering::Relaxed)
    }

    pub fn is_writable() -> bool {
        WRITABLE.load(Ordering::Relaxed)
    }
}

#[cfg(not(target_os = "linux"))]
mod start {
    pub fn is_readable() -> bool {
        true
    }

    pub fn is_writable() -> bool {
        true
    }
}
