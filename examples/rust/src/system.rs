//! The calls of the system that std does not have, for Linux with 64 bits.

use std::fs::File;
use std::io::{self, ErrorKind, IsTerminal};
use std::os::fd::{AsFd, AsRawFd};

#[repr(C)]
struct Lock {
    kind: i16,
    whence: i16,
    start: i64,
    length: i64,
    holder: i32,
}

#[repr(C)]
struct Asked {
    file: i32,
    events: i16,
    found: i16,
}

#[repr(C)]
#[derive(Default)]
struct LineSettings {
    input: u32,
    output: u32,
    control: u32,
    local: u32,
    discipline: u8,
    characters: [u8; 32],
    speeds: [u32; 2],
}

unsafe extern "C" {
    fn signal(number: i32, handler: usize) -> usize;
    fn fcntl(file: i32, command: i32, ...) -> i32;
    fn poll(asked: *mut Asked, count: u64, milliseconds: i32) -> i32;
    fn tcgetattr(file: i32, settings: *mut LineSettings) -> i32;
    fn tcsetattr(file: i32, when: i32, settings: *const LineSettings) -> i32;
    fn time(now: *mut i64) -> i64;
    fn gmtime_r(time: *const i64, parts: *mut u64) -> *mut u64;
    fn strftime(text: *mut u8, size: usize, format: *const u8, parts: *const u64) -> usize;
}

/// A write beyond the file size limit then fails and does not kill. Rust has done the same for one that has no reader, and has
/// opened what of the standard streams was closed, so that no file gets their numbers.
pub fn ignore_file_size_signal() {
    const SIGXFSZ: i32 = 25;
    const SIG_IGN: usize = 1;
    // SAFETY: no handler is installed, and no other thread is there yet.
    unsafe { signal(SIGXFSZ, SIG_IGN) };
}

/// Locks the whole file for writing, as the boxes in C do. Answers whether it was free.
pub fn lock(file: &File) -> io::Result<bool> {
    const F_SETLK: i32 = 6;
    let mut whole = Lock {
        kind: 1,
        whence: 0,
        start: 0,
        length: 0,
        holder: 0,
    };
    // SAFETY: the lock is a `struct flock`, and outlives the call.
    if unsafe { fcntl(file.as_raw_fd(), F_SETLK, &mut whole) } == 0 {
        return Ok(true);
    }
    let why = io::Error::last_os_error();
    match why.kind() {
        ErrorKind::PermissionDenied | ErrorKind::WouldBlock => Ok(false),
        _ => Err(why),
    }
}

/// Whether the output takes bytes within so many milliseconds; also where it takes none any more, which a write then tells.
pub fn is_ready(output: &impl AsFd, milliseconds: i32) -> bool {
    const POLLOUT: i16 = 4;
    let mut asked = Asked {
        file: output.as_fd().as_raw_fd(),
        events: POLLOUT,
        found: 0,
    };
    loop {
        // SAFETY: it is one `struct pollfd`, and outlives the call.
        let count = unsafe { poll(&mut asked, 1, milliseconds) };
        if count >= 0 || io::Error::last_os_error().kind() != ErrorKind::Interrupted {
            return count == 1;
        }
    }
}

/// A terminal passes on all bytes as they are, both ways, and sends none back; anything else is left as it is. As the system
/// opens a serial device, it changes 0D, swallows 03, 11 and 13, and sends back all that it gets.
pub fn make_raw(line: &(impl AsFd + IsTerminal)) -> io::Result<()> {
    const TCSANOW: i32 = 0;
    const PARITY: u32 = 0o400;
    const EIGHT_BITS_READ: u32 = 0o60 | 0o200;
    const LEAST: usize = 6;
    const PATIENCE: usize = 5;
    if !line.is_terminal() {
        return Ok(());
    }
    let mut settings = LineSettings::default();
    let number = line.as_fd().as_raw_fd();
    // SAFETY: the settings are a `struct termios`, and outlive both calls.
    if unsafe { tcgetattr(number, &mut settings) } != 0 {
        return Err(io::Error::last_os_error());
    }
    (settings.input, settings.output, settings.local) = (0, 0, 0);
    settings.control = settings.control & !PARITY | EIGHT_BITS_READ;
    settings.characters[LEAST] = 1;
    settings.characters[PATIENCE] = 0;
    if unsafe { tcsetattr(number, TCSANOW, &settings) } != 0 {
        return Err(io::Error::last_os_error());
    }
    Ok(())
}

/// The time, as 2026-11-17T03:12:45Z.
pub fn now() -> String {
    // More than a `struct tm` has.
    let (mut parts, mut text, mut seconds) = ([0; 16], [0; 32], 0);
    // SAFETY: all that is lent is large enough, the format ends with a 0, and the parts are filled before they are read.
    let length = unsafe {
        time(&mut seconds);
        gmtime_r(&seconds, parts.as_mut_ptr());
        let format = c"%Y-%m-%dT%H:%M:%SZ".as_ptr().cast();
        strftime(text.as_mut_ptr(), text.len(), format, parts.as_ptr())
    };
    String::from_utf8_lossy(&text[..length]).into_owned()
}
