//! Calls of the operating system that the standard library does not offer. All code that the compiler can't check is here.

#![allow(unsafe_code)]

use std::ffi::{c_int, c_ulong, c_ushort};
use std::os::fd::{AsFd, AsRawFd};
use std::sync::atomic::{AtomicBool, Ordering};

extern "C" {
    fn fcntl(descriptor: c_int, command: c_int, ...) -> c_int;
    fn ioctl(descriptor: c_int, request: c_ulong, ...) -> c_int;
}

/// Returns the flags of a descriptor, and fails only if it is closed.
const F_GETFD: c_int = 1;

/// Whether standard input and standard output were closed when the program was started.
static WAS_CLOSED: [AtomicBool; 2] = [const { AtomicBool::new(false) }; 2];

/// Before `main` Rust opens /dev/null in place of a standard stream that is closed, and the two can't be distinguished afterwards. The
/// functions listed in this section run earlier.
#[used]
#[link_section = ".init_array"]
static BEFORE_MAIN: extern "C" fn() = check_streams;

extern "C" fn check_streams() {
    for (descriptor, was_closed) in (0..).zip(&WAS_CLOSED) {
        // SAFETY: this command takes no third argument, accepts any number as descriptor, and changes nothing.
        let flags = unsafe { fcntl(descriptor, F_GETFD) };
        was_closed.store(flags == -1, Ordering::Relaxed);
    }
}

/// Whether standard input (0) or standard output (1) was closed when the program was started.
pub fn was_closed(descriptor: usize) -> bool {
    WAS_CLOSED[descriptor].load(Ordering::Relaxed)
}

/// Fills in the size of a terminal's window, and fails for what is no terminal.
const TIOCGWINSZ: c_ulong = 0x5413;

#[repr(C)]
#[derive(Default)]
struct WindowSize {
    rows: c_ushort,
    columns: c_ushort,
    width_in_pixels: c_ushort,
    height_in_pixels: c_ushort,
}

/// How many columns a terminal has, if it is one and knows.
pub fn columns(terminal: &impl AsFd) -> Option<usize> {
    let mut size = WindowSize::default();
    let descriptor = terminal.as_fd().as_raw_fd();
    // SAFETY: the descriptor is open as long as it is borrowed, and the request writes one `WindowSize`, which is lent to it.
    let result = unsafe { ioctl(descriptor, TIOCGWINSZ, &mut size) };
    Some(usize::from(size.columns)).filter(|&columns| result == 0 && columns > 0)
}
