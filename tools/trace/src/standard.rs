//! The standard streams as the program was started with them. Before `main`, the library opens /dev/null in the place of one that is
//! closed, so what is asked here is asked sooner, as the program is loaded.

use std::sync::atomic::{AtomicBool, Ordering};

extern "C" {
    fn fcntl(descriptor: i32, command: i32, ...) -> i32;
    fn signal(number: i32, action: usize) -> usize;
}

/// Asks for the flags of a descriptor, which one that is closed has not.
const F_GETFD: i32 = 1;

/// The signal for a write past the greatest size of a file, and the action that ignores it.
const SIGXFSZ: i32 = 25;
const SIG_IGN: usize = 1;

/// Whether standard input and standard output were closed.
static CLOSED: [AtomicBool; 2] = [const { AtomicBool::new(false) }; 2];

#[used]
#[link_section = ".init_array"]
static AT_LOADING: extern "C" fn() = at_loading;

/// Notes which streams are closed. A write past the greatest size of a file becomes an error like any other, and no sudden end.
extern "C" fn at_loading() {
    for (descriptor, closed) in CLOSED.iter().enumerate() {
        let flags = unsafe { fcntl(descriptor as i32, F_GETFD) };
        closed.store(flags == -1, Ordering::Relaxed);
    }
    unsafe { signal(SIGXFSZ, SIG_IGN) };
}

/// What is to be said where standard input was closed.
pub fn input_open() -> Result<(), String> {
    open(0, "standard input")
}

/// What is to be said where standard output was closed.
pub fn output_open() -> Result<(), String> {
    open(1, "standard output")
}

fn open(descriptor: usize, name: &str) -> Result<(), String> {
    match CLOSED[descriptor].load(Ordering::Relaxed) {
        true => Err(format!("{name} is closed")),
        false => Ok(()),
    }
}
