//! `measure INPUT OUTPUT PROGRAM [WORD..]`: runs a program once over files. It prints the seconds that
//! passed, the seconds of a processor (in the program and in the system for it) and the greatest memory
//! that was resident, in KiB. Linux only. Being small itself it hides little: what the system counts for a
//! process begins with the few MiB of the one that started it.

use std::env;
use std::error::Error;
use std::ffi::{c_int, c_long};
use std::fs::File;
use std::io;
use std::process::Command;
use std::time::Instant;

/// The start of the C library's `struct rusage`, and room for the rest.
#[repr(C)]
#[derive(Default)]
struct Usage {
    user: [c_long; 2],
    system: [c_long; 2],
    peak: c_long,
    rest: [c_long; 13],
}

unsafe extern "C" {
    fn wait4(process: c_int, status: *mut c_int, options: c_int, usage: *mut Usage) -> c_int;
}

/// Seconds of the C library's `struct timeval`: seconds and microseconds.
fn seconds_of([seconds, micros]: [c_long; 2]) -> f64 {
    seconds as f64 + micros as f64 / 1e6
}

fn main() -> Result<(), Box<dyn Error>> {
    let words: Vec<_> = env::args_os().skip(1).collect();
    let [input, output, program, words @ ..] = words.as_slice() else {
        return Err("usage: measure INPUT OUTPUT PROGRAM [WORD..]".into());
    };
    let mut command = Command::new(program);
    command.args(words);
    command
        .stdin(File::open(input)?)
        .stdout(File::create(output)?);
    let start = Instant::now();
    let child = command.spawn()?;
    let (mut status, mut usage) = (0, Usage::default());
    // SAFETY: the child is this process's own and no one else waits for it; both places are valid.
    let waited = unsafe { wait4(child.id().try_into()?, &mut status, 0, &mut usage) };
    let seconds = start.elapsed().as_secs_f64();
    if waited < 0 {
        return Err(io::Error::last_os_error().into());
    }
    if status != 0 {
        return Err(format!("the program ended with wait status {status}").into());
    }
    let busy = seconds_of(usage.user) + seconds_of(usage.system);
    println!("{seconds:.6} {busy:.6} {}", usage.peak);
    Ok(())
}
