//! Runs a program and reports its cost: `meter OUT ERR PROGRAM WORD...` keeps the program's
//! output and errors in the files OUT and ERR, and prints its status, cpu time in microseconds,
//! peak memory in KiB and wall time in microseconds.
//!
//! A program's peak memory begins with that of the process that started it, so this one is small.
//! Linux on 64 bits.

use std::env;
use std::fs::File;
use std::process::Command;
use std::time::Instant;

#[repr(C)]
#[derive(Clone, Copy, Default)]
struct Time {
    seconds: i64,
    micros: i64,
}

/// `struct rusage` of Linux.
#[repr(C)]
#[derive(Default)]
struct Usage {
    user: Time,
    system: Time,
    peak_kib: i64,
    others: [i64; 13],
}

extern "C" {
    fn wait4(pid: i32, status: *mut i32, options: i32, usage: *mut Usage) -> i32;
}

fn micros(time: Time) -> i64 {
    time.seconds * 1_000_000 + time.micros
}

/// The exit status, or the signal with a minus.
fn status_of(word: i32) -> i32 {
    let signal = word & 0x7F;
    if signal == 0 {
        word >> 8 & 0xFF
    } else {
        -signal
    }
}

fn main() {
    let words: Vec<_> = env::args_os().skip(1).collect();
    let [out, err, program, rest @ ..] = words.as_slice() else {
        panic!("usage: meter OUT ERR PROGRAM WORD...");
    };
    let mut command = Command::new(program);
    command.args(rest).stdout(File::create(out).unwrap()).stderr(File::create(err).unwrap());

    let begin = Instant::now();
    let child = command.spawn().expect("the program starts");
    let mut word = 0;
    let mut usage = Usage::default();
    // The kernel fills both variables, which live until the call returns.
    let pid = unsafe { wait4(child.id() as i32, &mut word, 0, &mut usage) };
    let wall = begin.elapsed().as_micros();

    assert_eq!(pid, child.id() as i32);
    let cpu = micros(usage.user) + micros(usage.system);
    println!("{} {cpu} {} {wall}", status_of(word), usage.peak_kib);
}
