//! Runs a command, and prints its microseconds of processor and the most kilobytes that it held: timed INPUT OUTPUT COMMAND..
//! A small program does this because the memory of who starts a command counts as the command's.

use std::fs::File;
use std::process::Command;

/// What Linux on 64-bit machines tells of a process that has ended.
#[repr(C)]
#[derive(Default)]
struct Usage {
    user: [i64; 2],
    system: [i64; 2],
    most_kilobytes: i64,
    rest: [i64; 13],
}

unsafe extern "C" {
    fn wait4(process: i32, status: *mut i32, options: i32, usage: *mut Usage) -> i32;
}

fn main() {
    let words: Vec<String> = std::env::args().skip(1).collect();
    let [input, output, program, rest @ ..] = &words[..] else { panic!("timed INPUT OUTPUT COMMAND..") };
    let (given, written) = (File::open(input).unwrap(), File::create(output).unwrap());
    let child = Command::new(program).args(rest).stdin(given).stdout(written).spawn().unwrap();
    let (mut status, mut usage) = (0, Usage::default());
    // SAFETY: both pointers are to values of this function, and `Usage` has the size and the order of fields of Linux's `rusage`.
    unsafe { wait4(child.id() as i32, &mut status, 0, &mut usage) };
    if status != 0 {
        eprintln!("{program} ended with status {}", status >> 8);
        std::process::exit(1);
    }
    let micros = |[seconds, micros]: [i64; 2]| 1_000_000 * seconds + micros;
    println!("{} {}", micros(usage.user) + micros(usage.system), usage.most_kilobytes);
}
