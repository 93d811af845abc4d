//! The two smallest drives, in slots 1 and 3, for host/board.c.
//!
//!     small PACK-FILE                    writes their pack file
//!     small PACK-FILE ANSWERS < EVENTS   holds what the board printed, and what
//!                                        it left of the file, to the twin's

#![cfg_attr(plain_main, no_main)]

#[allow(dead_code)]
mod twin;

use std::fs;
use std::io::Read;

fn run() -> bool {
    let arguments: Vec<String> = std::env::args().skip(1).collect();
    let fresh = twin::file_of_packs(&[twin::smallest_drive(1), twin::smallest_drive(3)]);
    if arguments.len() == 1 {
        fs::write(&arguments[0], fresh).expect("a pack file");
        return true;
    }
    let mut events = Vec::new();
    std::io::stdin().read_to_end(&mut events).expect("events");
    let mut runner = twin::Runner::of_file(fresh).expect("two drives");
    let answers = runner.run(&events);
    let same = fs::read_to_string(&arguments[1]).expect("answers") == answers && fs::read(&arguments[0]).expect("a pack file") == runner.file;
    println!("board: {} lines, {}", answers.lines().count(), if same { "as the twin's" } else { "DIFFERENT from the twin's" });
    same
}

#[cfg(not(plain_main))]
fn main() {
    std::process::exit(!run() as i32);
}

/// Where the standard start of a Rust program isn't to be had, as under some emulators.
#[cfg(plain_main)]
#[no_mangle]
pub extern "C" fn main() -> i32 {
    !run() as i32
}
