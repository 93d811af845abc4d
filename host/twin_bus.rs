//! The twin's program.
//!
//!     twin_bus bus            the bus runner of document 01: two smallest
//!                             drives, in slots 1 and 3
//!     twin_bus bus PACKFILE   the same over a pack file, read into memory
//!                             and never written back
//!     twin_bus capture CAPTURE [PACKFILE]
//!                             the same drives on the events of a capture
//!                             (request 2)
//!     twin_bus to-capture WAIT
//!                             the capture of the event lines on standard
//!                             input, on standard output
//!
//! Event lines come on standard input, one answer line each goes to standard
//! output. A pack file that is refused prints "refused NUMBER PLACE" on
//! standard error and leaves with 1.
//!
//! A capture is read twice, each time a sample after the other: a capture
//! that is none prints "CAPTURE: refused 40 at PLACE" on standard error ahead
//! of the first answer line, and leaves with 3.
//!
//! to-capture begins with all lines low, at stamp 0. Each line of kinds 0 to 5
//! is a sample WAIT microseconds behind the one before, each of kind 6 one
//! that many microseconds behind it. Any other line leaves with 1: a capture
//! holds no cells and no conditions.

#![cfg_attr(plain_main, no_main)]

#[allow(dead_code)]
mod twin;

use std::env;
use std::fs;
use std::io::{self, BufRead, Read, Write};
use std::process::exit;

/// Says why, and leaves.
fn leave(status: i32, why: String) -> ! {
    eprintln!("{}", why);
    exit(status)
}

fn unread(path: &str, error: io::Error) -> ! {
    leave(1, format!("{}: {}", path, error))
}

fn runner_of_file(path: &str) -> twin::Runner {
    let file = fs::read(path).unwrap_or_else(|error| unread(path, error));
    twin::Runner::of_file(file).unwrap_or_else(|(number, place)| leave(1, format!("refused {} {}", number, place)))
}

/// Of what stands behind the mode's own words: a pack file, or nothing.
fn runner_of_arguments(arguments: &[String]) -> twin::Runner {
    match arguments {
        [] => twin::Runner::smallest(),
        [path] => runner_of_file(path),
        _ => usage(),
    }
}

fn usage() -> ! {
    let modes = ["bus [PACKFILE] < EVENTS", "capture CAPTURE [PACKFILE]", "to-capture WAIT < EVENTS > CAPTURE"];
    leave(2, modes.map(|mode| format!("usage: twin_bus {}", mode)).join("\n"))
}

fn run(runner: &mut twin::Runner) -> io::Result<()> {
    let stdin = io::stdin();
    let mut input = stdin.lock();
    let stdout = io::stdout();
    let mut output = io::BufWriter::new(stdout.lock());
    let mut line = Vec::new();
    while input.read_until(b'\n', &mut line)? > 0 {
        output.write_all(runner.line(twin::without_newline(&line)).as_bytes())?;
        line.clear();
    }
    output.flush()
}

/// Fills a sample with the next six bytes, or with those that are left: how
/// many.
fn next_sample(input: &mut impl Read, sample: &mut [u8; twin::SAMPLE]) -> io::Result<usize> {
    let mut filled = 0;
    while filled < sample.len() {
        match input.read(&mut sample[filled..])? {
            0 => break,
            more => filled += more,
        }
    }
    Ok(filled)
}

/// Each sample of a capture, one in memory at a time; the first that is none
/// is refused.
fn each_sample(path: &str, mut with: impl FnMut(&[u8]) -> io::Result<()>) -> io::Result<()> {
    let mut input = io::BufReader::new(fs::File::open(path).unwrap_or_else(|error| unread(path, error)));
    let mut sample = [0; twin::SAMPLE];
    let mut place = 0u64;
    loop {
        let length = next_sample(&mut input, &mut sample)?;
        if length == 0 {
            return Ok(());
        }
        if !twin::is_sample(&sample[..length]) {
            leave(3, format!("{}: refused 40 at {}", path, place));
        }
        with(&sample)?;
        place += length as u64;
    }
}

/// Request 2: 40 is "ahead of everything", so of the pack file too.
fn capture(path: &str, arguments: &[String]) -> io::Result<()> {
    each_sample(path, |_| Ok(()))?;
    let mut runner = runner_of_arguments(arguments);
    let mut cable = twin::Cable::of(&runner.chain);
    let mut output = io::BufWriter::new(io::stdout().lock());
    each_sample(path, |sample| runner.sample(&mut cable, sample).try_for_each(|line| output.write_all(line.as_bytes())))?;
    output.flush()
}

/// The stamp and the levels behind an event line; none where a capture can't
/// hold it.
fn sample_behind(line: &[u8], stamp: u32, levels: u16, wait: u32) -> Option<(u32, u16)> {
    match twin::event_of_line(line)? {
        (6, time, 0) => Some((stamp.wrapping_add(time), levels)),
        (kind, level, 0) => Some((stamp.wrapping_add(wait), twin::levels_with(levels, kind, level)?)),
        _ => None,
    }
}

fn to_capture(wait: u32) -> io::Result<()> {
    let mut output = io::BufWriter::new(io::stdout().lock());
    let (mut stamp, mut levels) = (0, 0);
    output.write_all(&twin::sample_of(stamp, levels))?;
    for (n, line) in io::stdin().lock().split(b'\n').enumerate() {
        let line = line?;
        (stamp, levels) = sample_behind(&line, stamp, levels, wait).unwrap_or_else(|| {
            let shown = String::from_utf8_lossy(&line);
            leave(1, format!("line {}: {}: a capture holds lines and time, no cells and no conditions", n + 1, shown))
        });
        output.write_all(&twin::sample_of(stamp, levels))?;
    }
    output.flush()
}

fn whole_run() {
    let arguments: Vec<String> = env::args().skip(1).collect();
    let mode: Vec<&str> = arguments.iter().map(|word| word.as_str()).collect();
    let done = match mode[..] {
        ["bus", ..] => run(&mut runner_of_arguments(&arguments[1..])),
        ["capture", path, ..] => capture(path, &arguments[2..]),
        ["to-capture", wait] => to_capture(wait.parse().unwrap_or_else(|_| usage())),
        _ => usage(),
    };
    if let Err(error) = done {
        leave(1, error.to_string());
    }
}

#[cfg(not(plain_main))]
fn main() {
    whole_run();
}

/// Where the standard start of a Rust program isn't to be had, as under some emulators.
#[cfg(plain_main)]
#[no_mangle]
pub extern "C" fn main() -> i32 {
    whole_run();
    0
}
