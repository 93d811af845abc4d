//! Nanoseconds an event, by kind, through C and by the twin, and of a plain check of the record, in one run;
//! nanoseconds a fit, of a small and a large file; a pack of 100 MB laid beside a plain memset; and the event lines, or
//! the capture, of a run of the bus, for the runners to be timed on.
//!
//!     bench [EVENTS [CASE DRIVES WHO]]   EVENTS a case; one CASE alone, by ours, twin or limit, as for callgrind
//!     bench fits N                       N fits of each file
//!     bench lay N                        N packs laid, and N memsets, in turn
//!     bench lines N                      N event lines on standard output
//!     bench capture N                    a capture of N samples on standard output

#![cfg_attr(plain_main, no_main)]

#[allow(dead_code)]
mod esdi;
#[allow(dead_code)]
mod twin;

use std::time::Instant;

/// The value again, by a reading that no compiler leaves out.
fn kept<T>(value: T) -> T {
    let value = std::mem::ManuallyDrop::new(value);
    unsafe { std::ptr::read_volatile(&*value) }
}

fn profile(slot: u8) -> twin::Profile {
    let mut p = twin::smallest_drive(slot);
    p.cylinders = 2;
    p.heads = 2;
    p
}

struct Pair {
    name: &'static str,
    setup: Vec<(u32, u32, u32)>,
    turn: Vec<(u32, u32, u32)>,
}

fn word_bits(word17: u32) -> Vec<(u32, u32, u32)> {
    let mut v = Vec::new();
    for i in (0..17).rev() {
        v.push((4, (word17 >> i) & 1, 0));
        v.push((5, 1, 0));
        v.push((5, 0, 0));
    }
    v
}

fn cleared(slot: u32) -> Vec<(u32, u32, u32)> {
    let mut v = vec![(0, slot, 0)];
    v.extend(word_bits(twin::with_parity(0x5000)));
    v
}

fn cases() -> Vec<Pair> {
    let sel = cleared(1);
    let mut w = sel.clone();
    w.push((2, 1, 0));
    let mut r = sel.clone();
    r.push((3, 1, 0));
    vec![
        Pair { name: "0 select 1,2", setup: sel.clone(), turn: vec![(0, 2, 0), (0, 1, 0)] },
        Pair { name: "1 heads", setup: sel.clone(), turn: vec![(1, 1, 0), (1, 0, 0)] },
        Pair { name: "2 write gate", setup: sel.clone(), turn: vec![(2, 1, 0), (2, 0, 0)] },
        Pair { name: "3 read gate", setup: sel.clone(), turn: vec![(3, 1, 0), (3, 0, 0)] },
        Pair { name: "4 command data", setup: sel.clone(), turn: vec![(4, 1, 0), (4, 0, 0)] },
        Pair { name: "5 word sent", setup: sel.clone(), turn: word_bits(twin::with_parity(0x5000)) },
        Pair { name: "6 pass", setup: sel.clone(), turn: vec![(6, 10, 0), (6, 20, 0)] },
        Pair { name: "7 cell written", setup: w, turn: vec![(7, 100, 1), (7, 200, 2)] },
        Pair { name: "7 cell read", setup: r, turn: vec![(7, 100, 0), (7, 200, 0)] },
        Pair { name: "8 condition", setup: sel, turn: vec![(8, 1, 1), (8, 1, 2)] },
    ]
}

/// Nanoseconds an event, the least of some runs.
fn least(runs: usize, n: usize, turn: &[(u32, u32, u32)], mut event: impl FnMut(u32, u32, u32)) -> f64 {
    let mut best = f64::MAX;
    for _ in 0..runs {
        let start = Instant::now();
        let mut done = 0;
        while done < n {
            for &(kind, a, b) in turn {
                event(kind, a, b);
            }
            done += turn.len();
        }
        best = best.min(start.elapsed().as_nanos() as f64 / done as f64);
    }
    best
}

#[inline(never)]
fn twin_fit(file: &[u8]) -> twin::Chain {
    twin::Chain::fresh(file).unwrap()
}

extern "C" {
    fn mmap(at: *mut u8, length: usize, protection: i32, flags: i32, file: i32, offset: i64) -> *mut u8;
}

/// A file of two packs whose media are never touched: only the trailers are written.
fn sparse(cylinders: u16, heads: u8) -> &'static mut [u8] {
    let packs = [1, 3].map(|slot| {
        let mut p = twin::smallest_drive(slot);
        (p.cylinders, p.heads, p.track) = (cylinders, heads, 32_768);
        p
    });
    let length: usize = packs.iter().map(|p| twin::pack_length(p) as usize).sum();
    // PROT_READ, PROT_WRITE; MAP_PRIVATE, MAP_ANONYMOUS, MAP_NORESERVE
    let at = unsafe { mmap(std::ptr::null_mut(), length, 3, 0x2 | 0x20 | 0x4000, -1, 0) };
    assert!(at as isize != -1, "no room for {} bytes", length);
    let file = unsafe { std::slice::from_raw_parts_mut(at, length) };
    let mut end = 0;
    for p in &packs {
        end += twin::pack_length(p) as usize;
        let trailer = twin::trailer_of_fields(p);
        file[end - trailer.len()..end].copy_from_slice(&trailer);
    }
    file
}

/// Reading's cost is the trailers', whatever the media hold.
fn fits(n: usize) {
    for (cylinders, heads) in [(8, 2), (1_024, 16)] {
        let file = sparse(cylinders, heads);
        let mut record = esdi::empty();
        assert_eq!(esdi::fit(&mut record, file), (0, 0));
        let ours = least(5, n, &[(0, 0, 0)], |_, _, _| {
            kept(esdi::fit(kept(&mut record), file));
        });
        let plain = least(5, n, &[(0, 0, 0)], |_, _, _| {
            kept(twin_fit(kept(&*file)).length);
        });
        println!("fit of two packs, {:10} bytes: ns through C {:.1}, by the twin {:.1}", file.len(), ours, plain);
    }
}

/// A medium of 100 MB laid through C, and as many bytes set to 0: the least of some turns each.
fn lay(turns: usize) {
    let p = twin::Profile { cylinders: 1_000, heads: 10, track: 10_000, ..twin::smallest_drive(1) };
    let profile = esdi::profile_of(&p);
    let mut part = vec![0xAAu8; twin::pack_length(&p) as usize];
    let (mut ours, mut plain) = (f64::MAX, f64::MAX);
    for _ in 0..turns {
        let start = Instant::now();
        assert_eq!(esdi::lay(&profile, kept(&mut part[..])), 0);
        ours = ours.min(start.elapsed().as_secs_f64());
        let start = Instant::now();
        kept(&mut part[..]).fill(0);
        plain = plain.min(start.elapsed().as_secs_f64());
    }
    println!("a pack of {} bytes laid: ms through C {:.3}, of a memset {:.3}, ratio {:.3}", part.len(), ours * 1e3, plain * 1e3, ours / plain);
}

/// Event lines that select, send words, pass time and move cells.
fn lines(n: usize) {
    use std::io::Write;
    let mut events = cleared(1);
    events.extend(word_bits(twin::with_parity(0x2000)));
    events.extend((0..17).flat_map(|_| [(5, 1, 0), (5, 0, 0)]));
    events.extend([(6, 20, 0), (2, 1, 0), (7, 100, 65), (2, 0, 0), (3, 1, 0), (7, 100, 0), (3, 0, 0), (8, 1, 1), (0, 3, 0)]);
    let mut out = std::io::BufWriter::new(std::io::stdout().lock());
    for (kind, a, b) in events.iter().cycle().take(n) {
        writeln!(out, "{} {} {}", kind, a, b).unwrap();
    }
}

/// Microseconds from the sample before to an edge: a pause ahead of a select, so that the time splits, a gate a while
/// behind the word, and the handshake at a host's pace.
fn pace(kind: u32) -> u32 {
    match kind {
        0 => 100_000,
        2 | 3 => 40,
        _ => 5,
    }
}

/// An exchange, over and over: the drive is selected, its attention cleared, its status fetched, and both gates are
/// raised and lowered; then it is left. A sample an edge; the stamp runs over within the first thousands.
fn capture(n: usize) {
    use std::io::Write;
    let mut events = cleared(1);
    events.extend(word_bits(twin::with_parity(0x2000)));
    events.extend((0..17).flat_map(|_| [(5, 1, 0), (5, 0, 0)]));
    events.extend([(2, 1, 0), (2, 0, 0), (3, 1, 0), (3, 0, 0), (4, 0, 0), (0, 0, 0)]);
    let mut edges: Vec<(u32, u16)> = Vec::new();
    for (kind, a, _) in events {
        let before = edges.last().map_or(0, |edge| edge.1);
        let levels = twin::levels_with(before, kind, a).expect("a line");
        if levels != before {
            edges.push((pace(kind), levels));
        }
    }
    let mut stamp = 0u32.wrapping_sub(1_000_000);
    let mut out = std::io::BufWriter::new(std::io::stdout().lock());
    for (wait, levels) in edges.iter().cycle().take(n) {
        stamp = stamp.wrapping_add(*wait);
        out.write_all(&twin::sample_of(stamp, *levels)).unwrap();
    }
    out.flush().unwrap();
}

fn run() {
    let arguments: Vec<String> = std::env::args().skip(1).collect();
    if arguments.first().map_or(false, |s| s == "lines") {
        return lines(arguments[1].parse().expect("a number"));
    }
    if arguments.first().map_or(false, |s| s == "capture") {
        return capture(arguments[1].parse().expect("a number"));
    }
    if arguments.first().map_or(false, |s| s == "fits") {
        return fits(arguments[1].parse().expect("a number"));
    }
    if arguments.first().map_or(false, |s| s == "lay") {
        return lay(arguments[1].parse().expect("a number"));
    }
    let n: usize = arguments.first().map(|s| s.parse().expect("a number")).unwrap_or(1_000_000);
    let only: Option<usize> = arguments.get(1).map(|s| s.parse().expect("a case"));
    let fitted = arguments.get(2).map_or(vec![1u8, 7], |s| vec![s.parse().expect("how many drives")]);
    let runs = |who: &str| if arguments.get(3).map_or(true, |s| s == who) { 5 } else { 0 };
    for drives in fitted {
        println!("{} fitted: ns an event through C, by the twin, of the limit; ratio to the twin, to the limit", drives);
        let profiles: Vec<_> = (1..=drives).map(profile).collect();
        for (number, case) in cases().into_iter().enumerate() {
            if only.map_or(false, |o| o != number) {
                continue;
            }
            let mut file = twin::file_of_packs(&profiles);
            let mut chain = twin::Chain::fresh(&file).unwrap();
            for &(kind, a, b) in &case.setup {
                twin::step(&mut chain, &mut file, kind, a, b);
            }
            let mut record = esdi::record_of(&chain);
            let ours = least(runs("ours"), n, &case.turn, |kind, a, b| {
                kept(esdi::event(&mut record, &mut file, kind, a, b));
            });
            let plain = least(runs("twin"), n, &case.turn, |kind, a, b| {
                kept(twin::step(kept(&mut chain), &mut file, kind, a, b));
            });
            let limit = least(runs("limit"), n, &case.turn, |_, _, _| {
                kept(esdi::limit(kept(&record)));
            });
            println!("{:16} {:7.1} {:7.1} {:7.1} {:6.2} {:6.2}", case.name, ours, plain, limit, ours / plain, ours / limit);
        }
    }
}

#[cfg(not(plain_main))]
fn main() {
    run();
}

/// Where the standard start of a Rust program isn't to be had, as under some emulators.
#[cfg(plain_main)]
#[no_mangle]
pub extern "C" fn main() -> i32 {
    run();
    0
}
