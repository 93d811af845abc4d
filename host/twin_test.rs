//! Tests of the twin: the paper's own values, tests of how the paper is read,
//! and random trials of soundness, refusals, demand 3 and the pack file. A
//! test `decision_N` tries the decision of that number in docs/DECISIONS.md,
//! `request_N` that request of document 02; `differences` is
//! docs/DIFFERENCES.md. Figures are printed with `--nocapture`.

use super::*;
use std::collections::BTreeMap;

// ===========================================================================
// A small random source (splitmix64) and the bench
// ===========================================================================

struct Dice(u64);

impl Dice {
    fn next(&mut self) -> u64 {
        self.0 = self.0.wrapping_add(0x9E37_79B9_7F4A_7C15);
        let mut z = self.0;
        z = (z ^ (z >> 30)).wrapping_mul(0xBF58_476D_1CE4_E5B9);
        z = (z ^ (z >> 27)).wrapping_mul(0x94D0_49BB_1331_11EB);
        z ^ (z >> 31)
    }

    /// 0..=most
    fn upto(&mut self, most: u32) -> u32 {
        (self.next() % (most as u64 + 1)) as u32
    }

    fn between(&mut self, least: u32, most: u32) -> u32 {
        least + self.upto(most - least)
    }

    fn one_in(&mut self, n: u32) -> bool {
        self.upto(n - 1) == 0
    }

    fn coin(&mut self) -> bool {
        self.one_in(2)
    }

    fn pick(&mut self, from: &[u32]) -> u32 {
        from[self.upto(from.len() as u32 - 1) as usize]
    }
}

#[derive(Clone)]
struct Bench {
    chain: Chain,
    file: Vec<u8>,
}

impl Bench {
    fn of(profiles: &[Profile]) -> Bench {
        let file = file_of_packs(profiles);
        let chain = Chain::fresh(&file).unwrap();
        assert!(sound(&chain, file.len()));
        Bench { chain, file }
    }

    fn ev(&mut self, kind: u32, a: u32, b: u32) -> (u8, u8) {
        let answer = step(&mut self.chain, &mut self.file, kind, a, b);
        if answer.0 < 20 {
            assert_eq!(broken_clauses(&self.chain), Vec::<&str>::new());
        }
        answer
    }

    /// The answer alone, for events that have no value.
    fn a(&mut self, kind: u32, a: u32, b: u32) -> u8 {
        let (answer, value) = self.ev(kind, a, b);
        assert_eq!(value, 0);
        answer
    }

    fn d(&self, slot: u8) -> &Drive {
        self.chain.in_slot(slot).unwrap()
    }

    fn dm(&mut self, slot: u8) -> &mut Drive {
        self.chain.in_slot_mut(slot).unwrap()
    }

    fn sum(&self) -> u8 {
        line_sum(&self.chain)
    }

    /// The first `bits` bits of a word; the answers of the request edges.
    fn bits(&mut self, word17: u32, bits: u32) -> Vec<u8> {
        let mut answers = Vec::new();
        for n in 0..bits {
            self.a(4, (word17 >> (16 - n)) & 1, 0);
            answers.push(self.a(5, 1, 0));
            answers.push(self.a(5, 0, 0));
        }
        answers
    }

    /// A whole word; the answer of its last fall, all others being 0.
    fn send(&mut self, word17: u32) -> u8 {
        let mut answers = self.bits(word17, 17);
        let last = answers.pop().unwrap();
        assert!(answers.iter().all(|a| *a == 0));
        last
    }

    /// A word with its right parity bit.
    fn word(&mut self, word: u16) -> u8 {
        self.send(with_parity(word))
    }

    /// The seventeen bits of the response.
    fn fetch(&mut self) -> u32 {
        let mut response = 0;
        for _ in 0..17 {
            assert_eq!(self.a(5, 1, 0), 0);
            assert_eq!(self.sum() & 4, 4);
            response = response * 2 + (self.sum() >> 3 & 1) as u32;
            assert_eq!(self.a(5, 0, 0), 0);
            assert_eq!(self.sum() & 12, 0);
        }
        response
    }

    /// A request word and its response word.
    fn ask(&mut self, word: u16) -> u16 {
        assert_eq!(self.word(word), 0);
        let response = self.fetch();
        assert!(parity_is_odd(response));
        (response >> 1) as u16
    }

    /// Control 0, so that writing may begin.
    fn clear(&mut self) {
        assert_eq!(self.word(0x5000), 0);
        assert_eq!(self.sum() & 16, 0);
    }
}

/// "1,250 cylinders, 7 heads, general word 024Ah, track 20,832, sector 512,
/// gap 16, sync 16, vendor 14 hex, settle 3,000, step 20, other fields 0"
/// (the slot must be 1..7, so it is 1).
fn worked_profile() -> Profile {
    Profile {
        slot: 1,
        general: 0x024A,
        cylinders: 1_250,
        heads: 7,
        vendor: 0x14,
        track: 20_832,
        sector: 512,
        gap: 16,
        sync: 16,
        protected: 0,
        settle: 3_000,
        step: 20,
        switch: 0,
        recalibrate: 0,
        start: 0,
        diagnostic: 0,
        offset: 0,
    }
}

/// A small drive with every option: removable or fixed, hard sectored, slow
/// head switch, offset and motor options.
fn rich(slot: u8, removable: bool) -> Profile {
    Profile {
        slot,
        general: 0x2232 | if removable { 0x80 } else { 0x40 },
        cylinders: 10,
        heads: 2,
        vendor: 0x77,
        track: 4_100,
        sector: 500,
        gap: 9,
        sync: 11,
        protected: 0,
        settle: 100,
        step: 7,
        switch: 40,
        recalibrate: 5_000,
        start: 20_000,
        diagnostic: 300,
        offset: 250,
    }
}

fn soft(slot: u8) -> Profile {
    Profile { general: 0x2274, sector: 0, ..rich(slot, false) }
}

/// A bench with a rich fixed drive in 2 and a rich removable one in 5, the
/// first selected and attention down.
fn rich_bench() -> Bench {
    let mut b = Bench::of(&[rich(2, false), rich(5, true)]);
    assert_eq!(b.a(0, 2, 0), 0);
    b.clear();
    b
}

const B8: u16 = 1 << 8;
const B7: u16 = 1 << 7;
const B6: u16 = 1 << 6;
const B5: u16 = 1 << 5;
const B4: u16 = 1 << 4;
const B3: u16 = 1 << 3;
const B1: u16 = 1 << 1;
const B0: u16 = 1;

// ===========================================================================
// The runner
// ===========================================================================

#[test]
fn runner_example_whole() {
    let input = b"6 5 0\n0 1 0\n2 1 0\n2 0 0\n0 2 0\n7 0 9\n9 0 0\n";
    let output = "1 0 0 0\n2 0 0 51\n3 4 0 51\n4 0 0 51\n5 3 0 0\n6 3 0 0\n7 20 0 0\n";
    assert_eq!(Runner::smallest().run(input), output);
    // "the last newline may be missing"
    assert_eq!(Runner::smallest().run(&input[..input.len() - 1]), output);
}

#[test]
fn runner_drives_are_the_smallest() {
    let runner = Runner::smallest();
    assert_eq!(runner.file.len(), 2 * (4_095 + 44));
    assert_eq!(runner.chain.in_slot(1).unwrap().place, 0);
    assert_eq!(runner.chain.in_slot(3).unwrap().place, 4_139);
    for slot in [2, 4, 5, 6, 7].iter() {
        assert!(runner.chain.in_slot(*slot).is_none());
    }
}

#[test]
fn decision_21_lines() {
    let unreadable: [&[u8]; 24] = [
        b"", b"0", b"0 0", b"0 0 0 0", b"0 0 0 ", b" 0 0 0", b"0  0 0", b"0 0  0", b"0\t0 0",
        b"0 0 0\r", b"+0 0 0", b"-0 0 0", b"0 0 -0", b"0 0 65536", b"65536 0 0", b"0 65536 0",
        b"0 0 99999999999999999999999999", b"0 0 0.", b"0,0,0", b"a 0 0", b"0 0 0x1", b"0 0 \xff",
        b"\r", b"0 0 0\x00",
    ];
    for line in unreadable.iter() {
        assert_eq!(event_of_line(line), None, "{:?}", line);
        let mut runner = Runner::smallest();
        assert_eq!(runner.line(line), "1 19 0 0\n");
    }
    assert_eq!(event_of_line(b"65535 65535 65535"), Some((65_535, 65_535, 65_535)));
    assert_eq!(event_of_line(b"000 0001 00"), Some((0, 1, 0)));
    // Any number of leading zeros, lines of any length.
    let mut long = vec![b'0'; 100_000];
    long.extend_from_slice(b"6 5 0");
    assert_eq!(event_of_line(&long), Some((6, 5, 0)));
    // Empty input prints nothing (decision 49), an empty line is a line.
    assert_eq!(Runner::smallest().run(b""), "");
    assert_eq!(Runner::smallest().run(b"\n"), "1 19 0 0\n");
    assert_eq!(Runner::smallest().run(b"0 1 0\n\n"), "1 0 0 51\n2 19 0 51\n");
    // The sum is taken after the event, also after a refused one (decision 49).
    assert_eq!(Runner::smallest().run(b"0 1 0\n9 0 0\n0 8 0"), "1 0 0 51\n2 20 0 51\n3 21 0 51\n");
    // Up to 65,535 a number is readable and the event is refused.
    assert_eq!(Runner::smallest().run(b"65535 0 0\n0 65535 0\n"), "1 20 0 0\n2 21 0 0\n");
}

#[test]
fn decision_49_sum_has_the_status_line() {
    let mut b = Bench::of(&[smallest_drive(1)]);
    b.a(0, 1, 0);
    assert_eq!(b.sum(), 51);
    assert_eq!(b.bits(with_parity(0x2000), 1), vec![0, 0]);
    assert_eq!(b.sum(), 1 + 2 + 16);
    // The rest of the word's bits.
    let mut word = with_parity(0x2000) << 1;
    for _ in 0..16 {
        b.a(4, word >> 16 & 1, 0);
        b.a(5, 1, 0);
        assert_eq!(b.sum(), 1 + 2 + 4 + 16); // data is 0 while bits go in
        b.a(5, 0, 0);
        word <<= 1;
    }
    assert_eq!(b.d(1).transfer, Transfer::Responding);
    // 0100h, parity 0: the eighth bit out is the only one.
    for n in 1..=17 {
        b.a(5, 1, 0);
        assert_eq!(b.sum(), 1 + 2 + 4 + 16 + if n == 8 { 8 } else { 0 });
        b.a(5, 0, 0);
        assert_eq!(b.sum(), if n == 17 { 51 } else { 19 });
    }
}

// ===========================================================================
// Worked values, by the plain word rules and by the handshake
// ===========================================================================

fn fresh_worked() -> Drive {
    fresh_drive(worked_profile(), 0)
}

/// Both ways of giving a word to the fresh worked drive.
fn both_ways(word: u16, parity: u32) -> (Drive, Option<u32>) {
    let word17 = (word as u32) << 1 | parity;
    let mut plain = fresh_worked();
    let response = plain_word(&mut plain, word17);
    let mut b = Bench::of(&[worked_profile()]);
    b.a(0, 1, 0);
    b.send(word17);
    let fetched = match b.d(1).transfer {
        Transfer::Responding => Some(b.fetch()),
        _ => None,
    };
    assert_eq!(*b.d(1), plain);
    assert_eq!(fetched, response);
    (plain, response)
}

#[test]
fn worked_profile_is_valid() {
    assert!(valid_profile(&worked_profile()));
}

#[test]
fn worked_a() {
    let (d, response) = both_ways(0x2000, 0);
    assert_eq!(response, Some(0x0100 << 1));
    assert_eq!(d, fresh_worked());
}

#[test]
fn worked_b() {
    let (d, response) = both_ways(0x0000, 0);
    assert_eq!(response, None);
    assert_eq!(d, Drive { latched: B8 | B7, ..fresh_worked() });
}

#[test]
fn worked_c() {
    let (d, response) = both_ways(0x04E1, 0);
    assert_eq!(response, None);
    assert_eq!(d, Drive { cylinder: 1_249, busy: 3_000 + 20 * 1_249, ..fresh_worked() });
}

#[test]
fn worked_d() {
    let (d, response) = both_ways(0x04E2, 0);
    assert_eq!(response, None);
    assert_eq!(d, Drive { latched: B8 | B5, ..fresh_worked() });
}

#[test]
fn worked_e() {
    let (mut d, response) = both_ways(0x90A2, 0);
    assert_eq!(response, None);
    assert_eq!(d, Drive { sector: 162, ..fresh_worked() });
    assert_eq!(plain_word(&mut d, with_parity(0x3500)), Some(with_parity(162)));
    assert_eq!(plain_word(&mut d, with_parity(0x3600)), Some(with_parity(128)));
}

#[test]
fn worked_f() {
    let (d, response) = both_ways(0x90A1, 0);
    assert_eq!(response, None);
    assert_eq!(d, Drive { latched: B8 | B5, ..fresh_worked() });
}

#[test]
fn worked_g() {
    let (d, response) = both_ways(0x3F00, 1);
    assert_eq!(response, Some(0x1400 << 1 | 1));
    assert_eq!(d, fresh_worked());
}

#[test]
fn worked_h() {
    let (d, _) = both_ways(0x000A, 1);
    assert_eq!(d, Drive { cylinder: 10, busy: 3_200, ..fresh_worked() });
}

// ===========================================================================
// Easy to get wrong
// ===========================================================================

#[test]
fn easy_configuration_6_is_of_the_size_in_force() {
    let mut b = rich_bench();
    assert_eq!(b.ask(0x3500), 500);
    assert_eq!(b.ask(0x3600), 8);
    assert_eq!(b.word(0x9000 | 1_000), 0);
    assert_eq!(b.ask(0x3500), 1_000);
    assert_eq!(b.ask(0x3600), 4);
    assert_eq!(b.d(2).profile.sector, 500);
}

#[test]
fn easy_word_is_carried_out_on_the_fall_of_its_17th_bit() {
    let mut b = rich_bench();
    let word17 = with_parity(0x0003);
    b.bits(word17, 16);
    b.a(4, word17 & 1, 0);
    assert_eq!(b.a(5, 1, 0), 0);
    assert_eq!((b.d(2).cylinder, b.d(2).count, b.d(2).acknowledge), (0, 17, true));
    assert_eq!(b.a(5, 0, 0), 0);
    assert_eq!((b.d(2).cylinder, b.d(2).busy, b.d(2).transfer), (3, 121, Transfer::None));
}

#[test]
fn easy_deselecting_during_a_seek_is_no_fault() {
    let mut b = rich_bench();
    assert_eq!(b.word(0x0003), 0);
    assert_eq!(b.d(2).busy, 121);
    assert_eq!(b.a(0, 5, 0), 0);
    assert_eq!(b.d(2).latched, 0);
    assert_eq!(b.a(6, 121, 0), 0);
    assert!(command_complete(b.d(2)));
}

// ===========================================================================
// Answers
// ===========================================================================

#[test]
fn decision_34_word_faults_are_answered_on_the_17th_fall() {
    let mut b = rich_bench();
    assert_eq!(b.send(with_parity(0x2000) ^ 1), 5); // even parity
    assert_eq!(b.d(2).latched, B7);
    assert_eq!(b.word(0x4000), 5); // invalid
    assert_eq!(b.d(2).latched, B7 | B5);
    assert_eq!(b.word(0x4000), 5); // "even if its bit stood already"
    assert_eq!(b.word(0x5200), 0); // stop
    assert_eq!(b.word(0x0001), 5); // seek when not ready
    assert_eq!(b.d(2).latched, B7 | B5 | B4);
}

#[test]
fn decision_31_and_35_transfer_dropped_by_time_is_5_and_kind_6_is_never_3() {
    let mut b = rich_bench();
    b.bits(0, 3);
    assert_eq!(b.a(6, 10_000, 0), 0);
    assert_eq!(b.a(6, 1, 0), 5);
    assert_eq!(b.d(2).latched, B6);
    assert_eq!(b.a(6, 20_000, 0), 0);
    assert_eq!(b.a(0, 0, 0), 3);
    assert_eq!(b.a(6, 1, 0), 0);
    let mut none = Bench::of(&[]);
    assert_eq!(none.a(6, 65_535, 0), 0);
}

#[test]
fn decision_34_leaving_is_5_even_into_an_empty_slot() {
    for to in [0, 1, 5].iter() {
        let mut b = rich_bench();
        b.bits(0, 1);
        assert_eq!(b.a(0, *to, 0), 5);
        assert_eq!(b.d(2).latched, B6);
        assert_eq!(b.d(2).transfer, Transfer::None);
        let mut b = rich_bench();
        assert_eq!(b.a(2, 1, 0), 0);
        assert!(b.d(2).writing);
        assert_eq!(b.a(0, *to, 0), 5);
        assert_eq!((b.d(2).latched, b.d(2).writing), (B6, false));
    }
}

#[test]
fn decision_35_inhibition_is_a_drives() {
    let mut b = rich_bench();
    assert_eq!(b.a(0, 3, 0), 3);
    assert_eq!(b.a(2, 1, 0), 3);
    assert_eq!(b.a(3, 1, 0), 3); // also with the other gate on
    assert_eq!(b.a(7, 0, 0), 3);
    assert_eq!(b.a(5, 1, 0), 3);
}

#[test]
fn decision_35_a_line_set_to_its_level() {
    let mut b = rich_bench();
    for kind in 1..=5 {
        assert_eq!(b.a(kind, 0, 0), 0);
    }
    assert_eq!(b.a(0, 2, 0), 0);
    // A gate inhibited by attention is not inhibited again.
    b.a(8, 2, 1);
    assert_eq!(b.a(2, 1, 0), 4);
    let before = b.chain;
    assert_eq!(b.a(2, 1, 0), 0);
    assert_eq!(b.chain, before);
    b.a(2, 0, 0);
    // A request that faulted does not fault again.
    b.a(3, 1, 0);
    assert_eq!(b.a(5, 1, 0), 5);
    assert_eq!(b.a(5, 1, 0), 0);
    assert_eq!(b.a(0, 7, 0), 3);
    for (kind, level) in [(0, 7), (1, 0), (2, 0), (3, 1), (4, 0), (5, 1)].iter() {
        let before = b.chain;
        assert_eq!(b.a(*kind, *level, 0), 3);
        assert_eq!(b.chain, before);
    }
    // A transfer stays open when its drive is selected once more.
    let mut b = rich_bench();
    b.bits(0, 4);
    let before = b.chain;
    assert_eq!(b.a(0, 2, 0), 0);
    assert_eq!(b.chain, before);
}

#[test]
fn decision_36_operands() {
    let mut b = rich_bench();
    let most = [7, 15, 1, 1, 1, 1, 65_535];
    for kind in 0..=6u32 {
        assert_eq!(b.a(kind, most[kind as usize] + 1, 0), 21);
        assert_eq!(b.a(kind, u32::max_value(), 0), 21);
        assert_eq!(b.a(kind, 0, 1), 21);
        assert_ne!(b.a(kind, most[kind as usize], 0), 21);
    }
    assert_eq!(b.a(7, 0, 256), 21);
    assert_eq!(b.a(7, 65_536, 0), 21);
    assert_ne!(b.a(7, 65_535, 255), 21);
    for (slot, condition) in [(0, 1), (8, 1), (2, 0), (2, 5), (0, 0), (65_535, 3)].iter() {
        assert_eq!(b.a(8, *slot, *condition), 21);
    }
    for kind in [9, 10, 255, 65_535, u32::max_value()].iter() {
        assert_eq!(b.a(*kind, 99_999, 99_999), 20);
    }
}

#[test]
fn decision_37_25_is_tried_before_inhibition() {
    let mut b = rich_bench();
    assert_eq!(b.a(7, 4_100, 0), 25);
    assert_eq!(b.a(7, 4_099, 0), 4);
    assert_eq!(b.a(0, 1, 0), 3);
    assert_eq!(b.a(7, 65_535, 0), 3);
}

#[test]
fn decision_37_a_byte_written_that_was_there_is_2() {
    let mut b = rich_bench();
    assert_eq!(b.a(2, 1, 0), 0);
    let before = b.file.clone();
    assert_eq!(b.a(7, 17, 0), 2);
    assert_eq!(b.file, before);
    assert_eq!(b.a(7, 17, 200), 2);
    assert_eq!(b.a(7, 17, 200), 2);
    assert_eq!(b.file[17], 200);
}

#[test]
fn decision_38_leaving_a_reading_drive_ends_its_reading() {
    for (to, answer) in [(0, 3), (1, 3), (5, 0)].iter() {
        let mut b = rich_bench();
        assert_eq!(b.a(3, 1, 0), 0);
        assert!(b.d(2).reading);
        assert_eq!(b.a(0, *to, 0), *answer);
        assert_eq!((b.d(2).reading, b.d(2).latched), (false, 0));
        // "A line already high is no rise."
        assert_eq!(b.a(0, 2, 0), 0);
        assert!(!b.d(2).reading);
        assert_eq!(b.a(7, 0, 0), 4);
    }
}

#[test]
fn decision_32_and_51_order_of_refusals() {
    // Everything wrong at once, then less and less.
    let mut b = rich_bench();
    let good = b.chain;
    b.dm(2).busy = 30_000_001;
    b.chain.length -= 1;
    assert_eq!(b.a(9, 8, 9), 20);
    assert_eq!(b.a(8, 3, 9), 21);
    assert_eq!(b.a(8, 3, 1), 22);
    b.chain = good;
    b.file.pop();
    assert_eq!(b.a(8, 3, 1), 23);
    assert_eq!(b.a(7, 5_000, 1), 23);
    b.file.push(0);
    assert_eq!(b.a(8, 3, 1), 24);
    assert_eq!(b.a(8, 2, 3), 24); // 3 on a fixed drive
    assert_eq!(b.a(7, 5_000, 1), 25);
    assert_eq!(b.a(8, 5, 3), 0); // 3 on a removable drive
    assert_eq!(b.d(5).latched, B8 | B0);
}

// ===========================================================================
// Gates, heads, select
// ===========================================================================

#[test]
fn decision_18_gate_on_is_the_lines_level() {
    // A write gate that was inhibited is on all the same.
    let mut b = rich_bench();
    b.a(8, 2, 1);
    assert_eq!(b.a(2, 1, 0), 4);
    assert_eq!(b.a(3, 1, 0), 5);
    assert_eq!(b.d(2).latched, B1 | B6);
    assert!(!b.d(2).reading);
    // A read gate that was inhibited is on all the same.
    let mut b = rich_bench();
    b.a(8, 2, 2);
    assert_eq!(b.a(3, 1, 0), 4);
    assert_eq!(b.a(2, 1, 0), 5);
    assert_eq!(b.d(2).latched, B4 | B6);
    // The request's rise too.
    assert_eq!(b.a(2, 0, 0), 0);
    assert_eq!(b.a(5, 1, 0), 5);
    assert!(!b.d(2).acknowledge);
}

#[test]
fn decision_18_only_the_first_rule_applies() {
    // Read gate on, attention up, offset, not ready, lost: bit 6 alone.
    let mut b = rich_bench();
    b.a(3, 1, 0);
    b.dm(2).reading = false;
    b.dm(2).offset = 1;
    b.dm(2).motor = Motor::Stopped;
    b.dm(2).lost = true;
    b.dm(2).latched = B0;
    let all = b.clone();
    assert_eq!(b.a(2, 1, 0), 5);
    assert_eq!(b.d(2).latched, B0 | B6);
    // Then attention: inhibited.
    let mut b = all.clone();
    b.chain.read_gate = false;
    assert_eq!(b.a(2, 1, 0), 4);
    assert_eq!(b.d(2).latched, B0);
    // Then offset: bit 3.
    let mut b = all.clone();
    b.chain.read_gate = false;
    b.dm(2).latched = 0;
    assert_eq!(b.a(2, 1, 0), 5);
    assert_eq!(b.d(2).latched, B3);
    // Then bit 1.
    let mut b = all.clone();
    b.chain.read_gate = false;
    b.dm(2).latched = 0;
    b.dm(2).offset = 0;
    assert_eq!(b.a(2, 1, 0), 5);
    assert_eq!(b.d(2).latched, B1);
}

#[test]
fn write_gate_bit_1_causes_each_alone() {
    let causes: [fn(&mut Bench); 6] = [
        |b| b.dm(2).motor = Motor::Stopped,
        |b| b.dm(2).busy = 1,
        |b| b.dm(2).head_timer = 1,
        |b| b.dm(2).lost = true,
        |b| {
            b.a(1, 2, 0); // head 2 of two heads isn't present
            b.dm(2).head_timer = 0;
        },
        |b| b.dm(2).profile.protected = 1,
    ];
    for (n, cause) in causes.iter().enumerate() {
        let mut b = rich_bench();
        cause(&mut b);
        assert_eq!(b.a(2, 1, 0), 5);
        assert_eq!((b.d(2).latched, b.d(2).writing), (B1, false));
        // The read gate is inhibited by all of them but protection.
        let mut b = rich_bench();
        cause(&mut b);
        let protected = n == 5;
        assert_eq!(b.a(3, 1, 0), if protected { 0 } else { 4 });
        assert_eq!((b.d(2).latched, b.d(2).reading), (0, protected));
    }
    // Offset does not inhibit reading.
    let mut b = rich_bench();
    b.dm(2).offset = -1;
    assert_eq!(b.a(3, 1, 0), 0);
    assert!(b.d(2).reading);
}

#[test]
fn decision_18_and_50_read_gate_has_no_attention_test() {
    let mut b = Bench::of(&[rich(2, true)]);
    b.a(0, 2, 0);
    assert_eq!(b.d(2).latched, B8);
    assert_eq!(b.a(3, 1, 0), 0);
    assert!(b.d(2).reading);
    // Reading goes on through bit 6 of a request's rise ...
    assert_eq!(b.a(5, 1, 0), 5);
    assert!(b.d(2).reading);
    // ... and through conditions 1 and 3, but not 2.
    assert_eq!(b.a(8, 2, 1), 0);
    assert_eq!(b.a(8, 2, 3), 0);
    assert!(b.d(2).reading);
    assert_eq!(b.d(2).latched, B8 | B6 | B1 | B0);
    assert_eq!(b.a(7, 0, 0), 1);
    assert_eq!(b.a(8, 2, 2), 0);
    assert!(!b.d(2).reading && b.d(2).lost);
}

#[test]
fn decision_17_and_18_latching_ends_writing() {
    for condition in 1..=2 {
        let mut b = rich_bench();
        b.a(2, 1, 0);
        assert!(b.d(2).writing);
        assert_eq!(b.a(8, 2, condition), 0);
        assert!(!b.d(2).writing);
        assert_eq!(b.a(7, 0, 1), 4);
    }
    let mut b = rich_bench();
    b.a(2, 1, 0);
    assert_eq!(b.a(5, 1, 0), 5);
    assert_eq!((b.d(2).writing, b.d(2).latched), (false, B6));
    // The read gate's rise ends writing by bit 6, and reads nothing.
    let mut b = rich_bench();
    b.a(2, 1, 0);
    assert_eq!(b.a(3, 1, 0), 5);
    assert_eq!((b.d(2).writing, b.d(2).reading, b.d(2).latched), (false, false, B6));
    // The write gate's rise ends reading by bit 6.
    let mut b = rich_bench();
    b.a(3, 1, 0);
    assert_eq!(b.a(2, 1, 0), 5);
    assert_eq!((b.d(2).writing, b.d(2).reading, b.d(2).latched), (false, false, B6));
}

#[test]
fn decision_39_gate_rising_with_a_transfer_open() {
    let mut b = rich_bench();
    b.bits(0, 2);
    assert_eq!(b.a(3, 1, 0), 4);
    assert_eq!((b.d(2).transfer, b.d(2).latched), (Transfer::Taking, 0));
    // With the gate down again the transfer goes on ...
    assert_eq!(b.a(3, 0, 0), 0);
    assert_eq!(b.a(5, 1, 0), 0);
    assert_eq!(b.a(5, 0, 0), 0);
    assert_eq!(b.d(2).count, 3);
    // ... and with the gate still on the next rise drops it.
    assert_eq!(b.a(3, 1, 0), 4);
    assert_eq!(b.a(5, 1, 0), 5);
    assert_eq!((b.d(2).transfer, b.d(2).latched), (Transfer::None, B6));
    assert!(!b.d(2).acknowledge);
    // Write gate: attention, offset, then bit 1.
    let mut b = rich_bench();
    b.bits(0, 2);
    let open = b.clone();
    assert_eq!(b.a(2, 1, 0), 5);
    assert_eq!((b.d(2).transfer, b.d(2).latched), (Transfer::Taking, B1));
    let mut b = open.clone();
    b.dm(2).offset = 1;
    assert_eq!(b.a(2, 1, 0), 5);
    assert_eq!((b.d(2).transfer, b.d(2).latched), (Transfer::Taking, B3));
    let mut b = open.clone();
    b.a(8, 2, 1);
    assert_eq!(b.a(2, 1, 0), 4);
    assert_eq!((b.d(2).transfer, b.d(2).latched), (Transfer::Taking, B1));
}

#[test]
fn decision_39_gates_and_completeness_are_asked_on_the_rise() {
    // A gate that rose between the 17th rise and its fall.
    let mut b = rich_bench();
    let word17 = with_parity(0x0003);
    b.bits(word17, 16);
    b.a(4, word17 & 1, 0);
    b.a(5, 1, 0);
    assert_eq!(b.a(3, 1, 0), 4);
    assert_eq!(b.a(5, 0, 0), 0);
    assert_eq!((b.d(2).cylinder, b.d(2).latched), (3, 0));
    // A head timer started within the transfer.
    let mut b = rich_bench();
    b.bits(word17, 5);
    assert_eq!(b.a(1, 1, 0), 0);
    assert_eq!(b.d(2).head_timer, 40);
    for n in 5..17 {
        b.a(4, word17 >> (16 - n) & 1, 0);
        assert_eq!(b.a(5, 1, 0), 0);
        assert_eq!(b.a(5, 0, 0), 0);
    }
    assert_eq!((b.d(2).cylinder, b.d(2).head_timer), (3, 40));
}

#[test]
fn decision_40_entering_a_drive_with_another_head() {
    let mut b = rich_bench();
    assert_eq!(b.a(0, 0, 0), 3);
    // Head lines moved with no fitted drive selected alter no drive.
    assert_eq!(b.a(1, 1, 0), 3);
    assert_eq!((b.d(2).head, b.d(5).head), (0, 0));
    assert_eq!(b.a(0, 2, 0), 0);
    assert_eq!((b.d(2).head, b.d(2).head_timer, b.d(5).head), (1, 40, 0));
    assert_eq!(b.sum(), 1 + 2);
    // A timer that runs starts anew.
    assert_eq!(b.a(6, 30, 0), 0);
    assert_eq!(b.d(2).head_timer, 10);
    assert_eq!(b.a(1, 0, 0), 0);
    assert_eq!(b.d(2).head_timer, 40);
    // Entering with the same head changes nothing.
    assert_eq!(b.a(6, 40, 0), 0);
    assert_eq!(b.a(0, 5, 0), 0);
    assert_eq!(b.d(5).head_timer, 0);
    // Leaving and entering with another head while the timer runs.
    assert_eq!(b.a(1, 3, 0), 0);
    assert_eq!(b.a(6, 39, 0), 0);
    assert_eq!((b.a(0, 2, 0), b.d(2).head_timer, b.d(5).head_timer), (0, 40, 1));
    // A switch time of 15 or less starts no timer.
    let quick = Profile { switch: 15, general: rich(1, false).general & !B4, ..rich(1, false) };
    let mut b = Bench::of(&[quick]);
    b.a(0, 1, 0);
    assert_eq!((b.a(1, 1, 0), b.d(1).head, b.d(1).head_timer), (0, 1, 0));
}

#[test]
fn decision_19_head_change_while_writing() {
    let mut b = rich_bench();
    b.a(2, 1, 0);
    assert_eq!(b.a(1, 1, 0), 5);
    let d = b.d(2);
    assert_eq!((d.latched, d.writing, d.head, d.head_timer), (B6, false, 1, 40));
    // While reading it ends reading and is no fault.
    let mut b = rich_bench();
    b.a(3, 1, 0);
    assert_eq!(b.a(1, 1, 0), 0);
    let d = b.d(2);
    assert_eq!((d.latched, d.reading, d.head, d.head_timer), (0, false, 1, 40));
}

// ===========================================================================
// Time, motor, words
// ===========================================================================

#[test]
fn decision_41_ten_thousand_microseconds() {
    for high in [false, true].iter() {
        for parts in [vec![10_000], vec![1, 9_999], vec![2_500; 4], vec![0, 10_000, 0]].iter() {
            let mut b = rich_bench();
            b.bits(0, 3);
            if *high {
                b.a(5, 1, 0);
            }
            for part in parts {
                assert_eq!(b.a(6, *part, 0), 0);
            }
            let mut late = b.clone();
            assert_eq!(late.a(6, 1, 0), 5);
            assert_eq!((late.d(2).transfer, late.d(2).latched), (Transfer::None, B6));
            assert!(!late.d(2).acknowledge);
            // Both edges count.
            assert_eq!(b.a(5, !*high as u32, 0), 0);
            assert_eq!(b.d(2).waiting, 0);
            assert_eq!(b.a(6, 10_000, 0), 0);
            assert!(transfer_open(b.d(2)));
        }
    }
    // Timers fall by the whole time, also where the transfer is dropped
    // within it.
    let mut b = rich_bench();
    b.bits(0, 3);
    b.dm(2).busy = 30_000;
    b.dm(2).head_timer = 11_000;
    b.dm(5).busy = 40_000;
    assert_eq!(b.a(6, 25_000, 0), 5);
    assert_eq!((b.d(2).busy, b.d(2).head_timer, b.d(5).busy), (5_000, 0, 15_000));
    // After the drop the request's fall is nothing, its next rise a new word.
    let mut b = rich_bench();
    b.a(4, 1, 0);
    b.a(5, 1, 0);
    assert_eq!(b.a(6, 10_001, 0), 5);
    assert_eq!(b.a(5, 0, 0), 0);
    assert!(!transfer_open(b.d(2)));
    assert_eq!(b.a(5, 1, 0), 0);
    assert_eq!((b.d(2).count, b.d(2).bits), (1, 1));
}

#[test]
fn decision_16_and_25_starting_motor_is_up_whenever_busy_is_0() {
    // By time.
    let mut b = rich_bench();
    assert_eq!(b.word(0x5200), 0);
    assert_eq!(b.d(2).motor, Motor::Stopped);
    assert_eq!(b.word(0x5300), 0);
    assert_eq!((b.d(2).motor, b.d(2).busy), (Motor::Starting, 20_000));
    assert_eq!(b.sum(), 1);
    b.a(6, 19_999, 0);
    assert_eq!((b.d(2).motor, b.d(2).busy), (Motor::Starting, 1));
    b.a(6, 0, 0);
    assert_eq!(b.d(2).motor, Motor::Starting);
    b.a(6, 1, 0);
    assert_eq!((b.d(2).motor, b.d(2).busy), (Motor::Up, 0));
    // "at once if the start time is 0"
    let mut b = Bench::of(&[Profile { start: 0, ..rich(2, false) }]);
    b.a(0, 2, 0);
    b.word(0x5200);
    assert_eq!(b.word(0x5300), 0);
    assert_eq!(b.d(2).motor, Motor::Up);
    // Diagnostics of time 0 in an open transfer of a starting drive.
    let mut b = Bench::of(&[Profile { diagnostic: 0, ..rich(2, false) }]);
    b.a(0, 2, 0);
    b.dm(2).motor = Motor::Starting;
    b.dm(2).busy = 500;
    b.dm(2).transfer = Transfer::Taking;
    b.dm(2).count = 17;
    b.dm(2).bits = with_parity(0x8000);
    b.dm(2).acknowledge = true;
    b.chain.request = true;
    assert!(sound(&b.chain, b.file.len()));
    assert_eq!(b.a(5, 0, 0), 0);
    assert_eq!((b.d(2).motor, b.d(2).busy), (Motor::Up, 0));
}

/// A starting drive with the word just in, the fall still to come.
fn starting_with_word(word17: u32) -> Bench {
    let mut b = rich_bench();
    b.chain.request = true;
    let d = b.dm(2);
    d.motor = Motor::Starting;
    d.busy = 500;
    d.cylinder = 4;
    d.transfer = Transfer::Taking;
    d.count = 17;
    d.bits = word17;
    d.acknowledge = true;
    assert!(sound(&b.chain, b.file.len()));
    b
}

#[test]
fn decision_26_starting_counts_as_stopped_in_bit_9_alone() {
    let mut b = starting_with_word(with_parity(0x2000));
    assert_eq!(b.a(5, 0, 0), 0);
    assert_eq!(b.fetch() >> 1, 0x0200);
    let mut b = starting_with_word(with_parity(0x5200));
    assert_eq!(b.a(5, 0, 0), 0);
    assert_eq!((b.d(2).motor, b.d(2).busy, b.d(2).cylinder), (Motor::Stopped, 500, 4));
    b.a(6, 500, 0);
    assert_eq!(b.d(2).motor, Motor::Stopped);
    let mut b = starting_with_word(with_parity(0x5300));
    assert_eq!(b.a(5, 0, 0), 0);
    assert_eq!((b.d(2).motor, b.d(2).busy, b.d(2).cylinder), (Motor::Starting, 500, 4));
    let mut b = starting_with_word(with_parity(0x8000));
    assert_eq!(b.a(5, 0, 0), 0);
    assert_eq!((b.d(2).motor, b.d(2).busy), (Motor::Starting, 300));
    let mut b = starting_with_word(with_parity(0x1000));
    assert_eq!(b.a(5, 0, 0), 5);
    assert_eq!((b.d(2).motor, b.d(2).busy, b.d(2).latched), (Motor::Starting, 500, B4));
}

#[test]
fn decision_26_stop_when_stopped_and_start_when_up_do_nothing() {
    let mut b = rich_bench();
    b.word(0x0004);
    b.a(6, 65_535, 0);
    let before = *b.d(2);
    assert_eq!(b.word(0x5300), 0);
    assert_eq!(*b.d(2), before);
    assert_eq!(b.word(0x5200), 0);
    assert_eq!(*b.d(2), Drive { motor: Motor::Stopped, ..before });
    assert_eq!(b.word(0x5200), 0);
    assert_eq!(*b.d(2), Drive { motor: Motor::Stopped, ..before });
    assert_eq!(b.ask(0x2000), 0x0200);
    b.dm(2).lost = true;
    b.dm(2).offset = 1;
    assert_eq!(b.word(0x5300), 0);
    assert_eq!(
        *b.d(2),
        Drive { motor: Motor::Starting, cylinder: 0, busy: 20_000, ..before }
    );
}

#[test]
fn decision_27_hard_sectored_is_not_soft() {
    for (general, hard) in [(1u16, true), (2, true), (4, false)].iter() {
        let p = Profile {
            general: (rich(2, false).general & !7) | general,
            sector: if *hard { 500 } else { 0 },
            ..rich(2, false)
        };
        let mut d = fresh_drive(p, 0);
        assert_eq!(plain_word(&mut d, with_parity(0x9000 | 1_000)), None);
        assert_eq!(d.sector, if *hard { 1_000 } else { 0 });
        assert_eq!(d.latched, if *hard { B8 } else { B8 | B5 });
        let of = |n: u16| if *hard { with_parity(n) } else { with_parity(0) };
        assert_eq!(plain_word(&mut d, with_parity(0x3500)), Some(of(1_000)));
        assert_eq!(plain_word(&mut d, with_parity(0x3600)), Some(of(4)));
    }
}

#[test]
fn decision_42_order_of_a_whole_word() {
    let mut d = fresh_drive(rich(2, false), 0);
    d.latched = 0;
    d.motor = Motor::Stopped;
    d.lost = true;
    let start = d;
    let latched_by = |word17: u32| {
        let mut d = start;
        plain_word(&mut d, word17);
        let latched = d.latched;
        assert!(latched == 0 || d == Drive { latched, ..start });
        latched
    };
    assert_eq!(latched_by(with_parity(0x000A) ^ 1), B7);
    assert_eq!(latched_by(with_parity(0x000A)), B5); // out of range, though not ready
    assert_eq!(latched_by(with_parity(0x0009)), B4);
    assert_eq!(latched_by(with_parity(0x1000)), B4);
    assert_eq!(latched_by(with_parity(0x1100)), B5);
    for modifier in 0..=3 {
        assert_eq!(latched_by(with_parity(0x7000 | modifier << 8)), B4);
    }
    for word in [0x2000, 0x3000, 0x5000, 0x5200, 0x5300, 0x8000, 0x9000 | 600].iter() {
        assert_eq!(latched_by(with_parity(*word)), 0, "{:04x}", word);
    }
    // Up but lost: seek and offset are bit 4, recalibrate finds the position.
    let mut up = Drive { motor: Motor::Up, cylinder: 5, offset: -1, ..start };
    let seek = { let mut d = up; plain_word(&mut d, with_parity(0x0009)); d };
    assert_eq!(seek, Drive { latched: B4, ..up });
    let restore = { let mut d = up; plain_word(&mut d, with_parity(0x7000)); d };
    assert_eq!(restore, Drive { latched: B4, ..up });
    let before = up;
    plain_word(&mut up, with_parity(0x1000));
    assert_eq!(up, Drive { cylinder: 0, offset: 0, lost: false, busy: 5_000, ..before });
}

#[test]
fn decision_25_and_50_busy_is_set_and_only_by_these() {
    let fresh = fresh_drive(rich(2, false), 0);
    let busy_after = |d: &Drive, word: u16| {
        let mut d = *d;
        plain_word(&mut d, with_parity(word));
        d.busy
    };
    assert_eq!(busy_after(&fresh, 0x0000), 0); // request 1: distance 0
    assert_eq!(busy_after(&fresh, 0x0001), 107);
    assert_eq!(busy_after(&fresh, 0x0009), 163);
    assert_eq!(busy_after(&fresh, 0x1000), 5_000);
    for modifier in 0..=3 {
        assert_eq!(busy_after(&fresh, 0x7000 | modifier << 8), 250);
    }
    assert_eq!(busy_after(&fresh, 0x8000), 300);
    assert_eq!(busy_after(&Drive { motor: Motor::Stopped, ..fresh }, 0x5300), 20_000);
    for word in [0x2000, 0x3000, 0x3600, 0x5000, 0x5200, 0x5300, 0x9000 | 600].iter() {
        assert_eq!(busy_after(&fresh, *word), 0);
    }
    // Outward: "Distance is the displacement without its sign."
    let far = Drive { cylinder: 9, ..fresh };
    assert_eq!(busy_after(&far, 0x0002), 149);
    // Busy is set, not added to: seen on a word taken while busy.
    let mut b = starting_with_word(with_parity(0x8000));
    b.a(5, 0, 0);
    assert_eq!(b.d(2).busy, 300);
    // The offsets themselves, and that seek restores them.
    let offset_after = |word: u16| {
        let mut d = Drive { offset: 1, ..fresh };
        plain_word(&mut d, with_parity(word));
        d.offset
    };
    assert_eq!(offset_after(0x7000), 0);
    assert_eq!(offset_after(0x7100), 0);
    assert_eq!(offset_after(0x7200), 1);
    assert_eq!(offset_after(0x7300), -1);
    assert_eq!(offset_after(0x0000), 0);
    assert_eq!(offset_after(0x1000), 0);
}

#[test]
fn request_1_a_seek_to_where_the_heads_are_takes_no_time() {
    let mut b = rich_bench();
    assert_eq!(b.word(0x0000), 0);
    assert!(command_complete(b.d(2)));
    assert_eq!(b.word(0x0004), 0); // taken with no wait
    assert_eq!((b.d(2).cylinder, b.d(2).busy), (4, 128));
    b.a(6, 128, 0);
    // The offset goes back, without settling.
    assert_eq!(b.word(0x7300), 0);
    b.a(6, 250, 0);
    assert_eq!(b.d(2).offset, -1);
    assert_eq!(b.word(0x0004), 0);
    assert_eq!((b.d(2).cylinder, b.d(2).offset, b.d(2).busy), (4, 0, 0));
    assert_eq!(b.ask(0x2000), 0);
    // One cylinder away it settles, and a word with no wait is bit 6.
    assert_eq!(b.word(0x0003), 0);
    assert_eq!((b.d(2).busy, b.d(2).latched), (107, 0));
    assert_eq!(b.a(5, 1, 0), 5);
    assert_eq!(b.d(2).latched, B6);
    // Recalibrate keeps its time at cylinder 0.
    let mut home = fresh_drive(rich(2, false), 0);
    plain_word(&mut home, with_parity(0x1000));
    assert_eq!(home.busy, 5_000);
    // On a busy drive the time is set to 0, like any other.
    let mut busy = starting_with_word(with_parity(0x0004));
    busy.dm(2).motor = Motor::Up;
    assert_eq!(busy.a(5, 0, 0), 0);
    assert_eq!((busy.d(2).cylinder, busy.d(2).busy), (4, 0));
}

#[test]
fn request_3_a_write_fault_stands_until_it_is_ended() {
    let mut b = rich_bench();
    assert_eq!((b.a(2, 1, 0), b.a(7, 0, 1)), (0, 2));
    assert_eq!(b.a(8, 2, 1), 0);
    assert_eq!((b.d(2).standing, b.d(2).writing, b.d(2).latched), (true, false, B1));
    b.a(2, 0, 0);
    // Control 0 clears the other bits and leaves bit 1, as often as it is sent.
    assert_eq!(b.a(8, 2, 2), 0);
    for _ in 0..2 {
        assert_eq!(b.word(0x5000), 0);
        assert_eq!(b.ask(0x2000), B1);
        assert_eq!((b.a(2, 1, 0), b.a(7, 0, 2), b.a(2, 0, 0)), (4, 4, 0));
    }
    // Stop, start, select and time leave the fault.
    assert_eq!((b.word(0x5200), b.word(0x5300)), (0, 0));
    b.a(6, 20_000, 0);
    assert_eq!((b.a(0, 5, 0), b.a(0, 2, 0)), (0, 0));
    assert!(b.d(2).standing && !b.d(5).standing);
    // Ended, it leaves bit 1 latched until control 0.
    assert_eq!(b.a(8, 2, 4), 0);
    assert_eq!((b.d(2).standing, b.d(2).latched), (false, B1));
    assert_eq!((b.a(2, 1, 0), b.a(7, 0, 2), b.a(2, 0, 0)), (4, 4, 0));
    b.clear();
    assert_eq!((b.a(2, 1, 0), b.a(7, 0, 2), b.a(2, 0, 0)), (0, 2, 0));
    // Ending none changes nothing, nor does it where the write gate latched bit 1.
    b.a(1, 2, 0);
    b.a(6, 40, 0);
    assert_eq!((b.a(2, 1, 0), b.a(2, 0, 0)), (5, 0));
    assert_eq!((b.d(2).standing, b.d(2).latched), (false, B1));
    let before = b.clone();
    assert_eq!(b.a(8, 2, 4), 0);
    assert!(b.chain == before.chain && b.file == before.file);
    b.clear();
    // 21 and 24 know the new condition.
    assert_eq!((b.a(8, 2, 5), b.a(8, 3, 4)), (21, 24));
}

#[test]
fn request_8_a_size_that_is_set_leaves_room_for_its_gaps() {
    // The pack brings sectors of 162 bytes, and gaps that fill 255 + 2 × 255.
    let tight = Profile { sector: 162, gap: 255, sync: 255, ..rich(2, false) };
    let mut b = Bench::of(&[tight]); // still read
    assert_eq!(b.a(0, 2, 0), 0);
    b.clear();
    assert_eq!((b.ask(0x3500), b.ask(0x3600)), (162, 25)); // and quoted
    // No size that the gaps fill is set, not even the one in force.
    for size in [162, 500, 764, 765].iter() {
        assert_eq!(b.word(0x9000 | size), 5);
        assert_eq!((b.d(2).sector, b.d(2).latched), (162, B5));
        b.clear();
    }
    assert_eq!(b.word(0x9000 | 766), 0);
    assert_eq!((b.ask(0x3500), b.ask(0x3600)), (766, 5));
    assert_eq!(b.word(0x9000 | 765), 5); // so it can't go back
    assert_eq!(b.d(2).sector, 766);
    // The gap counts once and the sync twice; below 162 the range decides.
    let least = |gap: u8, sync: u8| {
        let p = Profile { gap, sync, ..rich(2, false) };
        (0..=4_095).find(|size| valid_command(&p, 0x9000 | size).is_some())
    };
    assert_eq!(least(0, 0), Some(162));
    assert_eq!(least(255, 0), Some(256));
    assert_eq!(least(0, 255), Some(511));
    assert_eq!(least(1, 80), Some(162)); // 161 bytes of gaps
    assert_eq!(least(2, 80), Some(163));
    assert_eq!(least(255, 255), Some(766));
    // A soft sectored drive has no size to set, whatever its gaps.
    assert_eq!(valid_command(&soft(3), 0x9000 | 4_095), None);
}

/// Is this word's fault bit 5 on this drive? Written out apart from the
/// twin's table.
fn invalid_by_the_paper(p: &Profile, word: u16) -> bool {
    let (code, modifier, low, parameter) =
        (word >> 12, word >> 8 & 15, word & 255, word & 4_095);
    let offset_option = p.general >> 13 & 1 == 1;
    let motor_option = p.general >> 5 & 1 == 1;
    let hard = p.general & 3 != 0;
    let valid = (code == 0 && parameter < p.cylinders)
        || (code == 1 && modifier == 0 && low == 0)
        || (code == 2 && modifier == 0 && low == 0)
        || (code == 3 && low == 0)
        || (code == 5 && modifier == 0 && low == 0)
        || (code == 5 && (modifier == 2 || modifier == 3) && motor_option && low == 0)
        || (code == 7 && modifier <= 3 && offset_option && low == 0)
        || (code == 8 && modifier == 0 && low == 0)
        || (code == 9 && hard && parameter >= 162 && parameter > p.gap as u16 + p.sync as u16 + p.sync as u16);
    !valid
}

#[test]
fn decision_43_every_word_on_several_drives() {
    let mut dice = Dice(20);
    let mut words = 0u32;
    let mut profiles = vec![worked_profile(), smallest_drive(1), rich(2, false), rich(2, true), soft(3)];
    profiles.push(Profile { cylinders: 4_096, heads: 1, ..rich(4, true) });
    for _ in 0..6 {
        profiles.push(random_profile(&mut dice, 1, 4_096));
    }
    for p in profiles {
        assert!(valid_profile(&p));
        let fresh = fresh_drive(p, 0);
        for word in 0..=65_535u16 {
            let mut d = fresh;
            let response = plain_word(&mut d, with_parity(word));
            let invalid = invalid_by_the_paper(&p, word);
            assert_eq!(d.latched & B5 != 0, invalid, "{:04x}", word);
            if invalid {
                assert_eq!(d, Drive { latched: B8 | B5, ..fresh });
            }
            assert_eq!(response.is_some(), !invalid && (word >> 12 == 2 || word >> 12 == 3));
            // Wrong parity: bit 7, nothing else, no response.
            let mut d = fresh;
            assert_eq!(plain_word(&mut d, with_parity(word) ^ 1), None);
            assert_eq!(d, Drive { latched: B8 | B7, ..fresh });
            words += 2;
        }
    }
    println!("every word: {} words", words);
}

#[test]
fn decision_43_and_differences_single_words() {
    let mut d = fresh_drive(rich(2, false), 0);
    for modifier in 9..=14u16 {
        assert_eq!(plain_word(&mut d, with_parity(0x3000 | modifier << 8)), Some(with_parity(0)));
    }
    assert_eq!(d.latched, B8);
    let invalid = [
        0x2100, 0x2F00, 0x2001, 0x3001, 0x1001, 0x1100, 0x4000, 0x6000, 0x5100, 0x5400, 0x5F00,
        0x5001, 0x7400, 0x7700, 0x7001, 0x8100, 0x8001, 0xA000, 0xB000, 0xC000, 0xD000, 0xE000,
        0xF000,
    ];
    for word in invalid.iter() {
        let mut d = fresh_drive(rich(2, false), 0);
        assert_eq!(plain_word(&mut d, with_parity(*word)), None);
        assert_eq!(d.latched, B8 | B5, "{:04x}", word);
    }
    // A missing option.
    let bare = Profile { general: rich(2, false).general & !0x2020, ..rich(2, false) };
    for word in [0x5200, 0x5300, 0x7000, 0x7100, 0x7200, 0x7300].iter() {
        let mut d = fresh_drive(bare, 0);
        plain_word(&mut d, with_parity(*word));
        assert_eq!(d.latched, B8 | B5, "{:04x}", word);
    }
    // Configuration 7's high byte is 0 here.
    assert_eq!(plain_word(&mut d, with_parity(0x3700)), Some(with_parity(9)));
}

#[test]
fn configuration_words() {
    let mut d = fresh_drive(worked_profile(), 0);
    let mut ask = |m: u16| plain_word(&mut d, with_parity(0x3000 | m << 8)).unwrap() >> 1;
    let words: Vec<u32> = (0..16).map(|m| ask(m)).collect();
    assert_eq!(
        words,
        vec![0x024A, 1_250, 0, 7, 20_832, 512, 40, 16, 16, 0, 0, 0, 0, 0, 0, 0x1400]
    );
    let p = Profile { protected: 1, ..rich(2, true) };
    let mut d = fresh_drive(p, 0);
    let mut ask = |m: u16| plain_word(&mut d, with_parity(0x3000 | m << 8)).unwrap() >> 1;
    let words: Vec<u32> = (0..16).map(|m| ask(m)).collect();
    assert_eq!(
        words,
        vec![0x22B2, 0, 10, 0x0200, 4_100, 500, 8, 9, 11, 0, 0, 0, 0, 0, 0, 0x7700]
    );
    // Write protected: 13 removable, 12 fixed.
    assert_eq!(plain_word(&mut d, with_parity(0x2000)), Some(with_parity(0x2100)));
    let mut d = fresh_drive(Profile { protected: 1, ..rich(2, false) }, 0);
    assert_eq!(plain_word(&mut d, with_parity(0x2000)), Some(with_parity(0x1100)));
}

#[test]
fn decision_44_plain_word_on_a_drive_that_reads_or_writes_or_is_busy() {
    let fresh = fresh_drive(rich(2, false), 0);
    let reads = Drive { reading: true, ..fresh };
    let mut d = reads;
    assert_eq!(plain_word(&mut d, with_parity(0x2000)), None);
    assert_eq!(d, Drive { latched: B8 | B6, ..reads }); // reading goes on
    let mut d = Drive { writing: true, latched: 0, ..fresh };
    assert_eq!(plain_word(&mut d, with_parity(0x2000)), None);
    assert_eq!(d, Drive { writing: false, latched: B6, ..fresh });
    for busy in [Drive { busy: 1, ..fresh }, Drive { head_timer: 1, ..fresh }].iter() {
        let mut d = *busy;
        assert_eq!(plain_word(&mut d, with_parity(0x2000) ^ 1), None);
        assert_eq!(d, Drive { latched: B8 | B6, ..*busy });
    }
    let open = Drive { transfer: Transfer::Taking, count: 3, bits: 5, ..fresh };
    let mut d = open;
    assert_eq!(plain_word(&mut d, with_parity(0x5000)), None);
    assert_eq!(d, Drive { latched: B8 | B6, ..open });
}

#[test]
fn any_response_is_fixed_on_the_17th_fall() {
    let mut b = rich_bench();
    assert_eq!(b.word(0x2000), 0);
    assert_eq!(b.a(8, 2, 1), 0);
    assert_eq!(b.fetch() >> 1, 0);
    assert_eq!(b.ask(0x2000), B1);
}

// ===========================================================================
// The record, clause by clause
// ===========================================================================

/// What a change of a sound record breaks.
fn broken_by(start: &Bench, change: &dyn Fn(&mut Chain)) -> Vec<&'static str> {
    assert!(sound(&start.chain, start.file.len()));
    let mut chain = start.chain;
    change(&mut chain);
    let broken = broken_clauses(&chain);
    assert_eq!(malformed(&chain), !broken.is_empty());
    // A malformed record is refused and left as it is.
    if malformed(&chain) {
        let mut file = start.file.clone();
        let before = chain;
        assert_eq!(step(&mut chain, &mut file, 6, 1, 0), (22, 0));
        assert!(chain == before && file == start.file);
    }
    broken
}

fn drive2(chain: &mut Chain) -> &mut Drive {
    chain.in_slot_mut(2).unwrap()
}

fn drive5(chain: &mut Chain) -> &mut Drive {
    chain.in_slot_mut(5).unwrap()
}

#[test]
fn limits_are_clauses() {
    let b = rich_bench();
    let nothing: Vec<&str> = Vec::new();
    let by = |change: &dyn Fn(&mut Chain)| broken_by(&b, change);
    assert_eq!(by(&|_| ()), nothing);
    assert_eq!(by(&|c| c.select = 8), vec!["select_code_over_7"]);
    let mut none = rich_bench();
    none.a(0, 0, 0);
    assert_eq!(broken_by(&none, &|c| c.head_lines = 16), vec!["head_lines_over_15"]);
    assert_eq!(broken_by(&none, &|c| c.head_lines = 15), nothing);
    assert_eq!(by(&|c| drive5(c).profile.settle = 60_001), vec!["pack_field_out_of_range"]);
    assert_eq!(by(&|c| drive5(c).profile.settle = 60_000), nothing);
    assert_eq!(by(&|c| drive5(c).sector = 161), vec!["sector_size_out_of_range"]);
    assert_eq!(by(&|c| drive5(c).sector = 0), vec!["sector_size_out_of_range"]);
    assert_eq!(by(&|c| drive5(c).sector = 4_096), vec!["sector_size_out_of_range"]);
    assert_eq!(by(&|c| drive5(c).sector = 162), nothing);
    assert_eq!(by(&|c| drive5(c).sector = 4_095), nothing);
    assert_eq!(by(&|c| drive5(c).cylinder = 10), vec!["cylinder_out_of_range"]);
    assert_eq!(by(&|c| drive5(c).cylinder = 9), nothing);
    assert_eq!(by(&|c| drive5(c).offset = 2), vec!["offset_out_of_range"]);
    assert_eq!(by(&|c| drive5(c).offset = -2), vec!["offset_out_of_range"]);
    assert_eq!(by(&|c| drive5(c).offset = -1), nothing);
    assert_eq!(by(&|c| drive5(c).head = 16), vec!["head_over_15"]);
    assert_eq!(by(&|c| drive5(c).head = 15), nothing);
    assert_eq!(by(&|c| drive5(c).busy = 30_000_001), vec!["busy_over_limit"]);
    assert_eq!(by(&|c| drive5(c).busy = 30_000_000), nothing);
    assert_eq!(by(&|c| drive5(c).head_timer = 60_001), vec!["head_timer_over_limit"]);
    assert_eq!(by(&|c| drive5(c).head_timer = 60_000), nothing);
    for n in 0..16 {
        let listed = [8, 7, 6, 5, 4, 3, 1, 0].contains(&n);
        let expected = if listed { vec![] } else { vec!["unlisted_bit_latched"] };
        assert_eq!(by(&|c| drive5(c).latched = 1 << n), expected);
    }
    assert_eq!(by(&|c| drive5(c).standing = true), vec!["fault_stands_without_bit_1"]);
    assert_eq!(
        by(&|c| {
            drive5(c).standing = true;
            drive5(c).latched = B8 | B1;
        }),
        nothing
    );
    let mut open = rich_bench();
    open.bits(0, 2);
    assert_eq!(broken_by(&open, &|c| drive2(c).waiting = 10_001), vec!["waiting_over_limit"]);
    assert_eq!(broken_by(&open, &|c| drive2(c).waiting = 10_000), nothing);
    let mut soft_bench = Bench::of(&[soft(2)]);
    soft_bench.a(0, 2, 0);
    assert_eq!(
        broken_by(&soft_bench, &|c| drive2(c).sector = 512),
        vec!["sector_size_out_of_range"]
    );
    assert_eq!(
        by(&|c| {
            drive5(c).motor = Motor::Starting;
        }),
        vec!["starting_motor_with_busy_0"]
    );
    assert_eq!(
        by(&|c| {
            drive5(c).motor = Motor::Starting;
            drive5(c).busy = 1;
        }),
        nothing
    );
}

#[test]
fn decision_45_places() {
    let b = rich_bench();
    let by = |change: &dyn Fn(&mut Chain)| broken_by(&b, change);
    let place = vec!["place_not_from_the_file_rules"];
    assert_eq!(b.d(2).place, 0);
    assert_eq!(b.d(5).place, 10 * 2 * 4_100 + 44);
    assert_eq!(by(&|c| drive2(c).place = 1), place);
    assert_eq!(by(&|c| drive5(c).place += 1), place);
    assert_eq!(by(&|c| drive5(c).place -= 1), place);
    assert_eq!(by(&|c| c.length += 1), place);
    assert_eq!(by(&|c| c.length -= 1), place);
    assert_eq!(by(&|c| c.length = usize::max_value()), place);
    assert_eq!(by(&|c| drive5(c).place = usize::max_value()), place);
    // The two packs the other way round in the file: slots not rising.
    assert_eq!(
        by(&|c| {
            drive5(c).place = 0;
            drive2(c).place = 10 * 2 * 4_100 + 44;
        }),
        place
    );
    // A pack too few in front, or one taken away.
    assert_eq!(by(&|c| c.drives[1] = None), place);
    assert_eq!(by(&|c| c.drives[4] = None), place);
    assert_eq!(by(&|c| drive5(c).profile.slot = 6), vec!["pack_names_another_slot"]);
    // With no drive the length is 0.
    let none = Bench::of(&[]);
    assert_eq!(none.chain.length, 0);
    assert_eq!(broken_by(&none, &|c| c.length = 1), place);
    // At most 2,147,483,647.
    let big = Profile { cylinders: 4_096, heads: 16, track: 32_768, ..smallest_drive(1) };
    assert!(valid_profile(&big));
    let chain_of = |p: Profile| Chain {
        drives: [Some(fresh_drive(p, 0)), None, None, None, None, None, None],
        length: pack_length(&p) as usize,
        ..none.chain
    };
    assert_eq!(pack_length(&big), 2_147_483_648 + 44);
    assert_eq!(broken_clauses(&chain_of(big)), place);
    let less = Profile { track: 32_767, ..big };
    assert!(!malformed(&chain_of(less)));
}

#[test]
fn decision_45_fresh_chains_and_file_rules_agree() {
    // For every set of slots the fresh chain's places are those of reading.
    for set in 0..128u32 {
        let profiles: Vec<Profile> = (1..=7u8)
            .filter(|slot| set >> (slot - 1) & 1 == 1)
            .map(smallest_drive)
            .collect();
        let b = Bench::of(&profiles);
        let packs = read_packs(&b.file).unwrap();
        assert_eq!(packs.len(), profiles.len());
        for (pack, profile) in packs.iter().zip(profiles.iter()) {
            assert_eq!(pack.profile, *profile);
            assert_eq!(*b.d(profile.slot), fresh_drive(*profile, pack.place));
        }
    }
}

#[test]
fn decision_30_and_46_open_transfers() {
    let nothing: Vec<&str> = Vec::new();
    for request in [false, true].iter() {
        let mut base = rich_bench();
        base.chain.request = *request;
        for count in 0..=40u8 {
            let most_bits = |count: u8| (1u64 << count.min(17)) as u32 - 1;
            let taking = |bits: u32| {
                broken_by(&base, &move |c: &mut Chain| {
                    let request = c.request;
                    let d = drive2(c);
                    d.transfer = Transfer::Taking;
                    d.acknowledge = request;
                    d.count = count;
                    d.bits = bits;
                })
            };
            let fits = 1 <= count && count <= if *request { 17 } else { 16 };
            if fits {
                assert_eq!(taking(0), nothing);
                assert_eq!(taking(most_bits(count)), nothing);
                assert_eq!(taking(most_bits(count) + 1), vec!["taken_bits_over_their_count"]);
                assert_eq!(taking(u32::max_value()), vec!["taken_bits_over_their_count"]);
            } else {
                assert_eq!(taking(0), vec!["taking_count_is_not_the_handshakes"]);
            }
            let responding = |response: u32| {
                broken_by(&base, &move |c: &mut Chain| {
                    let request = c.request;
                    let d = drive2(c);
                    d.transfer = Transfer::Responding;
                    d.acknowledge = request;
                    d.count = count;
                    d.response = response;
                })
            };
            let fits = if *request { 1 <= count && count <= 17 } else { count <= 16 };
            if fits {
                assert_eq!(responding(0x1_FFFF), nothing);
                assert_eq!(responding(0), nothing);
                assert_eq!(responding(0x2_0000), vec!["response_over_17_bits"]);
            } else {
                assert_eq!(responding(0), vec!["responding_count_is_not_the_handshakes"]);
            }
        }
    }
    let mut open = rich_bench();
    open.bits(0, 2);
    let by = |change: &dyn Fn(&mut Chain)| broken_by(&open, change);
    let acknowledge = vec!["open_transfers_acknowledge_is_not_the_request"];
    assert_eq!(by(&|c| drive2(c).acknowledge = true), acknowledge);
    assert_eq!(by(&|c| c.request = true), acknowledge);
    assert_eq!(by(&|c| drive2(c).response = 1), vec!["response_while_taking"]);
    assert_eq!(
        by(&|c| {
            drive2(c).transfer = Transfer::Responding;
            drive2(c).bits = 1;
        }),
        vec!["taken_bits_while_responding"]
    );
    assert_eq!(
        by(&|c| {
            let moved = *drive2(c);
            drive2(c).transfer = Transfer::None;
            drive2(c).count = 0;
            drive5(c).transfer = moved.transfer;
            drive5(c).count = moved.count;
        }),
        vec!["unselected_drive_has_a_transfer"]
    );
    // No open transfer.
    let closed = rich_bench();
    let by = |change: &dyn Fn(&mut Chain)| broken_by(&closed, change);
    assert_eq!(by(&|c| drive2(c).acknowledge = true), vec!["acknowledge_without_transfer"]);
    assert_eq!(by(&|c| drive5(c).acknowledge = true), vec!["acknowledge_without_transfer"]);
    assert_eq!(by(&|c| drive2(c).count = 1), vec!["collected_bit_without_transfer"]);
    assert_eq!(by(&|c| drive5(c).bits = 1), vec!["collected_bit_without_transfer"]);
    assert_eq!(by(&|c| drive2(c).response = 1), vec!["response_without_transfer"]);
    assert_eq!(by(&|c| drive5(c).waiting = 1), vec!["waiting_without_transfer"]);
}

#[test]
fn decision_47_reading_and_writing() {
    let mut reads = rich_bench();
    reads.a(3, 1, 0);
    let mut writes = rich_bench();
    writes.a(2, 1, 0);
    let nothing: Vec<&str> = Vec::new();
    let r = |change: &dyn Fn(&mut Chain)| broken_by(&reads, change);
    let w = |change: &dyn Fn(&mut Chain)| broken_by(&writes, change);
    let r_rule = vec!["reads_against_its_gates_rule"];
    let w_rule = vec!["writes_against_its_gates_rule"];
    assert_eq!(r(&|c| c.select = 0), vec!["reads_or_writes_unselected"]);
    assert_eq!(w(&|c| c.select = 5), vec!["reads_or_writes_unselected"]);
    assert_eq!(r(&|c| c.read_gate = false), vec!["reads_with_its_gate_low"]);
    assert_eq!(w(&|c| c.write_gate = false), vec!["writes_with_its_gate_low"]);
    // The other gate on.
    assert_eq!(r(&|c| c.write_gate = true), r_rule);
    assert_eq!(w(&|c| c.read_gate = true), w_rule);
    // Attention: for writing alone.
    assert_eq!(r(&|c| drive2(c).latched = B6), nothing);
    assert_eq!(w(&|c| drive2(c).latched = B6), w_rule);
    // Offset: for writing alone.
    assert_eq!(r(&|c| drive2(c).offset = 1), nothing);
    assert_eq!(w(&|c| drive2(c).offset = 1), w_rule);
    // Protected: for writing alone.
    assert_eq!(r(&|c| drive2(c).profile.protected = 1), nothing);
    assert_eq!(w(&|c| drive2(c).profile.protected = 1), w_rule);
    // The rest for both.
    let both: [fn(&mut Chain); 5] = [
        |c| drive2(c).motor = Motor::Stopped,
        |c| drive2(c).busy = 1,
        |c| drive2(c).head_timer = 1,
        |c| drive2(c).lost = true,
        |c| {
            drive2(c).head = 2;
            c.head_lines = 2;
        },
    ];
    for change in both.iter() {
        assert_eq!(r(change), r_rule);
        assert_eq!(w(change), w_rule);
    }
    // Both at once, and a drive that isn't selected.
    assert_eq!(r(&|c| drive2(c).writing = true), vec!["writes_with_its_gate_low", w_rule[0]]);
    // The request line may be high, the drive reading: no transfer is open.
    assert_eq!(r(&|c| c.request = true), nothing);
    // "the selected drive's head isn't the head lines", where fitted.
    let b = rich_bench();
    let head = vec!["selected_head_is_not_the_head_lines"];
    assert_eq!(broken_by(&b, &|c| c.head_lines = 1), head);
    assert_eq!(broken_by(&b, &|c| drive2(c).head = 1), head);
    assert_eq!(broken_by(&b, &|c| drive5(c).head = 1), nothing);
    assert_eq!(
        broken_by(&b, &|c| {
            c.select = 3;
            c.head_lines = 9;
        }),
        nothing
    );
}

#[test]
fn every_clause_has_been_seen_alone() {
    // The names used in the tests above, against the table.
    let names: Vec<&str> = CLAUSES.iter().map(|c| c.name()).collect();
    let source = include_str!("twin_test.rs");
    for name in names {
        assert!(source.contains(&format!("vec![\"{}\"", name)), "{}", name);
    }
}

// ===========================================================================
// Demand 3 by random trials
// ===========================================================================

/// A wait of `total` microseconds as a list of passing events.
fn split_wait(dice: &mut Dice, total: u32) -> Vec<u32> {
    let mut parts = Vec::new();
    let mut left = total;
    while left > 0 && dice.coin() {
        let part = dice.upto(left);
        parts.push(part);
        left -= part;
    }
    if left > 0 || dice.one_in(4) {
        parts.push(left);
    }
    parts
}

fn random_wait(dice: &mut Dice) -> Vec<u32> {
    let total = match dice.upto(9) {
        0 => 10_000,
        1 => 9_999,
        2 => dice.upto(10_000),
        3 => dice.upto(100),
        _ => 0,
    };
    split_wait(dice, total)
}

/// The host's way: bits by the handshake, waits between the edges, the
/// response fetched where one is open. Gives the response and the waits.
fn by_handshake(dice: &mut Dice, b: &mut Bench, word17: u32) -> (Option<u32>, Vec<u32>) {
    let mut waits = Vec::new();
    let slot = b.chain.select;
    for n in 0..17 {
        if n > 0 {
            pass(dice, b, &mut waits);
        }
        b.a(4, word17 >> (16 - n) & 1, 0);
        let answer = b.a(5, 1, 0);
        if n == 0 && !b.d(slot).acknowledge {
            // "the host then lowers request at once and ends"
            assert_eq!(answer, 5);
            assert_eq!(b.a(5, 0, 0), 0);
            return (None, waits);
        }
        assert_eq!(answer, 0);
        pass(dice, b, &mut waits);
        b.a(5, 0, 0);
    }
    if b.d(slot).transfer != Transfer::Responding {
        return (None, waits);
    }
    let mut response = 0;
    for _ in 0..17 {
        pass(dice, b, &mut waits);
        assert_eq!(b.a(5, 1, 0), 0);
        response = response * 2 + (b.sum() >> 3 & 1) as u32;
        pass(dice, b, &mut waits);
        assert_eq!(b.a(5, 0, 0), 0);
    }
    (Some(response), waits)
}

fn pass(dice: &mut Dice, b: &mut Bench, waits: &mut Vec<u32>) {
    for microseconds in random_wait(dice) {
        assert_eq!(b.a(6, microseconds, 0), 0);
        waits.push(microseconds);
    }
}

/// The bench's way: the waits, then the whole word at once.
fn by_plain_word(b: &mut Bench, word17: u32, waits: &[u32]) -> Option<u32> {
    let slot = b.chain.select;
    if command_complete(b.d(slot)) {
        for microseconds in waits {
            assert_eq!(b.a(6, *microseconds, 0), 0);
        }
    }
    plain_word(b.dm(slot), word17)
}

#[test]
fn decision_48_demand_3() {
    let mut dice = Dice(25);
    let mut tried = BTreeMap::new();
    let mut words = 0u32;
    for _ in 0..400 {
        let mut b = random_bench(&mut dice, 3);
        for _ in 0..400 {
            disturb(&mut dice, &mut b);
            // The premises.
            b.a(2, 0, 0);
            b.a(3, 0, 0);
            b.a(5, 0, 0);
            let slot = random_fitted_slot(&mut dice, &b.chain);
            b.a(0, slot as u32, 0);
            if transfer_open(b.d(slot as u8)) {
                // A transfer of before: leave it by going away and back.
                b.a(0, 0, 0);
                b.a(0, slot as u32, 0);
            }
            if dice.coin() {
                b.a(6, 65_535, 0);
            }
            assert!(sound(&b.chain, b.file.len()));
            let word17 = random_word17(&mut dice, b.d(slot as u8));
            let complete = command_complete(b.d(slot as u8));
            let mut bits = b.clone();
            let mut plain = b.clone();
            let (got, waits) = by_handshake(&mut dice, &mut bits, word17);
            let due = by_plain_word(&mut plain, word17, &waits);
            assert_eq!(got, due);
            plain.chain.command_data = bits.chain.command_data;
            assert_eq!(bits.chain, plain.chain);
            assert!(bits.file == plain.file);
            let latched = bits.d(slot as u8).latched & !b.d(slot as u8).latched;
            let name = format!(
                "complete {} code {:x} response {} new bits {:03x}",
                complete as u8,
                word17 >> 13,
                got.is_some() as u8,
                latched
            );
            *tried.entry(name).or_insert(0u32) += 1;
            words += 1;
            b = bits;
        }
    }
    println!("demand 3: {} words", words);
    for (name, number) in tried.iter() {
        println!("  {}: {}", name, number);
    }
    assert!(words >= 150_000);
}

#[test]
fn decision_48_a_gate_on_that_began_nothing_needs_the_premise() {
    let mut b = rich_bench();
    b.a(8, 2, 2);
    assert_eq!(b.a(2, 1, 0), 4);
    let mut plain = b.clone();
    assert_eq!(plain_word(plain.dm(2), with_parity(0x5000)), None);
    assert_eq!(plain.d(2).latched, 0);
    assert_eq!(b.a(5, 1, 0), 5);
    assert_eq!(b.d(2).latched, B4 | B6);
}

// ===========================================================================
// Random profiles, words, records and events
// ===========================================================================

fn random_time(dice: &mut Dice, most: u32) -> u32 {
    match dice.upto(11) {
        0 | 1 | 2 | 3 => 0,
        4 | 5 | 6 => dice.upto(20),
        7 | 8 | 9 => dice.upto(20_000.min(most)),
        10 => most,
        _ => dice.upto(most),
    }
}

fn random_profile(dice: &mut Dice, slot: u8, most_cylinders: u32) -> Profile {
    let switch = match dice.upto(5) {
        0 | 1 => dice.upto(15),
        2 => 16,
        3 => 60_000,
        4 => dice.upto(2_000),
        _ => dice.upto(60_000),
    } as u16;
    let sectoring = dice.pick(&[4, 2, 1]) as u16;
    let general = dice.pick(&[0x400, 0x200, 0x100]) as u16
        | dice.pick(&[0x80, 0x40]) as u16
        | sectoring
        | if switch > 15 { 0x10 } else { 0 }
        | (dice.upto(65_535) as u16 & 0x6828); // 14, 13, 11, 5, 3 are free
    let p = Profile {
        slot,
        general,
        cylinders: dice.between(1, most_cylinders) as u16,
        heads: dice.pick(&[1, 1, 1, 2, 3]) as u8,
        vendor: dice.upto(255) as u8,
        track: dice.pick(&[4_095, 4_096, 4_200]) as u16,
        sector: if sectoring == 4 { 0 } else { dice.between(162, 4_095) as u16 },
        gap: dice.upto(255) as u8,
        sync: dice.upto(255) as u8,
        protected: dice.one_in(4) as u8,
        settle: random_time(dice, 60_000),
        step: random_time(dice, 1_000) as u16,
        switch,
        recalibrate: random_time(dice, 30_000_000),
        start: random_time(dice, 30_000_000),
        diagnostic: random_time(dice, 30_000_000),
        offset: random_time(dice, 60_000) as u16,
    };
    assert!(valid_profile(&p));
    p
}

fn random_bench(dice: &mut Dice, most_cylinders: u32) -> Bench {
    let set = dice.between(1, 127);
    let mut profiles = Vec::new();
    for slot in 1..=7u8 {
        if set >> (slot - 1) & 1 == 1 {
            profiles.push(random_profile(dice, slot, most_cylinders));
        }
    }
    let mut b = Bench::of(&profiles);
    // Media that aren't all zero.
    for slot in 1..=7 {
        if let Some(d) = b.chain.in_slot(slot) {
            let (start, end) = (d.place, d.place + medium_length(&d.profile) as usize);
            for place in start..end {
                b.file[place] = (place % 251) as u8;
            }
        }
    }
    b
}

fn random_fitted_slot(dice: &mut Dice, chain: &Chain) -> u32 {
    loop {
        let slot = dice.between(1, 7);
        if chain.in_slot(slot as u8).is_some() {
            return slot;
        }
    }
}

/// A word, more often valid than not.
fn random_word17(dice: &mut Dice, d: &Drive) -> u32 {
    let word = match dice.upto(19) {
        0 | 1 => dice.upto(d.profile.cylinders as u32 - 1),
        2 => dice.upto(4_095),
        3 => 0x1000,
        4 | 5 => 0x2000,
        6 | 7 => 0x3000 | dice.upto(15) << 8,
        8 | 9 => 0x5000,
        10 => 0x5200,
        11 => 0x5300,
        12 | 13 => 0x7000 | dice.upto(4) << 8,
        14 => 0x8000,
        // any size, or one at the edge of the drive's gaps
        15 if dice.one_in(2) => 0x9000 | dice.between(150, 4_095),
        15 => 0x9000 | (gaps(&d.profile) as u32 + dice.upto(2)).saturating_sub(1),
        16 => dice.upto(15) << 12 | dice.upto(15) << 8,
        17 => dice.upto(15) << 12 | dice.upto(3) << 8 | dice.pick(&[0, 0, 1, 128]),
        _ => dice.upto(65_535),
    } as u16;
    if dice.one_in(12) {
        with_parity(word) ^ 1
    } else {
        with_parity(word)
    }
}

/// Changes a few fields of a record at random; kept only where the record is
/// still sound. Reaches sound records no sequence of events gives.
fn disturb(dice: &mut Dice, b: &mut Bench) -> bool {
    let mut chain = b.chain;
    for _ in 0..dice.between(1, 3) {
        disturb_once(dice, &mut chain);
    }
    if malformed(&chain) {
        return false;
    }
    b.chain = chain;
    true
}

fn disturb_once(dice: &mut Dice, chain: &mut Chain) {
    let slot = if dice.coin() && chain.selected().is_some() {
        chain.select
    } else {
        random_fitted_slot(dice, chain) as u8
    };
    let request = chain.request;
    let what = dice.upto(19);
    {
        let d = chain.in_slot_mut(slot).unwrap();
        match what {
            0 => {
                d.motor = Motor::Starting;
                d.busy = random_time(dice, 30_000_000);
            }
            1 => d.motor = Motor::Stopped,
            2 => d.motor = Motor::Up,
            3 => d.cylinder = dice.upto(d.profile.cylinders as u32 - 1) as u16,
            4 => d.offset = dice.upto(2) as i8 - 1,
            5 => d.busy = random_time(dice, 30_000_000),
            6 => d.head_timer = random_time(dice, 60_000),
            7 => d.latched = dice.upto(511) as u16 & LATCHED_BITS,
            8 => d.latched = 0,
            9 => d.lost = dice.coin(),
            10 => {
                if hard_sectored(&d.profile) {
                    d.sector = dice.between(162, 4_095) as u16;
                }
            }
            11 => {
                end_transfer(d);
                d.transfer = Transfer::Taking;
                d.count = dice.pick(&[1, 2, 8, 15, 16, 17]) as u8;
                d.bits = random_word17(dice, d) >> (17 - d.count as u32);
                d.acknowledge = request;
                d.waiting = dice.pick(&[0, 1, 9_999, 10_000]);
            }
            12 => {
                end_transfer(d);
                d.transfer = Transfer::Responding;
                d.count = dice.upto(17) as u8;
                d.response = dice.upto(0x1_FFFF);
                d.acknowledge = request;
                d.waiting = dice.pick(&[0, 1, 9_999, 10_000]);
            }
            13 => end_transfer(d),
            14 => d.head = dice.upto(15) as u8,
            15 => {
                // A starting drive with a word nearly in.
                end_transfer(d);
                d.motor = Motor::Starting;
                d.busy = dice.between(1, 30_000);
                d.transfer = Transfer::Taking;
                d.count = if request { 17 } else { 16 };
                let word = dice.pick(&[0x8000, 0x5200, 0x5300, 0x2000, 0x1000]) as u16;
                d.bits = with_parity(word) >> (17 - d.count as u32);
                d.acknowledge = request;
            }
            _ => (),
        }
    }
    match what {
        16 => chain.write_gate = !chain.write_gate,
        17 => chain.read_gate = !chain.read_gate,
        18 => chain.request = !chain.request,
        19 => {
            let d = chain.in_slot_mut(slot).unwrap();
            d.standing = !d.standing;
            d.latched |= B1;
        }
        _ => (),
    }
}

fn random_event(dice: &mut Dice, chain: &Chain) -> Event {
    match dice.upto(24) {
        0 => (0, dice.upto(7), 0),
        1 => (0, random_fitted_slot(dice, chain), 0),
        2 => (0, chain.select as u32, 0),
        3 => (1, dice.pick(&[0, 0, 1, 2, 3, 15]), 0),
        4 => (2, dice.upto(1), 0),
        5 => (3, dice.upto(1), 0),
        6 | 7 => (4, dice.upto(1), 0),
        8 | 9 => (5, dice.upto(1), 0),
        10 => (5, !chain.request as u32, 0),
        11 => (6, dice.upto(100), 0),
        12 => (6, dice.pick(&[0, 1, 9_999, 10_000, 10_001, 65_535]), 0),
        13 | 14 | 15 => (7, dice.upto(4_300), dice.upto(255)),
        16 | 17 => (8, dice.between(1, 7), dice.between(1, 4)),
        18 => (8, random_fitted_slot(dice, chain), dice.between(1, 4)),
        19 => (dice.upto(9), dice.upto(20), dice.upto(2)),
        20 => (dice.upto(12), dice.upto(70_000), dice.upto(300)),
        21 => (dice.next() as u32, dice.next() as u32, dice.next() as u32),
        22 => (7, dice.upto(65_535), dice.upto(255)),
        23 => (6, dice.upto(65_535), 0),
        _ => (1, dice.upto(15), 0),
    }
}

fn plan_word(dice: &mut Dice, plan: &mut Vec<Event>, word17: u32) {
    for n in 0..17 {
        plan.push((4, word17 >> (16 - n) & 1, 0));
        plan.push((5, 1, 0));
        if dice.one_in(8) {
            plan.push((6, dice.pick(&[1, 50, 5_000, 10_000]), 0));
        }
        plan.push((5, 0, 0));
        if dice.one_in(8) {
            plan.push((6, dice.pick(&[1, 50, 5_000, 10_000]), 0));
        }
    }
}

fn plan_fetch(plan: &mut Vec<Event>, bits: u32) {
    for _ in 0..bits {
        plan.push((5, 1, 0));
        plan.push((5, 0, 0));
    }
}

/// Both gates and the request low.
fn plan_quiet(plan: &mut Vec<Event>) {
    plan.push((2, 0, 0));
    plan.push((3, 0, 0));
    plan.push((5, 0, 0));
}

/// Waits until the drive is complete, if that isn't long; now and then not.
/// A word left half sent is waited out as well.
fn plan_patience(dice: &mut Dice, d: &Drive, plan: &mut Vec<Event>) {
    if transfer_open(d) && !dice.one_in(8) {
        plan.push((6, 10_001, 0));
    }
    let timer = d.busy.max(d.head_timer);
    if timer > 0 && !dice.one_in(8) {
        for _ in 0..(timer / 65_535 + 1).min(10) {
            plan.push((6, 65_535, 0));
        }
    }
}

/// Cells, and in some plans a thing in between that ends or faults them.
fn plan_cells(dice: &mut Dice, chain: &Chain, plan: &mut Vec<Event>) {
    let spoil_at = dice.upto(20);
    for n in 0..dice.upto(12) {
        plan.push((7, dice.upto(4_094), dice.upto(255)));
        if n == spoil_at {
            let slot = chain.select as u32;
            plan.push(match dice.upto(9) {
                0 => (1, dice.upto(3), 0),
                1 => (2, 1, 0),
                2 => (3, 1, 0),
                3 => (5, 1, 0),
                4 => (0, dice.upto(7), 0),
                5 => (8, slot, 1),
                6 => (8, slot, 2),
                7 => (8, slot, 3),
                8 => (8, slot, 4),
                _ => (6, dice.upto(65_535), 0),
            });
        }
    }
}

/// The next few events of a purposeful host.
fn plan_activity(dice: &mut Dice, chain: &Chain) -> Vec<Event> {
    let mut plan = Vec::new();
    if chain.selected().is_none() || dice.one_in(6) {
        plan.push((0, random_fitted_slot(dice, chain), 0));
        plan.reverse();
        return plan;
    }
    match dice.upto(14) {
        0 | 1 | 2 | 3 | 4 | 5 | 6 => {
            // A word, and its response where there is one.
            plan_quiet(&mut plan);
            let d = *chain.selected().unwrap();
            plan_patience(dice, &d, &mut plan);
            let word17 = match dice.upto(3) {
                0 if d.lost => with_parity(0x1000),
                0 if d.motor == Motor::Stopped => with_parity(0x5300),
                _ => random_word17(dice, &d),
            };
            plan_word(dice, &mut plan, word17);
            if word17 >> 13 == 2 || word17 >> 13 == 3 || dice.one_in(8) {
                let bits = if dice.one_in(6) { dice.upto(16) } else { 17 };
                plan_fetch(&mut plan, bits);
            }
        }
        7 | 8 => {
            // End a fault, most times, clear attention and write.
            plan_quiet(&mut plan);
            if !dice.one_in(4) {
                plan.push((8, chain.select as u32, 4));
            }
            plan_patience(dice, chain.selected().unwrap(), &mut plan);
            plan.push((1, dice.pick(&[0, 0, 0, 1]), 0));
            plan.push((6, 65_535, 0));
            plan_word(dice, &mut plan, with_parity(0x5000));
            plan.push((2, 1, 0));
            plan_cells(dice, chain, &mut plan);
            if dice.coin() {
                plan.push((2, 0, 0));
            }
        }
        9 | 10 => {
            // Read.
            plan_quiet(&mut plan);
            plan.push((1, dice.pick(&[0, 0, 0, 1]), 0));
            plan.push((6, 65_535, 0));
            plan.push((3, 1, 0));
            plan_cells(dice, chain, &mut plan);
            if dice.coin() {
                plan.push((3, 0, 0));
            }
        }
        11 => {
            // Wait out long timers.
            for _ in 0..dice.between(1, 40) {
                plan.push((6, 65_535, 0));
            }
        }
        12 => {
            // Recalibrate a lost drive, stop and start it.
            plan_quiet(&mut plan);
            plan_patience(dice, chain.selected().unwrap(), &mut plan);
            for word in [0x5200, 0x5300, 0x1000, 0x5000].iter() {
                plan_word(dice, &mut plan, with_parity(*word));
                plan.push((6, 65_535, 0));
            }
        }
        13 => {
            // Back to the first head, which is always there.
            plan.push((1, 0, 0));
        }
        _ => {
            for _ in 0..dice.upto(10) {
                plan.push(random_event(dice, chain));
            }
        }
    }
    plan.reverse();
    plan
}

// ===========================================================================
// The random soundness trial
// ===========================================================================

fn latched_all(chain: &Chain) -> Vec<u16> {
    (1..=7).map(|s| chain.in_slot(s).map_or(0, |d| d.latched)).collect()
}

/// Which slots' drives an event changed.
fn changed_slots(before: &Chain, after: &Chain) -> Vec<u8> {
    (1..=7).filter(|s| before.in_slot(*s) != after.in_slot(*s)).collect()
}

/// What the answer table and the rules say of any single event, apart from
/// the twin's own reasoning.
fn check_event(before: &Chain, after: &Chain, event: Event, answer: u8, value: u8) {
    let (kind, a, b) = event;
    assert!(value == 0 || answer == 1);
    let fitted = after.selected().is_some();
    match answer {
        0 => assert!(fitted || kind == 6 || kind == 8),
        1 | 2 => assert!(kind == 7 && before == after && fitted),
        3 => {
            assert!(kind <= 5 || kind == 7);
            assert!(!fitted);
            assert_eq!(latched_all(before), latched_all(after));
        }
        4 => {
            assert!(kind == 2 || kind == 3 || kind == 7);
            assert!(fitted);
            assert_eq!(before.drives, after.drives);
        }
        5 => assert!(kind <= 6 && kind != 4),
        20 => assert!(kind > 8),
        21 | 23 | 24 | 25 => (),
        _ => panic!("answer {}", answer),
    }
    if answer >= 20 {
        assert_eq!(before, after);
    }
    // Line levels are taken by every event not refused.
    if answer < 20 {
        let mut lines = *before;
        match kind {
            0 => lines.select = a as u8,
            1 => lines.head_lines = a as u8,
            2 => lines.write_gate = a == 1,
            3 => lines.read_gate = a == 1,
            4 => lines.command_data = a == 1,
            5 => lines.request = a == 1,
            _ => (),
        }
        lines.drives = after.drives;
        assert_eq!(lines, *after);
    }
    // Only the drives concerned change.
    for slot in changed_slots(before, after) {
        let concerned = match kind {
            0 => slot == before.select || slot == after.select,
            1 | 2 | 3 | 5 => slot == before.select,
            6 => true,
            8 => slot as u32 == a,
            _ => false,
        };
        assert!(concerned);
    }
    // A latched bit falls only by a word carried out at a fall of request.
    for slot in 1..=7 {
        if let (Some(was), Some(is)) = (before.in_slot(slot), after.in_slot(slot)) {
            let fell = was.latched & !is.latched != 0;
            let left = if is.standing { B1 } else { 0 };
            assert!(!fell || (kind == 5 && a == 0 && is.latched == left));
            assert!(was.standing == is.standing || (kind == 8 && b == if is.standing { 1 } else { 4 }));
            assert!(!(is.writing && is.latched != 0));
            assert_eq!(was.profile, is.profile);
            assert_eq!(was.place, is.place);
        }
    }
}

fn tell(before: &Chain, after: &Chain, event: Event, seen: &mut BTreeMap<String, u64>) {
    let mut note = |name: String| *seen.entry(name).or_insert(0) += 1;
    for slot in 1..=7 {
        if let (Some(was), Some(is)) = (before.in_slot(slot), after.in_slot(slot)) {
            for n in 0..16 {
                if is.latched & !was.latched & 1 << n != 0 {
                    note(format!("kind {} latched bit {}", event.0, n));
                }
            }
            if was.transfer != is.transfer {
                note(format!(
                    "kind {} transfer {:?} to {:?}",
                    event.0, was.transfer, is.transfer
                ));
            }
            if was.motor != is.motor {
                note(format!("kind {} motor {:?} to {:?}", event.0, was.motor, is.motor));
            }
            if was.reading != is.reading {
                note(format!("kind {} reading {}", event.0, is.reading));
            }
            if was.writing != is.writing {
                note(format!("kind {} writing {}", event.0, is.writing));
            }
            if was.cylinder != is.cylinder {
                note("cylinder moved".to_string());
            }
            if was.sector != is.sector {
                note("sector size set".to_string());
            }
            if was.offset != is.offset {
                note(format!("offset {}", is.offset));
            }
            if is.head_timer > was.head_timer {
                note(format!("kind {} head timer started", event.0));
            }
            if was.latched != 0 && is.latched == 0 {
                note("latched bits cleared".to_string());
            }
            if was.latched & !is.latched != 0 && is.latched == B1 {
                note("latched bits cleared but bit 1".to_string());
            }
            if was.standing != is.standing {
                note(format!("write fault stands {}", is.standing));
            }
        }
    }
}

#[test]
fn soundness_by_random_events() {
    let mut dice = Dice(15);
    let mut events = 0u64;
    let mut answers = BTreeMap::new();
    let mut seen = BTreeMap::new();
    let mut disturbed = 0u64;
    for trial in 0..400 {
        let most_cylinders = if trial % 10 == 0 { 150 } else { 3 };
        // Some hosts are nearly undisturbed, some hardly get a word through.
        let noise = dice.pick(&[15, 60, 200, 1_000, 5_000]);
        let mut b = random_bench(&mut dice, most_cylinders);
        let mut shadow = b.file.clone();
        let mut plan: Vec<Event> = Vec::new();
        for n in 0..10_000 {
            if dice.one_in(noise) && disturb(&mut dice, &mut b) {
                disturbed += 1;
            }
            if plan.is_empty() {
                plan = plan_activity(&mut dice, &b.chain);
            }
            let event = if dice.one_in(noise) || plan.is_empty() {
                random_event(&mut dice, &b.chain)
            } else {
                plan.pop().unwrap()
            };
            let before = b.chain;
            let wrong_length = dice.one_in(2_000);
            let (answer, value) = if wrong_length {
                // A lent file of another length: refused with 23 at the latest.
                let mut other = vec![0; dice.upto(3) as usize];
                let got = step(&mut b.chain, &mut other, event.0, event.1, event.2);
                assert!(got.0 >= 20 && got.0 <= 23 && got.0 != 22);
                assert!(other.iter().all(|byte| *byte == 0));
                got
            } else {
                step(&mut b.chain, &mut b.file, event.0, event.1, event.2)
            };
            events += 1;
            *answers.entry(answer).or_insert(0u64) += 1;
            check_event(&before, &b.chain, event, answer, value);
            tell(&before, &b.chain, event, &mut seen);
            let broken = broken_clauses(&b.chain);
            assert!(broken.is_empty(), "{:?} {:?} {:?}", broken, event, before);
            assert!(sound(&b.chain, b.file.len()));
            // The file changes by answer 2 alone, in that one byte.
            let place = |chain: &Chain| {
                let d = chain.selected().unwrap();
                let track = d.cylinder as usize * d.profile.heads as usize + d.head as usize;
                assert!(d.head < d.profile.heads && (event.1 as u16) < d.profile.track);
                d.place + track * d.profile.track as usize + event.1 as usize
            };
            if answer == 2 {
                assert!(before.selected().unwrap().writing && !before.selected().unwrap().standing);
                shadow[place(&before)] = event.2 as u8;
            }
            if answer == 1 {
                assert!(before.selected().unwrap().reading);
                assert_eq!(value, shadow[place(&before)]);
            }
            if n % 500 == 499 {
                assert!(b.file == shadow);
            }
        }
        // The trailers stand as they were laid.
        let profiles: Vec<Profile> =
            read_packs(&b.file).unwrap().iter().map(|p| p.profile).collect();
        let mut fitted = Vec::new();
        for slot in 1..=7 {
            if let Some(d) = b.chain.in_slot(slot) {
                fitted.push(d.profile);
            }
        }
        assert_eq!(profiles, fitted);
    }
    println!("soundness: {} events, {} disturbed records kept", events, disturbed);
    println!("  answers {:?}", answers);
    for (name, number) in seen.iter() {
        println!("  {}: {}", name, number);
    }
    assert!(events >= 2_000_000);
    for answer in [0, 1, 2, 3, 4, 5, 20, 21, 23, 24, 25].iter() {
        assert!(answers[answer] > 100, "answer {} hardly seen", answer);
    }
    // Deep states were reached.
    let deep = [
        "kind 5 latched bit 7",
        "kind 5 latched bit 6",
        "kind 5 latched bit 5",
        "kind 5 latched bit 4",
        "kind 2 latched bit 3",
        "kind 2 latched bit 1",
        "kind 2 latched bit 6",
        "kind 3 latched bit 6",
        "kind 0 latched bit 6",
        "kind 1 latched bit 6",
        "kind 6 latched bit 6",
        "kind 8 latched bit 0",
        "kind 8 latched bit 1",
        "kind 8 latched bit 4",
        "kind 5 transfer Taking to Responding",
        "kind 5 transfer Responding to None",
        "kind 6 transfer Responding to None",
        "kind 0 transfer Responding to None",
        "kind 5 motor Up to Stopped",
        "kind 5 motor Stopped to Starting",
        "kind 5 motor Stopped to Up",
        "kind 5 motor Starting to Up",
        "kind 5 motor Starting to Stopped",
        "kind 6 motor Starting to Up",
        "kind 0 head timer started",
        "kind 1 head timer started",
        "kind 1 writing false",
        "kind 1 reading false",
        "kind 8 reading false",
        "kind 8 writing false",
        "offset -1",
        "offset 1",
        "cylinder moved",
        "sector size set",
        "latched bits cleared",
        "latched bits cleared but bit 1",
        "write fault stands true",
        "write fault stands false",
    ];
    for name in deep.iter() {
        assert!(seen.contains_key(*name), "{} never seen", name);
    }
}

#[test]
fn malformed_records_are_refused_and_left() {
    let mut dice = Dice(22);
    let mut tried = 0u32;
    let mut by_answer = BTreeMap::new();
    for _ in 0..60 {
        let mut b = random_bench(&mut dice, 2);
        for _ in 0..2_000 {
            let mut chain = b.chain;
            for _ in 0..dice.between(1, 3) {
                break_field(&mut dice, &mut chain);
            }
            let event = random_event(&mut dice, &b.chain);
            if malformed(&chain) {
                let before = chain;
                let mut file = b.file.clone();
                if dice.one_in(5) {
                    file.pop();
                }
                let lent = file.clone();
                let got = step(&mut chain, &mut file, event.0, event.1, event.2);
                let answer = if event.0 > 8 {
                    20
                } else if operand_out_of_range(event.0, event.1, event.2) {
                    21
                } else {
                    22
                };
                assert_eq!(got, (answer, 0));
                assert!(chain == before && file == lent);
                line_sum(&chain); // names a sum for any record
                *by_answer.entry(answer).or_insert(0u32) += 1;
                tried += 1;
            } else {
                b.ev(event.0, event.1, event.2);
            }
        }
    }
    println!("malformed records: {} tried, {:?}", tried, by_answer);
    assert!(tried > 50_000);
}

/// Sets a random field to a random value, likely out of place.
fn break_field(dice: &mut Dice, chain: &mut Chain) {
    let r = dice.next() as u32;
    let small = dice.upto(40);
    let slot = random_fitted_slot(dice, chain) as u8;
    let what = dice.upto(29);
    let d = chain.in_slot_mut(slot).unwrap();
    match what {
        0 => d.profile.slot = small as u8,
        1 => d.profile.general = r as u16,
        2 => d.profile.cylinders = r as u16,
        3 => d.profile.heads = small as u8,
        4 => d.profile.track = r as u16,
        5 => d.profile.sector = r as u16,
        6 => d.profile.protected = small as u8,
        7 => d.profile.settle = r,
        8 => d.profile.step = r as u16,
        9 => d.profile.switch = r as u16,
        10 => d.profile.recalibrate = r,
        11 => d.profile.start = r,
        12 => d.profile.diagnostic = r,
        13 => d.place = r as usize,
        14 => d.motor = Motor::Starting,
        15 => d.cylinder = r as u16,
        16 => d.offset = r as i8,
        17 => d.head = small as u8,
        18 => d.busy = r,
        19 => d.head_timer = r,
        20 => d.latched = r as u16,
        21 => d.sector = r as u16,
        22 => d.reading = !d.reading,
        23 => d.writing = !d.writing,
        24 => d.transfer = Transfer::Taking,
        25 => {
            d.transfer = Transfer::Responding;
            d.count = small as u8;
            d.response = r >> dice.upto(31);
        }
        26 => {
            d.count = small as u8;
            d.bits = r >> dice.upto(31);
        }
        27 => d.acknowledge = !d.acknowledge,
        28 => d.standing = !d.standing,
        _ => {
            chain.select = small as u8;
            chain.head_lines = dice.upto(20) as u8;
            chain.length = chain.length.wrapping_add(dice.upto(2) as usize).wrapping_sub(1);
        }
    }
}

#[test]
fn plain_word_takes_any_drive() {
    // Nothing is expected of the caller: no drive and no word makes it stop.
    let mut dice = Dice(3);
    for _ in 0..20_000 {
        let mut b = Chain::fresh(&[]).unwrap();
        b.drives[0] = Some(fresh_drive(random_profile(&mut dice, 1, 4_096), 0));
        for _ in 0..4 {
            break_field(&mut dice, &mut b);
        }
        let mut d = b.drives[0].unwrap();
        let word = random_word17(&mut dice, &fresh_worked());
        plain_word(&mut d, word);
        plain_word(&mut d, dice.next() as u32);
    }
}

// ===========================================================================
// The pack file
// ===========================================================================

#[test]
fn trailer_bytes_of_the_worked_profile() {
    let t = trailer_of_fields(&worked_profile());
    let distance = 1_250u32 * 7 * 20_832 + 44;
    assert_eq!(
        t.to_vec(),
        vec![
            1, 0, 0x02, 0x4A, 0x04, 0xE2, 7, 0x14, 0x51, 0x60, 0x02, 0x00, 16, 16, 0, 0, 0, 0, 0x0B,
            0xB8, 0, 20, 0, 0, 0, 0, 0, 0, 0, 0, 0, 0, 0, 0, 0, 0, 0, 0, 0, 1,
            (distance >> 24) as u8, (distance >> 16) as u8, (distance >> 8) as u8, distance as u8,
        ]
    );
    assert_eq!(fields_of_trailer(&t), worked_profile());
}

#[test]
fn every_field_has_its_own_place() {
    let p = Profile {
        slot: 3,
        general: 0x6AB1,
        cylinders: 0x0102,
        heads: 5,
        vendor: 0xFE,
        track: 0x1234,
        sector: 0x0456,
        gap: 0x81,
        sync: 0x82,
        protected: 1,
        settle: 0xA1B2,
        step: 0x0301,
        switch: 0x9876,
        recalibrate: 0x0111_2233,
        start: 0x0144_5566,
        diagnostic: 0x0177_8899,
        offset: 0xCDEF,
    };
    assert!(valid_profile(&Profile { offset: 60_000, ..p }));
    let t = trailer_of_fields(&p);
    let expected: Vec<u8> = vec![
        3, 0, 0x6A, 0xB1, 0x01, 0x02, 5, 0xFE, 0x12, 0x34, 0x04, 0x56, 0x81, 0x82, 1, 0, 0, 0, 0xA1,
        0xB2, 0x03, 0x01, 0x98, 0x76, 0x01, 0x11, 0x22, 0x33, 0x01, 0x44, 0x55, 0x66, 0x01, 0x77,
        0x88, 0x99, 0xCD, 0xEF, 0, 1,
    ];
    assert_eq!(t[..40].to_vec(), expected);
    assert_eq!(fields_of_trailer(&t), p);
}

/// A file of one smallest pack (fixed, slot 3) to spoil.
fn one_pack() -> Vec<u8> {
    file_of_packs(&[smallest_drive(3)])
}

fn spoiled(at: usize, byte: u8) -> (u8, usize) {
    let mut file = one_pack();
    let trailer = file.len() - 44;
    file[trailer + at] = byte;
    read_answer(&file)
}

#[test]
fn decision_05_what_is_left() {
    assert_eq!(read_answer(&[]), (0, 0));
    assert_eq!(read_packs(&[]), Ok(vec![]));
    for n in 1..=43 {
        assert_eq!(read_answer(&vec![0; n]), (30, n));
    }
    assert_eq!(read_answer(&[0; 44]), (31, 44)); // distance 0
    let file = one_pack();
    let end = file.len();
    assert_eq!(read_answer(&file), (0, 0));
    // One to 43 bytes in front: 30 at their end.
    for n in 1..=43 {
        let mut longer = vec![0; n];
        longer.extend_from_slice(&file);
        assert_eq!(read_answer(&longer), (30, n));
    }
    let mut longer = vec![0; 44];
    longer.extend_from_slice(&file);
    assert_eq!(read_answer(&longer), (31, 44));
    // A byte of the medium missing: the distance is more than is left.
    assert_eq!(read_answer(&file[1..]), (31, end - 1));
    assert_eq!(Chain::fresh(&file[1..]), Err((31, end - 1)));
}

#[test]
fn decision_05_order_per_pack() {
    let end = one_pack().len();
    let spoil = |changes: &[(usize, u8)]| {
        let mut file = one_pack();
        for (at, byte) in changes {
            let place = file.len() - 44 + at;
            file[place] = *byte;
        }
        read_answer(&file)
    };
    // 31 before 32 before 33 before 34.
    assert_eq!(spoil(&[(40, 1), (39, 2), (0, 9)]), (31, end));
    assert_eq!(spoil(&[(43, 43), (42, 0), (39, 2), (0, 9)]), (31, end));
    assert_eq!(spoil(&[(43, 44), (42, 0), (39, 2), (0, 9)]), (32, end));
    assert_eq!(spoil(&[(43, 44), (42, 0), (0, 9)]), (33, end));
    assert_eq!(spoil(&[(43, 44), (42, 0)]), (34, end));
    assert_eq!(spoil(&[(5, 2)]), (34, end)); // two cylinders
    assert_eq!(spoil(&[(43, 0x2B), (42, 0x10)]), (0, 0)); // 4,139 itself
    assert_eq!(spoil(&[(43, 0x2A)]), (34, end));
    assert_eq!(spoil(&[(43, 0x2C)]), (31, end)); // one more than is left
    for form in 0..=255u8 {
        assert_eq!(spoil(&[(39, form)]).0, if form == 1 { 0 } else { 32 });
    }
}

#[test]
fn decision_04_fields() {
    let end = one_pack().len();
    // The zero places.
    for at in [1, 15, 38].iter() {
        for byte in 1..=255u8 {
            assert_eq!(spoiled(*at, byte), (33, end));
        }
    }
    for slot in 0..=255u8 {
        let answer = if 1 <= slot && slot <= 7 { (0, 0) } else { (33, end) };
        assert_eq!(spoiled(0, slot), answer);
    }
    for protected in 0..=255u8 {
        assert_eq!(spoiled(14, protected).0, if protected <= 1 { 0 } else { 33 });
    }
    // Vendor, gap and sync are any byte.
    for at in [7, 12, 13].iter() {
        for byte in 0..=255u8 {
            assert_eq!(spoiled(*at, byte), (0, 0));
        }
    }
    let base = smallest_drive(3);
    let ok = |p: Profile| valid_profile(&p);
    assert!(ok(base));
    assert!(!ok(Profile { cylinders: 0, ..base }) && ok(Profile { cylinders: 4_096, ..base }));
    assert!(!ok(Profile { cylinders: 4_097, ..base }));
    assert!(!ok(Profile { heads: 0, ..base }) && ok(Profile { heads: 16, ..base }));
    assert!(!ok(Profile { heads: 17, ..base }));
    assert!(!ok(Profile { track: 4_094, ..base }) && ok(Profile { track: 40_960, ..base }));
    assert!(!ok(Profile { track: 40_961, ..base }));
    assert!(!ok(Profile { sector: 161, ..base }) && ok(Profile { sector: 162, ..base }));
    assert!(!ok(Profile { sector: 4_096, ..base }) && ok(Profile { sector: 4_095, ..base }));
    assert!(!ok(Profile { sector: 0, ..base }));
    let soft = Profile { general: 0x0244, sector: 0, ..base };
    assert!(ok(soft) && !ok(Profile { sector: 512, ..soft }));
    assert!(!ok(Profile { settle: 60_001, ..base }) && ok(Profile { settle: 60_000, ..base }));
    assert!(!ok(Profile { step: 1_001, ..base }) && ok(Profile { step: 1_000, ..base }));
    let slow = Profile { general: base.general | 0x10, switch: 16, ..base };
    assert!(ok(slow) && !ok(Profile { switch: 15, ..slow }));
    assert!(ok(Profile { switch: 60_000, ..slow }) && !ok(Profile { switch: 60_001, ..slow }));
    assert!(ok(Profile { switch: 15, ..base }) && !ok(Profile { switch: 16, ..base }));
    let long = 30_000_000;
    assert!(ok(Profile { recalibrate: long, start: long, diagnostic: long, ..base }));
    assert!(!ok(Profile { recalibrate: long + 1, ..base }));
    assert!(!ok(Profile { start: long + 1, ..base }));
    assert!(!ok(Profile { diagnostic: long + 1, ..base }));
    assert!(!ok(Profile { offset: 60_001, ..base }) && ok(Profile { offset: 60_000, ..base }));
}

#[test]
fn decision_04_general_words() {
    // Every general word, against the sentence written out again.
    let mut good = 0;
    for general in 0..=65_535u16 {
        let one = |mask: u16| (general & mask).count_ones() == 1;
        let soft = general & 4 != 0;
        for switch in [0u16, 15, 16, 60_000].iter() {
            let p = Profile {
                general,
                switch: *switch,
                sector: if soft { 0 } else { 512 },
                ..smallest_drive(1)
            };
            let expected = general & 0x9000 == 0
                && one(0x0700)
                && one(0x00C0)
                && one(0x0007)
                && (general & 0x10 != 0) == (*switch > 15);
            assert_eq!(valid_profile(&p), expected);
            good += expected as u32;
        }
    }
    // 3 × 2 × 3 choices, five free bits, and two of the four switch times.
    assert_eq!(good, 18 * 32 * 2 * 2);
}

#[test]
fn decision_05_slots_rising() {
    let a = smallest_drive(2);
    let both = |front: u8, behind: u8| {
        let mut file = file_of_packs(&[Profile { slot: front, ..a }]);
        file.extend_from_slice(&file_of_packs(&[Profile { slot: behind, ..a }]));
        file
    };
    for front in 1..=7u8 {
        for behind in 1..=7u8 {
            // 35's place is the end of the pack in front.
            let answer = if front < behind { (0, 0) } else { (35, 4_139) };
            assert_eq!(read_answer(&both(front, behind)), answer);
        }
    }
    // Nothing further in front is read first.
    let mut file = vec![9; 10];
    file.extend_from_slice(&both(5, 5));
    assert_eq!(read_answer(&file), (35, 4_149));
    let mut file = vec![9; 10];
    file.extend_from_slice(&both(4, 5));
    assert_eq!(read_answer(&file), (30, 10));
    // The pack in front is refused for itself first.
    let mut file = both(5, 5);
    file[4_095 + 15] = 1;
    assert_eq!(read_answer(&file), (33, 4_139));
    // The last pack is refused before the one in front is looked at.
    let mut file = both(5, 4);
    file[4_139 + 4_095 + 15] = 1;
    assert_eq!(read_answer(&file), (33, 8_278));
}

#[test]
fn decision_11_too_long_a_file() {
    // The zeroed pages are never touched: 36 looks at the length alone.
    let file = vec![0u8; 2_147_483_648];
    assert_eq!(read_answer(&file), (36, 0));
    assert_eq!(Chain::fresh(&file), Err((36, 0)));
    assert_eq!(read_answer(&file[1..]), (31, 2_147_483_647));
}

#[test]
fn decision_05_and_06_laying() {
    let p = smallest_drive(4);
    let length = pack_length(&p) as usize;
    // Bytes past the pack stay, the medium is zeroed.
    let mut part = vec![0xAA; length + 10];
    assert_eq!(lay_pack(&p, &mut part), (0, 0));
    assert!(part[..4_095].iter().all(|byte| *byte == 0));
    assert_eq!(part[4_095..length].to_vec(), trailer_of_fields(&p).to_vec());
    assert!(part[length..].iter().all(|byte| *byte == 0xAA));
    let mut exact = vec![0xAA; length];
    assert_eq!(lay_pack(&p, &mut exact), (0, 0));
    // 37, buffer untouched.
    let mut short = vec![0xAA; length - 1];
    assert_eq!(lay_pack(&p, &mut short), (37, 0));
    assert!(short.iter().all(|byte| *byte == 0xAA));
    // 36 is the pack's own length, before room is asked for.
    let big = Profile { cylinders: 4_096, heads: 16, track: 32_768, ..p };
    assert_eq!(lay_pack(&big, &mut short), (36, 0));
    assert_eq!(lay_pack(&Profile { track: 32_767, ..big }, &mut short), (37, 0));
    assert_eq!(lay_pack(&Profile { track: 40_960, ..big }, &mut []), (36, 0));
    // 33 before both.
    assert_eq!(lay_pack(&Profile { slot: 0, ..big }, &mut short), (33, 0));
    assert!(short.iter().all(|byte| *byte == 0xAA));
}

/// What a card may hold before a pack of `p` is laid on it: nothing, garbage, an older pack of the same shape, one of
/// another shape that ends at the same place, two packs in that room.
fn former_contents(dice: &mut Dice, p: &Profile) -> Vec<Vec<u8>> {
    let length = pack_length(p) as usize;
    let drawn = |older: &Profile| {
        let mut card = vec![0xAA; length];
        card[length - 44..].copy_from_slice(&trailer_of_fields(older));
        card
    };
    let older = Profile { slot: 7, protected: 1, ..*p };
    let turned = Profile { cylinders: p.heads as u16, heads: p.cylinders as u8, ..older };
    let mut two = file_of_packs(&[smallest_drive(1), smallest_drive(2)]);
    let behind = two.len().saturating_sub(length);
    two.drain(..behind);
    let mut room = vec![0x55; length - two.len()];
    room.append(&mut two);
    let garbage = (0..length).map(|_| dice.next() as u8).collect();
    vec![vec![0; length], garbage, drawn(&older), drawn(&turned), room]
}

#[test]
fn request_4_a_card_pulled_while_a_pack_is_laid() {
    let mut dice = Dice(44);
    let (mut refused, mut finished) = (0u32, 0u32);
    for _ in 0..40 {
        let p = random_profile(&mut dice, 1, 2);
        let mut last = vec![0; pack_length(&p) as usize];
        assert_eq!(lay_pack(&p, &mut last), (0, 0));
        for mut card in former_contents(&mut dice, &p) {
            for (place, byte) in lay_writes(&p) {
                card[place] = byte;
                if read_answer(&card).0 == 0 {
                    assert!(card == last);
                    finished += 1;
                } else {
                    refused += 1;
                }
            }
            assert!(card == last);
        }
    }
    println!("pulled: {} refused, {} finished", refused, finished);
    // The order: the form spoiled, the medium, the fields, "its back distance last of all".
    let p = smallest_drive(1);
    let places: Vec<usize> = lay_writes(&p).map(|(place, _)| place).collect();
    assert_eq!(places, [4_134].into_iter().chain(0..4_139).collect::<Vec<usize>>());
    // Without the spoiled form a card half laid looks finished: that is what the first write is for.
    let mut card = vec![0xAA; pack_length(&p) as usize];
    card[4_095..].copy_from_slice(&trailer_of_fields(&Profile { slot: 7, ..p }));
    for (place, byte) in lay_writes(&p).skip(1).take(2_000) {
        card[place] = byte;
    }
    assert_eq!(read_answer(&card), (0, 0));
}

#[test]
fn pack_files_round_trip() {
    let mut dice = Dice(40);
    let mut packs = 0u32;
    for _ in 0..1_500 {
        let set = dice.upto(127);
        let mut profiles = Vec::new();
        for slot in 1..=7u8 {
            if set >> (slot - 1) & 1 == 1 {
                profiles.push(random_profile(&mut dice, slot, 2));
            }
        }
        // Fields in, fields out.
        let file = file_of_packs(&profiles);
        let read = read_packs(&file).unwrap();
        let fields: Vec<Profile> = read.iter().map(|p| p.profile).collect();
        assert_eq!(fields, profiles);
        // "laying out the fields read gives the same trailers", from a file
        // whose media are full.
        let mut full = file.clone();
        for pack in read.iter() {
            let medium = medium_length(&pack.profile) as usize;
            for byte in full[pack.place..pack.place + medium].iter_mut() {
                *byte = dice.0 as u8;
            }
            dice.next();
        }
        let again = file_of_packs(
            &read_packs(&full).unwrap().iter().map(|p| p.profile).collect::<Vec<Profile>>(),
        );
        assert!(again == file);
        for pack in read.iter() {
            let end = pack.place + pack_length(&pack.profile) as usize;
            assert!(full[end - 44..end] == again[end - 44..end]);
            assert!(full[end - 44..end] == trailer_of_fields(&pack.profile)[..]);
        }
        packs += profiles.len() as u32;
        // The fresh chain is sound.
        let chain = Chain::fresh(&full).unwrap();
        assert!(sound(&chain, full.len()));
        assert_eq!(line_sum(&chain), 0);
    }
    println!("round trips: {} packs", packs);
}

/// Reading a pack file again, written apart from the twin's way: every
/// refusal is looked for by itself and the first in order is given.
fn read_again(file: &[u8], behind: u8) -> (u8, usize) {
    let end = file.len();
    if end == 0 {
        return (0, 0);
    }
    if end < 44 {
        return (30, end);
    }
    let t = &file[end - 44..];
    let number = |from: usize, to: usize| {
        t[from..to].iter().fold(0u64, |sum, byte| sum * 256 + *byte as u64)
    };
    let distance = number(40, 44);
    let general = number(2, 4);
    let (cylinders, heads, track, sector) = (number(4, 6), number(6, 7), number(8, 10), number(10, 12));
    let one = |mask: u64| (general & mask).count_ones() == 1;
    let fields = [
        (1..=7).contains(&t[0]),
        t[1] == 0 && t[15] == 0 && t[38] == 0,
        general & 0x9000 == 0,
        one(0x700) && one(0xC0) && one(7),
        (general & 16 == 16) == (number(22, 24) >= 16),
        (1..=4_096).contains(&cylinders),
        (1..=16).contains(&heads),
        (4_095..=40_960).contains(&track),
        if general & 4 == 4 { sector == 0 } else { (162..=4_095).contains(&sector) },
        t[14] == 0 || t[14] == 1,
        number(16, 20) <= 60_000,
        number(20, 22) <= 1_000,
        number(22, 24) <= 60_000,
        [24, 28, 32].iter().all(|at| number(*at, at + 4) <= 30_000_000),
        number(36, 38) <= 60_000,
    ];
    let faults = [
        (31, distance < 44 || distance > end as u64),
        (32, t[39] != 1),
        (33, fields.contains(&false)),
        (34, distance != cylinders * heads * track + 44),
        (35, t[0] >= behind),
    ];
    match faults.iter().find(|fault| fault.1) {
        Some(fault) => (fault.0, end),
        None => read_again(&file[..end - distance as usize], t[0]),
    }
}

#[test]
fn spoiled_pack_files() {
    let mut dice = Dice(41);
    let mut answers = BTreeMap::new();
    for _ in 0..3_000 {
        let mut profiles = Vec::new();
        let set = dice.upto(127);
        for slot in 1..=7u8 {
            if set >> (slot - 1) & 1 == 1 {
                let p = random_profile(&mut dice, slot, 1);
                profiles.push(Profile { heads: 1, ..p });
            }
        }
        let mut file = file_of_packs(&profiles);
        let packs = read_packs(&file).unwrap();
        for _ in 0..30 {
            let mut bad = file.clone();
            for _ in 0..dice.between(1, 2) {
                if packs.is_empty() {
                    break;
                }
                let pack = packs[dice.upto(packs.len() as u32 - 1) as usize];
                let end = pack.place + pack_length(&pack.profile) as usize;
                let at = end - 44 + dice.upto(43) as usize;
                bad[at] = match dice.upto(3) {
                    0 => bad[at].wrapping_add(1),
                    1 => bad[at] ^ 1 << dice.upto(7),
                    2 => 0,
                    _ => dice.upto(255) as u8,
                };
            }
            match dice.upto(9) {
                0 => bad.truncate(file.len() - dice.upto(100.min(file.len() as u32)) as usize),
                1 => bad.extend_from_slice(&vec![0; dice.upto(100) as usize]),
                2 => {
                    bad.drain(..dice.upto(100.min(file.len() as u32)) as usize);
                }
                _ => (),
            }
            let answer = read_answer(&bad);
            assert_eq!(answer, read_again(&bad, 8));
            *answers.entry(answer.0).or_insert(0u32) += 1;
            match Chain::fresh(&bad) {
                Ok(chain) => assert!(answer == (0, 0) && sound(&chain, bad.len())),
                Err(refusal) => assert_eq!(answer, refusal),
            }
        }
        file.clear();
    }
    println!("spoiled pack files: {:?}", answers);
    for answer in [0, 30, 31, 32, 33, 34, 35].iter() {
        assert!(answers.contains_key(answer));
    }
}

// ===========================================================================
// Captures
// ===========================================================================

const READ_GATE: u16 = 1 << 7;
const WRITE_GATE: u16 = 1 << 8;
const DATA: u16 = 1 << 9;
const REQUEST: u16 = 1 << 10;
/// What one more head adds to the levels.
const HEAD: u16 = 1 << 3;

const LOW: Levels = [0; 6];

/// A capture of stamps and levels.
fn capture_of(samples: &[(u32, u16)]) -> Vec<u8> {
    samples.iter().flat_map(|&(stamp, levels)| sample_of(stamp, levels)).collect()
}

fn events_of(levels: Levels, samples: &[(u32, u16)]) -> Vec<Event> {
    capture_events(levels, &capture_of(samples)).collect()
}

/// The rich bench with slot 2 selected and every other line low.
fn quiet_bench() -> Bench {
    let mut b = rich_bench();
    assert_eq!(b.a(4, 0, 0), 0);
    assert_eq!(b.chain.levels(), [2, 0, 0, 0, 0, 0]);
    b
}

/// The lengths of the passing events between two stamps.
fn passes(earlier: u32, later: u32) -> Vec<u32> {
    let events = events_of(LOW, &[(earlier, 0), (later, 0)]);
    assert!(events.iter().all(|e| e.0 == 6 && e.2 == 0));
    events.iter().map(|e| e.1).collect()
}

impl Bench {
    /// A capture with as much room as it asks for: the numbers and values of its answers.
    fn capture(&mut self, capture: &[u8]) -> Vec<(u8, u8)> {
        let (answer, count) = capture_count(self.chain.levels(), capture);
        assert_eq!(answer, 0);
        let mut answers = vec![0xEE; 2 * count as usize];
        assert_eq!(run_capture(&mut self.chain, &mut self.file, capture, &mut answers), (0, count));
        answers.chunks(2).map(|pair| (pair[0], pair[1])).collect()
    }

    /// The answers alone, to samples that come after as many microseconds each.
    fn samples(&mut self, between: u32, levels: &[u16]) -> Vec<u8> {
        let samples: Vec<(u32, u16)> = levels.iter().enumerate().map(|(n, l)| (n as u32 * between, *l)).collect();
        let answers = self.capture(&capture_of(&samples));
        assert!(answers.iter().all(|a| a.1 == 0));
        answers.iter().map(|a| a.0).collect()
    }

    /// The capture is refused, and nothing of chain, file and answers changes.
    fn refuses(&mut self, capture: &[u8], room: usize) -> (u8, u64) {
        let before = self.clone();
        let mut answers = vec![0xEE; room];
        let code = run_capture(&mut self.chain, &mut self.file, capture, &mut answers);
        assert!(code.0 == 40 || code.0 == 37);
        assert!(self.chain == before.chain && self.file == before.file);
        assert!(answers.iter().all(|byte| *byte == 0xEE));
        code
    }
}

#[test]
fn request_2_time_is_split_into_passing_events() {
    assert_eq!(passes(1_000, 1_000), []); // equal stamps: no event of 0
    assert_eq!(passes(1_000, 1_001), [1]);
    assert_eq!(passes(0, 65_534), [65_534]);
    assert_eq!(passes(0, 65_535), [65_535]);
    assert_eq!(passes(0, 65_536), [65_535, 1]);
    assert_eq!(passes(7, 7 + 131_070), [65_535, 65_535]);
    assert_eq!(passes(7, 7 + 131_071), [65_535, 65_535, 1]);
    // The longest: 2^32 − 1 is 65,537 times 65,535.
    assert_eq!(passes(0, u32::MAX), vec![65_535; 65_537]);
    assert_eq!(passes(0, u32::MAX - 1), [vec![65_535; 65_536], vec![65_534]].concat());
    // A stamp that runs over, and one that seems to run back.
    assert_eq!(passes(u32::MAX, 0), [1]);
    assert_eq!(passes(0xFFFF_FFF6, 4), [14]);
    assert_eq!(passes(0xFFFF_0001, 0), [65_535]);
    assert_eq!(passes(0xFFFF_0000, 0), [65_535, 1]);
    assert_eq!(passes(1, 0).len(), 65_537);
}

#[test]
fn request_2_the_passing_events_sum_to_the_time() {
    let mut dice = Dice(2);
    for n in 0..2_000u32 {
        let earlier = dice.next() as u32;
        let time = match n % 4 {
            0 => dice.next() as u32 >> dice.upto(31),
            1 => dice.upto(20) * 65_535 + dice.upto(2),
            2 => (dice.upto(20) * 65_535).wrapping_sub(dice.upto(2)),
            _ => dice.upto(70_000),
        };
        let parts = passes(earlier, earlier.wrapping_add(time));
        assert_eq!(parts.iter().map(|part| *part as u64).sum::<u64>(), time as u64);
        assert!(parts.iter().all(|part| *part > 0));
        assert!(parts.iter().rev().skip(1).all(|part| *part == 65_535));
    }
    // Of a whole capture: its last stamp less its first, modulo 2^32, however often it runs over.
    for _ in 0..200 {
        let samples: Vec<(u32, u16)> = (0..dice.between(1, 8)).map(|_| (dice.next() as u32, dice.upto(2_047) as u16)).collect();
        let events = events_of(LOW, &samples);
        let sum = events.iter().filter(|e| e.0 == 6).fold(0u32, |sum, e| sum.wrapping_add(e.1));
        assert_eq!(sum, samples[samples.len() - 1].0.wrapping_sub(samples[0].0));
    }
}

#[test]
fn request_2_lines_of_one_sample_in_their_order() {
    let all = 5 | 9 * HEAD | READ_GATE | WRITE_GATE | DATA | REQUEST;
    let up = [(0, 5, 0), (1, 9, 0), (3, 1, 0), (2, 1, 0), (4, 1, 0), (5, 1, 0)];
    let down = [(0, 0, 0), (1, 0, 0), (3, 0, 0), (2, 0, 0), (4, 0, 0), (5, 0, 0)];
    assert_eq!(events_of(LOW, &[(0, all)]), up);
    // The time comes first, and nothing comes for a line that stays.
    assert_eq!(events_of(LOW, &[(0, all), (3, 0)]), [&up[..], &[(6, 3, 0)], &down[..]].concat());
    assert_eq!(events_of(LOW, &[(0, all), (3, all), (3, all ^ DATA)]), [&up[..], &[(6, 3, 0), (4, 0, 0)]].concat());
    assert_eq!(events_of(LOW, &[(0, 5), (0, 2 | HEAD)]), [(0, 5, 0), (0, 2, 0), (1, 1, 0)]);
    // The bytes: stamp, levels, high byte first; each line alone.
    assert_eq!(sample_of(0x0102_0304, all), [1, 2, 3, 4, 7, 0xCD]);
    let alone = |levels: u16| events_of(LOW, &[(0, levels)]);
    assert_eq!(alone(7), [(0, 7, 0)]);
    assert_eq!(alone(0x78), [(1, 15, 0)]);
    assert_eq!(alone(0x80), [(3, 1, 0)]);
    assert_eq!(alone(0x100), [(2, 1, 0)]);
    assert_eq!(alone(0x200), [(4, 1, 0)]);
    assert_eq!(alone(0x400), [(5, 1, 0)]);
    // Every sample's levels, applied one by one, and put together again.
    for levels in 0..2_048u16 {
        let mut b = Bench::of(&[]);
        b.capture(&capture_of(&[(0, levels)]));
        let c = &b.chain;
        assert_eq!((c.select as u16, c.head_lines as u16), (levels & 7, levels >> 3 & 15));
        assert_eq!([c.read_gate, c.write_gate, c.command_data, c.request], [7, 8, 9, 10].map(|n| bit(levels, n)));
        let together = alone(levels).iter().try_fold(0, |so_far, e| levels_with(so_far, e.0, e.1));
        assert_eq!(together, Some(levels));
    }
    assert_eq!((levels_with(0, 0, 8), levels_with(0, 1, 16), levels_with(0, 5, 2)), (None, None, None));
    assert_eq!((levels_with(0, 6, 0), levels_with(0, 7, 0), levels_with(0, 8, 1)), (None, None, None));
}

#[test]
fn request_2_the_first_sample_passes_no_time() {
    for stamp in [0, 1, 65_536, u32::MAX].iter() {
        let mut b = quiet_bench();
        b.word(0x0003);
        b.a(4, 0, 0);
        assert_eq!(b.capture(&capture_of(&[(*stamp, 2)])), []);
        assert_eq!(b.d(2).busy, 121);
        assert_eq!(b.capture(&capture_of(&[(*stamp, 2), (stamp.wrapping_add(1), 2)])), [(0, 0)]);
        assert_eq!(b.d(2).busy, 120);
        // Its lines differ from the record's, not from low ones.
        let record = b.chain.levels();
        assert_eq!(events_of(record, &[(*stamp, 2 | DATA)]), [(4, 1, 0)]);
        assert_eq!(events_of(record, &[(*stamp, HEAD)]), [(0, 0, 0), (1, 1, 0)]);
        assert_eq!(events_of(LOW, &[(*stamp, 2 | DATA)]), [(0, 2, 0), (4, 1, 0)]);
    }
}

#[test]
fn request_2_40_a_capture_that_is_none() {
    let sound: Vec<(u32, u16)> = (0..4).map(|n| (n * 10, n as u16)).collect();
    let capture = capture_of(&sound);
    assert_eq!(capture_place(&capture), None);
    // Any length but a multiple of six; the place is where the last, incomplete sample begins.
    for length in 0..=capture.len() {
        let place = length / 6 * 6;
        let expected = if length % 6 == 0 { None } else { Some(place) };
        assert_eq!(capture_place(&capture[..length]), expected);
        if length % 6 != 0 {
            assert_eq!(rich_bench().refuses(&capture[..length], 100), (40, place as u64));
        }
    }
    // Each of bits 11 to 15 in each sample, and no other bit; any stamp will do.
    for n in 0..4 {
        for number in 0..16 {
            let mut samples = sound.clone();
            samples[n].1 = 1 << number;
            samples[n].0 = u32::MAX;
            let expected = if number < 11 { None } else { Some(n * 6) };
            assert_eq!(capture_place(&capture_of(&samples)), expected);
            if number >= 11 {
                assert_eq!(rich_bench().refuses(&capture_of(&samples), 1_000_000), (40, n as u64 * 6));
                assert_eq!(Runner::smallest().capture(&capture_of(&samples)), Err(n * 6));
            }
        }
    }
    // The first of several is named; of an incomplete one the levels aren't looked at.
    let mut bad = capture_of(&[(0, 0), (1, 0x0800), (2, 0x8000), (3, 0xFFFF)]);
    assert_eq!(capture_place(&bad), Some(6));
    bad.truncate(11);
    assert_eq!(capture_place(&bad), Some(6));
    assert_eq!(capture_place(&capture_of(&[(0, 0xF800)])[..5]), Some(0));
}

#[test]
fn request_2_40_and_37_change_nothing() {
    // Select, then two passing events and a gate, then select and the gate again: two bytes each.
    let capture = capture_of(&[(0, 5), (70_000, 5 | READ_GATE), (70_000, 2)]);
    let mut spoiled = capture.clone();
    spoiled[16] |= 0x80;
    assert_eq!(capture_count(quiet_bench().chain.levels(), &capture), (0, 6));
    for room in 0..12 {
        assert_eq!(quiet_bench().refuses(&capture, room), (37, 6));
        assert_eq!(quiet_bench().refuses(&spoiled, room), (40, 12)); // 40 comes first
    }
    assert_eq!(quiet_bench().refuses(&spoiled, 12), (40, 12));
    let mut b = quiet_bench();
    let mut answers = vec![0xEE; 15];
    assert_eq!(run_capture(&mut b.chain, &mut b.file, &capture, &mut answers), (0, 6));
    assert_eq!(answers, [0, 0, 0, 0, 0, 0, 0, 0, 0, 0, 0, 0, 0xEE, 0xEE, 0xEE]);
    // "ahead of everything": of 22 and 23 too, and so is 37, which comes before the first event.
    let mut b = quiet_bench();
    b.chain.head_lines = 16;
    b.file.push(0);
    assert_eq!((b.refuses(&spoiled, 100), b.refuses(&capture, 13)), ((40, 12), (37, 7)));
    // A pause of 71 minutes counts by its events.
    let long = capture_of(&[(1, 0), (0, 0)]);
    assert_eq!(Bench::of(&[]).refuses(&long, 2 * 65_537 - 1), (37, 65_537));
}

#[test]
fn request_2_no_sample_at_all_is_a_capture() {
    for malformed_too in [false, true].iter() {
        let mut b = rich_bench();
        if *malformed_too {
            b.chain.head_lines = 77;
        }
        let before = b.clone();
        for room in [0usize, 1, 9].iter() {
            let mut answers = vec![0xEE; *room];
            assert_eq!(run_capture(&mut b.chain, &mut b.file, &[], &mut answers), (0, 0));
            assert!(answers.iter().all(|byte| *byte == 0xEE));
        }
        assert!(b.chain == before.chain && b.file == before.file);
    }
    assert_eq!(Runner::smallest().capture(&[]), Ok(String::new()));
    assert_eq!(capture_count(LOW, &[]), (0, 0));
}

#[test]
fn request_2_equal_stamps_pass_no_time() {
    let mut b = quiet_bench();
    b.word(0x0003);
    b.a(4, 0, 0);
    let samples = [2, 2 | DATA, 2, 2 | DATA].map(|levels| (4_000_000_000, levels));
    assert_eq!(b.capture(&capture_of(&samples)), [(0, 0); 3]);
    assert_eq!((b.d(2).busy, b.chain.command_data), (121, true));
}

#[test]
fn request_2_gates_that_change_in_one_sample() {
    // The write gate falls as the read gate rises: the read gate goes first, both are on, bit 6.
    let mut b = quiet_bench();
    assert_eq!(b.samples(0, &[2 | WRITE_GATE]), [0]);
    assert!(b.d(2).writing);
    assert_eq!(b.samples(0, &[2 | READ_GATE]), [5, 0]);
    assert_eq!((b.d(2).latched, b.d(2).writing, b.d(2).reading), (B6, false, false));
    // The other way about the read gate is off first, and writing begins.
    let mut b = quiet_bench();
    assert_eq!(b.samples(0, &[2 | READ_GATE]), [0]);
    assert_eq!(b.samples(0, &[2 | WRITE_GATE]), [0, 0]);
    assert_eq!((b.d(2).latched, b.d(2).writing), (0, true));
    // Both rising: reading begins, and the write gate finds the read gate on.
    let mut b = quiet_bench();
    assert_eq!(b.samples(0, &[2 | READ_GATE | WRITE_GATE]), [0, 5]);
    assert_eq!((b.d(2).latched, b.d(2).reading), (B6, false));
    // A sample between them, at the same stamp, parts the two.
    let mut b = quiet_bench();
    assert_eq!(b.samples(0, &[2 | WRITE_GATE, 2, 2 | READ_GATE]), [0, 0, 0]);
    assert_eq!((b.d(2).latched, b.d(2).reading), (0, true));
}

#[test]
fn request_2_a_select_goes_before_the_request() {
    // Request falls with a new select: the drive is left with its transfer open.
    let mut b = quiet_bench();
    assert_eq!(b.samples(0, &[2 | REQUEST]), [0]);
    assert!(transfer_open(b.d(2)));
    assert_eq!(b.samples(0, &[5]), [5, 0]);
    assert_eq!((b.d(2).latched, b.d(2).transfer), (B6, Transfer::None));
    assert_eq!((b.d(5).latched, b.d(5).transfer), (B8, Transfer::None));
    // Even at the fall of the 17th bit: the word isn't carried out.
    let mut b = quiet_bench();
    b.bits(with_parity(0x0003), 16);
    assert_eq!(b.samples(0, &[2 | DATA | REQUEST]), [0]); // the data line is up from bit 0
    assert_eq!((b.d(2).count, b.d(2).bits), (17, with_parity(0x0003)));
    assert_eq!(b.samples(0, &[5 | DATA]), [5, 0]);
    assert_eq!((b.d(2).cylinder, b.d(2).latched), (0, B6));
    // A rise with a new select is the new drive's, and takes the data of its own sample.
    let mut b = quiet_bench();
    assert_eq!(b.samples(0, &[5 | DATA | REQUEST]), [0, 0, 0]);
    assert!(!transfer_open(b.d(2)));
    assert_eq!((b.d(5).transfer, b.d(5).bits, b.d(5).count), (Transfer::Taking, 1, 1));
    // New head lines with a new select are the new drive's; the drive left keeps its head.
    let mut b = quiet_bench();
    assert_eq!(b.samples(0, &[5 | HEAD]), [0, 0]);
    assert_eq!((b.d(2).head, b.d(2).head_timer, b.d(5).head, b.d(5).head_timer), (0, 0, 1, 40));
    // With request in that sample too, its rise finds the head timer running.
    let mut b = quiet_bench();
    assert_eq!(b.samples(0, &[5 | HEAD | REQUEST]), [0, 0, 5]);
    assert_eq!(b.d(5).latched, B8 | B6);
}

/// The samples of seventeen bits to the drive in slot 2, the data with each rise, as many microseconds between the edges.
fn bit_samples(stamp: &mut u32, between: u32, word17: u32) -> Vec<(u32, u16)> {
    let mut samples = Vec::new();
    for n in (0..17).rev() {
        let data = if word17 >> n & 1 == 1 { DATA } else { 0 };
        for levels in [2 | data | REQUEST, 2 | data].iter() {
            *stamp = stamp.wrapping_add(between);
            samples.push((*stamp, *levels));
        }
    }
    samples
}

#[test]
fn request_2_words_by_capture() {
    // Status asked and fetched while the stamp runs over, up to 10,000 µs between two edges.
    for between in [0, 1, 10, 9_999, 10_000].iter() {
        let mut b = quiet_bench();
        let mut runner = Runner { chain: b.chain, file: b.file.clone(), count: 0 };
        let mut stamp = 0u32.wrapping_sub(150);
        let mut samples = vec![(stamp, 2)];
        samples.extend(bit_samples(&mut stamp, *between, with_parity(0x2000)));
        samples.extend(bit_samples(&mut stamp, *between, 0));
        let answers = b.capture(&capture_of(&samples));
        assert!(answers.iter().all(|a| *a == (0, 0)));
        assert_eq!((b.d(2).transfer, b.d(2).latched), (Transfer::None, 0));
        // 0000h and its parity bit: the sum shows data from the last rise to the last fall, the wait between them too.
        let output = runner.capture(&capture_of(&samples)).unwrap();
        let sums: Vec<u8> = output.lines().map(|l| l.rsplit(' ').next().unwrap().parse().unwrap()).collect();
        let shown: Vec<usize> = (1..=sums.len()).rev().filter(|back| sums[sums.len() - back] & 8 == 8).collect();
        assert_eq!(shown, if *between == 0 { vec![2] } else { vec![3, 2] });
        assert_eq!((sums.len(), sums.last()), (answers.len(), Some(&35)));
    }
    // One microsecond more, and the transfer is dropped in the first wait.
    let mut b = quiet_bench();
    let samples = bit_samples(&mut 0, 10_001, with_parity(0x2000));
    assert_eq!(b.capture(&capture_of(&samples[..2])), [(0, 0), (5, 0), (0, 0)]);
    assert_eq!((b.d(2).latched, b.d(2).transfer), (B6, Transfer::None));
}

/// Samples of a purposeful host: the lines of its plans, some together in one sample, and now and then any levels. What
/// the chain is doing by then is found by running each plan's samples, from the last one before it.
fn random_samples(dice: &mut Dice, mut host: Bench) -> Vec<(u32, u16)> {
    let mut levels = if dice.coin() { 0 } else { dice.upto(2_047) as u16 };
    let mut stamp = if dice.coin() { 0u32.wrapping_sub(dice.upto(5_000)) } else { dice.next() as u32 };
    let mut samples = vec![(stamp, levels)];
    for _ in 0..dice.upto(20) {
        let from = samples.len() - 1;
        let mut plan = plan_activity(dice, &host.chain);
        while let Some((kind, a, _)) = plan.pop() {
            match kind {
                6 => stamp = stamp.wrapping_add(a.min(65_535)),
                _ => levels = levels_with(levels, kind, a).unwrap_or(levels),
            }
            if dice.one_in(100) {
                levels = dice.upto(2_047) as u16;
            }
            if kind != 4 && !dice.one_in(100) {
                samples.push((stamp, levels));
                stamp = stamp.wrapping_add(dice.pick(&[0, 1, 3, 10]));
            }
        }
        if dice.one_in(20) {
            stamp = stamp.wrapping_add(dice.between(1, 3) * 65_535 + dice.upto(2) - 1);
        }
        host.capture(&capture_of(&samples[from..]));
    }
    samples
}

#[test]
fn request_2_equal_to_feeding_the_same_events_singly() {
    let mut dice = Dice(22);
    let (mut events, mut wraps, mut answered) = (0u64, 0u64, BTreeMap::new());
    for _ in 0..400 {
        let start = random_bench(&mut dice, 3);
        let samples = random_samples(&mut dice, start.clone());
        let capture = capture_of(&samples);
        wraps += samples.windows(2).filter(|two| two[1].0 < two[0].0).count() as u64;
            // Singly: the events are found here again, from the lines as they stand.
        let mut singly = start.clone();
        let mut typed = Runner { chain: start.chain, file: start.file.clone(), count: 0 };
        let (mut expected, mut output) = (Vec::new(), String::new());
        for (n, (stamp, levels)) in samples.iter().enumerate() {
            let mut fed = Vec::new();
            let mut left = if n == 0 { 0 } else { stamp.wrapping_sub(samples[n - 1].0) };
            while left > 0 {
                fed.push((6, left.min(65_535), 0));
                left -= left.min(65_535);
            }
            let (l, c) = (*levels as u32, &singly.chain);
            let lines = [
                (0, c.select as u32, l % 8),
                (1, c.head_lines as u32, l / 8 % 16),
                (3, c.read_gate as u32, l / 128 % 2),
                (2, c.write_gate as u32, l / 256 % 2),
                (4, c.command_data as u32, l / 512 % 2),
                (5, c.request as u32, l / 1_024),
            ];
            fed.extend(lines.iter().filter(|line| line.1 != line.2).map(|line| (line.0, line.2, 0)));
            for (kind, a, b) in fed {
                let (answer, value) = singly.ev(kind, a, b);
                *answered.entry(answer).or_insert(0u64) += 1;
                expected.extend([answer, value]);
                output.push_str(&typed.line(format!("{} {} {}", kind, a, b).as_bytes()));
            }
        }
        events += expected.len() as u64 / 2;
        // At once: "The result is the chain, the pack file and each answer", and bytes past them stay.
        let mut whole = start.clone();
        let spare = dice.upto(3) as usize;
        let mut answers = vec![0xEE; expected.len() + spare];
        assert_eq!(run_capture(&mut whole.chain, &mut whole.file, &capture, &mut answers), (0, expected.len() as u64 / 2));
        assert!(whole.chain == singly.chain && whole.file == singly.file);
        assert_eq!(answers[..expected.len()], expected[..]);
        assert_eq!(answers[expected.len()..], vec![0xEE; spare][..]);
        if !expected.is_empty() {
            assert_eq!(start.clone().refuses(&capture, expected.len() - 1), (37, expected.len() as u64 / 2));
        }
        // By the runner: its lines are those of the events typed.
        let mut runner = Runner { chain: start.chain, file: start.file.clone(), count: 0 };
        assert_eq!(runner.capture(&capture).unwrap(), output);
        assert!(runner == typed);
        // Cut at a sample, which ends the first part and begins the second.
        let cut = 6 * dice.upto(samples.len() as u32 - 1) as usize;
        let mut parts = start.clone();
        let mut both = parts.capture(&capture[..cut + 6]);
        both.extend(parts.capture(&capture[cut..]));
        assert!(parts.chain == singly.chain && parts.file == singly.file);
        assert_eq!(both.iter().flat_map(|a| [a.0, a.1]).collect::<Vec<u8>>(), expected);
    }
    println!("captures: {} events, {} stamps ran over, answers {:?}", events, wraps, answered);
    assert!(wraps > 100);
    for answer in [0, 3, 4, 5].iter() {
        assert!(answered[answer] > 100, "answer {} hardly seen", answer);
    }
}

#[test]
fn request_2_22_and_23_are_the_events_answers() {
    let capture = capture_of(&[(0, 2), (5, 2 | REQUEST), (5, 2)]);
    // Over a file of another length each event is 23 and takes no level; the next sample's lines differ from the sample
    // before all the same: the time, request up, request down.
    let mut b = quiet_bench();
    b.file.push(0);
    let before = b.clone();
    assert_eq!(b.capture(&capture), [(23, 0); 3]);
    assert!(b.chain == before.chain && b.file == before.file);
    // On a malformed record each is 22, ahead of them the head lines, which are 16 and not 0.
    b.chain.head_lines = 16;
    assert_eq!(b.capture(&capture), [(22, 0); 4]);
    assert_eq!(b.chain, Chain { head_lines: 16, ..before.chain });
    // A level over its limit differs from every level that a sample can have.
    assert_eq!(events_of([8, 16, 0, 0, 0, 0], &[(0, 0)]), [(0, 0, 0), (1, 0, 0)]);
}

#[test]
fn request_2_the_example() {
    // The capture holds the lines of the events, 10 µs apart, and none of their cells.
    let (capture, lines) = (include_bytes!("../examples/first.capture"), include_bytes!("../examples/first.events"));
    let typed: Vec<Event> = lines.split(|byte| *byte == b'\n').filter_map(event_of_line).filter(|e| e.0 < 6).collect();
    let events: Vec<Event> = capture_events(LOW, capture).collect();
    assert_eq!(events.iter().filter(|e| e.0 < 6).cloned().collect::<Vec<Event>>(), typed);
    assert!(events.iter().all(|e| e.0 < 6 || *e == (6, 10, 0)));
    // Each line is answered as it is when typed, time apart: the drive waits for the host, not the host for it.
    let answers_of = |runner: &mut Runner, events: &[Event]| -> Vec<String> {
        let lines = events.iter().map(|e| (e.0, runner.line(format!("{} {} {}", e.0, e.1, e.2).as_bytes())));
        let of_lines = lines.filter(|l| l.0 < 6).map(|l| l.1);
        of_lines.map(|l| l.split_once(' ').unwrap().1.to_string()).collect()
    };
    let by_capture = answers_of(&mut Runner::smallest(), &events);
    assert_eq!(by_capture, answers_of(&mut Runner::smallest(), &typed));
    assert!(Runner::smallest().capture(capture).unwrap().starts_with("1 0 0 0\n2 0 0 51\n"));
}

// ===========================================================================
// Other sentences
// ===========================================================================

#[test]
fn fresh_drive_and_lines() {
    let b = Bench::of(&[rich(2, true)]);
    let d = b.d(2);
    assert_eq!(d.motor, Motor::Up);
    assert_eq!((d.cylinder, d.offset, d.head, d.busy, d.head_timer), (0, 0, 0, 0, 0));
    assert_eq!((d.latched, d.lost, d.sector), (B8, false, 500));
    let c = &b.chain;
    assert_eq!((c.select, c.head_lines), (0, 0));
    assert!(!c.write_gate && !c.read_gate && !c.command_data && !c.request);
}

#[test]
fn cells_meet_their_byte() {
    let mut b = Bench::of(&[rich(2, false), rich(5, true)]);
    for place in 0..b.file.len() - 44 {
        if b.file[place] == 0 && (place < 82_000 || place >= 82_044) {
            b.file[place] = (place * 7 % 256) as u8;
        }
    }
    b.a(0, 5, 0);
    b.clear();
    b.a(1, 1, 0);
    b.a(6, 40, 0);
    assert_eq!(b.word(0x0006), 0);
    b.a(6, 1_000, 0);
    b.a(3, 1, 0);
    let place = 82_044 + (6 * 2 + 1) * 4_100 + 77;
    assert_eq!(b.ev(7, 77, 3), (1, (place * 7 % 256) as u8));
    b.a(3, 0, 0);
    b.a(2, 1, 0);
    let mut expected = b.file.clone();
    expected[place] = 3;
    assert_eq!(b.ev(7, 77, 3), (2, 0));
    assert!(b.file == expected);
    b.a(2, 0, 0);
    assert_eq!(b.ev(7, 77, 4), (4, 0));
    b.a(3, 1, 0);
    assert_eq!(b.ev(7, 77, 4), (1, 3));
}

#[test]
fn protected_drive_reads_and_never_writes() {
    let mut b = Bench::of(&[Profile { protected: 1, ..rich(2, false) }]);
    b.a(0, 2, 0);
    b.clear();
    assert_eq!(b.a(2, 1, 0), 5);
    assert_eq!(b.d(2).latched, B1);
    assert_eq!(b.a(7, 0, 1), 4);
    b.a(2, 0, 0);
    assert_eq!(b.a(3, 1, 0), 0);
    assert_eq!(b.ev(7, 0, 0), (1, 0));
}

#[test]
fn request_high_on_entering_is_no_rise() {
    let mut b = rich_bench();
    b.a(0, 0, 0);
    assert_eq!(b.a(5, 1, 0), 3);
    assert_eq!(b.a(0, 2, 0), 0);
    assert!(!transfer_open(b.d(2)));
    assert_eq!(b.a(5, 0, 0), 0);
    assert!(!transfer_open(b.d(2)));
    assert_eq!(b.d(2).latched, 0);
}

#[test]
fn request_while_busy_is_bit_6_without_acknowledge() {
    let mut b = rich_bench();
    b.word(0x0005);
    assert_eq!(b.a(5, 1, 0), 5);
    assert_eq!((b.d(2).latched, b.d(2).acknowledge, b.d(2).transfer), (B6, false, Transfer::None));
    assert_eq!(b.a(5, 0, 0), 0);
    b.a(6, 135, 0);
    assert_eq!(b.word(0x5000), 0);
    // The head timer as well.
    b.a(1, 1, 0);
    assert_eq!(b.a(5, 1, 0), 5);
    assert_eq!(b.d(2).latched, B6);
}

#[test]
fn response_can_be_dropped() {
    // By a gate at a request's rise.
    let mut b = rich_bench();
    b.word(0x3000);
    b.a(5, 1, 0);
    b.a(5, 0, 0);
    b.a(3, 1, 0);
    assert_eq!(b.a(5, 1, 0), 5);
    assert!(!transfer_open(b.d(2)) && !b.d(2).acknowledge);
    // By time, before its first bit is put out.
    let mut b = rich_bench();
    b.word(0x3000);
    assert_eq!(b.a(6, 10_000, 0), 0);
    assert_eq!(b.a(6, 1, 0), 5);
    assert!(!transfer_open(b.d(2)));
    // By leaving.
    let mut b = rich_bench();
    b.word(0x3000);
    assert_eq!(b.a(0, 5, 0), 5);
    assert_eq!((b.d(2).latched, b.d(2).response), (B6, 0));
}
