//! The library, through C, against the twin. Random chains of all profiles,
//! random and structured events; answer, value, lines, the whole record and
//! the whole file are compared after each event. Then records with any bytes
//! changed, files of another length, words at once, captures, damaged pack files, packs laid, and a file over
//! 2 GiB. A difference prints the shortest sequence, or capture, found.
//!
//!     differ [EVENTS [SEED]]

#![cfg_attr(plain_main, no_main)]

mod esdi;
#[allow(dead_code)]
mod twin;

type Event = (u32, u32, u32);

/// splitmix64
struct Dice(u64);

impl Dice {
    fn next(&mut self) -> u64 {
        self.0 = self.0.wrapping_add(0x9E37_79B9_7F4A_7C15);
        let mut z = self.0;
        z = (z ^ (z >> 30)).wrapping_mul(0xBF58_476D_1CE4_E5B9);
        z = (z ^ (z >> 27)).wrapping_mul(0x94D0_49BB_1331_11EB);
        z ^ (z >> 31)
    }

    fn upto(&mut self, most: u32) -> u32 {
        (self.next() % (most as u64 + 1)) as u32
    }

    fn between(&mut self, least: u32, most: u32) -> u32 {
        least + self.upto(most - least)
    }

    fn one_in(&mut self, n: u32) -> bool {
        self.upto(n - 1) == 0
    }

    fn pick(&mut self, from: &[u32]) -> u32 {
        from[self.upto(from.len() as u32 - 1) as usize]
    }
}

/// How often each answer came, by its number.
type Tally = std::collections::BTreeMap<u8, u64>;

// ---- chains

fn some_time(dice: &mut Dice, most: u32) -> u32 {
    match dice.upto(3) {
        0 => 0,
        1 => most,
        2 => dice.upto(most.min(50)),
        _ => dice.upto(most),
    }
}

fn some_profile(dice: &mut Dice, slot: u8) -> twin::Profile {
    let mut profile = any_profile(dice, slot);
    // a quick drive, ready again within a pass or two
    if dice.one_in(2) {
        profile.recalibrate = profile.recalibrate.min(60_000);
        profile.start = profile.start.min(60_000);
        profile.diagnostic = profile.diagnostic.min(60_000);
    }
    profile
}

fn any_profile(dice: &mut Dice, slot: u8) -> twin::Profile {
    let switch = match dice.upto(3) {
        0 => dice.upto(15),
        1 => 16,
        2 => dice.upto(2_000),
        _ => 60_000,
    } as u16;
    let sectoring = dice.pick(&[4, 2, 1]) as u16;
    // small media, so that many events go by; one in sixty is of a real drive's shape
    let (cylinders, heads, track) = if dice.one_in(60) {
        [(64, 16, 4_095), (1_250, 1, 4_095), (300, 2, 4_200), (2, 16, 40_960)][dice.upto(3) as usize]
    } else {
        (dice.pick(&[1, 1, 2, 3]), dice.pick(&[1, 1, 1, 2]), dice.pick(&[4_095, 4_095, 4_096, 4_200]))
    };
    twin::Profile {
        slot,
        general: dice.pick(&[0x400, 0x200, 0x100]) as u16
            | dice.pick(&[0x80, 0x40]) as u16
            | sectoring
            | if switch > 15 { 0x10 } else { 0 }
            | (dice.upto(65_535) as u16 & 0x6828),
        cylinders: cylinders as u16,
        heads: heads as u8,
        vendor: dice.upto(255) as u8,
        track: track as u16,
        sector: if sectoring == 4 { 0 } else { dice.between(162, 4_095) as u16 },
        gap: dice.upto(255) as u8,
        sync: dice.upto(255) as u8,
        protected: dice.one_in(5) as u8,
        settle: some_time(dice, 60_000),
        step: some_time(dice, 1_000) as u16,
        switch,
        recalibrate: some_time(dice, 30_000_000),
        start: some_time(dice, 30_000_000),
        diagnostic: some_time(dice, 30_000_000),
        offset: some_time(dice, 60_000) as u16,
    }
}

fn some_profiles(dice: &mut Dice) -> Vec<twin::Profile> {
    let most = dice.pick(&[1, 2, 3, 7]);
    let mut profiles = Vec::new();
    for slot in 1..=7u8 {
        if dice.upto(6) < most {
            profiles.push(some_profile(dice, slot));
        }
    }
    profiles
}

// ---- events

/// A level of one line, seldom out of its range.
fn line(dice: &mut Dice, events: &mut Vec<Event>) {
    let kind = dice.between(2, 5);
    let a = if dice.one_in(60) { dice.upto(70_000) } else { dice.upto(1) };
    events.push((kind, a, if dice.one_in(60) { dice.upto(300) } else { 0 }));
}

/// Microseconds, of every length.
fn pass(dice: &mut Dice, events: &mut Vec<Event>) {
    let a = match dice.upto(6) {
        0 => 0,
        1 => dice.between(9_998, 10_003),
        2 | 3 => dice.upto(200),
        4 => dice.upto(10_000),
        5 => 65_535,
        _ => dice.upto(65_535),
    };
    events.push((6, a, 0));
}

/// A size for command 9: any, or one at the edge of what a fitted drive's gaps fill.
fn some_size(dice: &mut Dice, fitted: &[twin::Profile]) -> u32 {
    if fitted.is_empty() || dice.one_in(2) {
        return dice.between(150, 4_095);
    }
    let p = &fitted[dice.upto(fitted.len() as u32 - 1) as usize];
    (twin::gaps(p) as u32 + dice.upto(2)).saturating_sub(1)
}

/// A word's seventeen bits, most with their odd parity.
fn some_word(dice: &mut Dice, fitted: &[twin::Profile]) -> u32 {
    let word = match dice.upto(8) {
        // a seek, most of them near
        0 => {
            let far = dice.pick(&[5, 5, 5, 1_300]);
            dice.upto(far)
        }
        1 => 0x1000,                                  // recalibrate
        2 => 0x2000,                                  // status
        3 => 0x3000 | dice.upto(15) << 8,             // configuration
        4 => dice.pick(&[0x5000, 0x5000, 0x5200, 0x5300]), // control
        5 => 0x7000 | dice.upto(3) << 8,              // offset
        6 => 0x8000,                                  // diagnostics
        7 => 0x9000 | some_size(dice, fitted),        // bytes per sector
        _ => dice.upto(65_535),
    } as u16;
    let whole = twin::with_parity(word);
    if dice.one_in(12) {
        whole ^ 1
    } else {
        whole
    }
}

fn wait(dice: &mut Dice, events: &mut Vec<Event>) {
    if dice.one_in(9) {
        let us = if dice.one_in(12) { 10_001 } else { dice.upto(900) };
        events.push((6, us, 0));
    }
}

/// A word sent, most of them whole, and its response fetched.
fn send(dice: &mut Dice, fitted: &[twin::Profile], events: &mut Vec<Event>) {
    let word = some_word(dice, fitted);
    let bits = if dice.one_in(8) { dice.upto(16) } else { 17 };
    for i in 0..bits {
        events.push((4, word >> (16 - i) & 1, 0));
        events.push((5, 1, 0));
        wait(dice, events);
        events.push((5, 0, 0));
        wait(dice, events);
    }
    if dice.one_in(2) {
        for _ in 0..dice.pick(&[17, 17, 17, 5]) {
            events.push((5, 1, 0));
            wait(dice, events);
            events.push((5, 0, 0));
        }
    }
}

/// A whole word without a pause.
fn at_once(word: u16, events: &mut Vec<Event>) {
    let whole = twin::with_parity(word);
    for i in 0..17 {
        events.extend([(4, whole >> (16 - i) & 1, 0), (5, 1, 0), (5, 0, 0)]);
    }
}

/// Control 0: no latched bit stands, so that writing can begin, but bit 1 of a write fault that stands.
fn clear(events: &mut Vec<Event>) {
    at_once(0x5000, events);
}

/// A gate raised, some cells, and the gate lowered.
fn cells(dice: &mut Dice, events: &mut Vec<Event>) {
    let gate = dice.between(2, 3);
    events.push((gate, 1, 0));
    for _ in 0..dice.upto(20) {
        let a = if dice.one_in(10) { dice.between(4_090, 4_210) } else { dice.upto(4_094) };
        events.push((7, a, dice.upto(255)));
        if dice.one_in(12) {
            line(dice, events);
        }
        if dice.one_in(20) {
            events.push((1, dice.upto(3), 0));
        }
    }
    events.push((gate, 0, 0));
}

/// A drive made ready as a host does it, then many cells under one gate.
fn track(dice: &mut Dice, slot: u32, events: &mut Vec<Event>) {
    events.extend([(2, 0, 0), (3, 0, 0), (5, 0, 0), (0, 0, 0), (0, slot, 0), (1, dice.pick(&[0, 0, 0, 1]), 0)]);
    // a write fault that stands is seldom left standing
    if !dice.one_in(4) {
        events.push((8, slot, 4));
    }
    clear(events);
    if dice.one_in(3) {
        events.extend([(6, 65_535, 0), (6, 65_535, 0)]);
        at_once(dice.pick(&[0x0000, 0x0001, 0x0002, 0x1000, 0x7000]) as u16, events);
    }
    events.extend([(6, 65_535, 0), (6, 65_535, 0)]);
    let gate = dice.between(2, 3);
    events.push((gate, 1, 0));
    for _ in 0..dice.between(20, 100) {
        let a = if dice.one_in(10) { dice.pick(&[0, 4_094, 4_095, 4_096, 4_199, 4_200]) } else { dice.upto(4_094) };
        events.push((7, a, dice.upto(255)));
    }
    events.push((gate, 0, 0));
}

fn some_events(dice: &mut Dice, fitted: &[twin::Profile]) -> Vec<Event> {
    let mut events = Vec::new();
    let slot = |dice: &mut Dice| {
        if fitted.is_empty() || dice.one_in(6) {
            dice.upto(7)
        } else {
            fitted[dice.upto(fitted.len() as u32 - 1) as usize].slot as u32
        }
    };
    events.push((0, slot(dice), 0));
    if !dice.one_in(4) {
        clear(&mut events);
    }
    for _ in 0..dice.between(5, 60) {
        match dice.upto(22) {
            0 | 1 => events.push((0, slot(dice), 0)),
            2 => events.push((1, dice.pick(&[0, 0, 0, 1, 1, 2, 15, 16]), 0)),
            3 | 4 => line(dice, &mut events),
            5 | 6 | 7 => pass(dice, &mut events),
            8..=11 => send(dice, fitted, &mut events),
            12..=15 => cells(dice, &mut events),
            16 => events.push((8, slot(dice), dice.pick(&[0, 1, 1, 2, 3, 4, 4, 5]))),
            17 => {
                clear(&mut events);
                cells(dice, &mut events);
            }
            18 => events.push((dice.upto(10), dice.upto(70_000), dice.upto(300))),
            19..=21 => {
                let to = slot(dice);
                track(dice, to, &mut events);
            }
            _ => {
                let numbers = (dice.next() as u32, dice.next() as u32, dice.next() as u32);
                events.push(numbers);
            }
        }
    }
    events
}

// ---- the comparison

/// A library's chain and the twin's on files of their own.
struct Pair {
    record: esdi::Chain,
    file: Vec<u8>,
    chain: twin::Chain,
    twins: Vec<u8>,
}

impl Pair {
    fn of(profiles: &[twin::Profile]) -> Pair {
        let mut file = twin::file_of_packs(profiles);
        // a medium that isn't all alike
        let chain = twin::Chain::fresh(&file).unwrap();
        for d in chain.drives.iter().flatten() {
            for i in 0..twin::medium_length(&d.profile) as usize {
                file[d.place + i] = (i * 7 + 13) as u8;
            }
        }
        let mut record = esdi::empty();
        assert_eq!(esdi::fit(&mut record, &file), (0, 0));
        Pair { record, twins: file.clone(), file, chain }
    }

    /// The answer's number, or what differs after the event.
    fn event(&mut self, (kind, a, b): Event) -> Result<u8, String> {
        let ours = esdi::event(&mut self.record, &mut self.file, kind, a, b);
        let theirs = twin::step(&mut self.chain, &mut self.twins, kind, a, b);
        if ours != theirs {
            return Err(format!("answer and value {:?}, the twin's {:?}", ours, theirs));
        }
        let (lines, sum) = (esdi::lines(&self.record), (0, twin::line_sum(&self.chain)));
        if lines != sum {
            return Err(format!("lines {:?}, the twin's {:?}", lines, sum));
        }
        let record = esdi::record_of(&self.chain);
        if self.record != record {
            return Err(format!("record {:?}\n, the twin's {:?}", self.record, record));
        }
        if self.file != self.twins {
            return Err("file".to_string());
        }
        Ok(ours.0)
    }
}

/// Where the first difference of a sequence is, and which.
fn first_difference(profiles: &[twin::Profile], events: &[Event]) -> Option<(usize, String)> {
    let mut pair = Pair::of(profiles);
    events.iter().enumerate().find_map(|(i, &e)| pair.event(e).err().map(|what| (i, what)))
}

/// The fewest that are found to differ still: parts are left out, ever shorter ones.
fn shortest<T: Clone>(all: &[T], differ: impl Fn(&[T]) -> bool) -> Vec<T> {
    let mut kept = all.to_vec();
    let mut part = kept.len().max(1);
    while part > 0 {
        let mut i = 0;
        while i < kept.len() {
            let mut fewer = kept.clone();
            fewer.drain(i..(i + part).min(kept.len()));
            if differ(&fewer) {
                kept = fewer;
            } else {
                i += part;
            }
        }
        part /= 2;
    }
    kept
}

/// The shortest sequence found.
fn report(profiles: &[twin::Profile], events: &[Event]) {
    let end = first_difference(profiles, events).map_or(events.len(), |(i, _)| i + 1);
    let kept = shortest(&events[..end], |fewer| first_difference(profiles, fewer).is_some());
    println!("DIFFERENCE on {:?}", profiles);
    for (kind, a, b) in &kept {
        println!("{} {} {}", kind, a, b);
    }
    if let Some((_, what)) = first_difference(profiles, &kept) {
        println!("{}", what);
    }
}

// ---- records, words, packs

/// Some bytes of a record changed.
fn change_bytes(dice: &mut Dice, record: &mut esdi::Chain) {
    const SIZE: usize = std::mem::size_of::<esdi::Chain>();
    let bytes = unsafe { &mut *(record as *mut esdi::Chain as *mut [u8; SIZE]) };
    for _ in 0..dice.pick(&[1, 1, 1, 2, 5, 40]) {
        let at = dice.upto(SIZE as u32 - 1) as usize;
        bytes[at] = match dice.upto(3) {
            0 => bytes[at] ^ 1 << dice.upto(7),
            1 => bytes[at].wrapping_add(1),
            2 => dice.upto(3) as u8,
            _ => dice.upto(255) as u8,
        };
    }
}

/// The record that the twin's chain leaves: an empty slot is not looked at, and stays as it was.
fn record_after(before: &esdi::Chain, chain: &twin::Chain) -> esdi::Chain {
    let mut after = esdi::record_of(chain);
    for i in 0..7 {
        if before.packs[i].fitted == 0 {
            after.packs[i] = before.packs[i];
            after.states[i] = before.states[i];
        }
    }
    after
}

/// A record with some bytes changed: refused with 22 and left as it was where it stands for nothing, else as the twin does.
fn changed_record(dice: &mut Dice, pair: &Pair) -> Option<u8> {
    let mut record = pair.record;
    change_bytes(dice, &mut record);
    let event = (dice.upto(8), dice.pick(&[0, 1, 1, 2, 7, 100]), dice.pick(&[0, 0, 0, 1, 3, 4]));
    let mut file = pair.file.clone();
    let before = record;
    let ours = esdi::event(&mut record, &mut file, event.0, event.1, event.2);
    let (theirs, after, twins) = match esdi::chain_of(&before) {
        // 20 and 21 are tried before the record is looked at
        None => {
            let number = twin::refusal(&pair.chain, pair.file.len(), event.0, event.1, event.2).filter(|&n| n < 22).unwrap_or(22);
            ((number, 0), before, pair.file.clone())
        }
        Some(mut chain) => {
            let mut twins = pair.file.clone();
            let answer = twin::step(&mut chain, &mut twins, event.0, event.1, event.2);
            (answer, record_after(&before, &chain), twins)
        }
    };
    let shown = esdi::chain_of(&before).filter(|c| !twin::malformed(c)).map_or((22, 0), |c| (0, twin::line_sum(&c)));
    let sound = esdi::limit(&before) == (shown.0 == 0);
    if ours == theirs && record == after && file == twins && esdi::lines(&before) == shown && sound {
        return Some(ours.0);
    }
    println!("DIFFERENCE on the record {:?}\nevent {:?}: {:?}, the twin's {:?}\nrecord after {:?}", before, event, ours, theirs, record);
    None
}

/// A file longer or shorter, by a byte or by all; an empty one stays so at times.
fn change_length(dice: &mut Dice, file: &mut Vec<u8>) {
    match dice.upto(2) {
        0 => file.push(dice.upto(255) as u8),
        1 => file.truncate(file.len().saturating_sub(1)),
        _ => file.clear(),
    }
}

/// A lent file of another length: refused with 23, behind 20 and 21; record and file are left.
fn other_length(dice: &mut Dice, pair: &Pair) -> Option<u8> {
    let event = (dice.upto(9), dice.pick(&[0, 1, 1, 2, 7, 100, 70_000]), dice.pick(&[0, 0, 0, 1, 3]));
    let mut file = pair.file.clone();
    change_length(dice, &mut file);
    let (mut record, mut chain, mut twins) = (pair.record, pair.chain, file.clone());
    let ours = esdi::event(&mut record, &mut file, event.0, event.1, event.2);
    let theirs = twin::step(&mut chain, &mut twins, event.0, event.1, event.2);
    if ours == theirs && record == esdi::record_of(&chain) && file == twins {
        return Some(ours.0);
    }
    println!("DIFFERENCE on a file of {} bytes, the record's {}, event {:?}: {:?}, the twin's {:?}", file.len(), pair.file.len(), event, ours, theirs);
    None
}

/// A word at once, as the twin's plain word rules.
fn word_at_once(dice: &mut Dice, fitted: &[twin::Profile], pair: &Pair) -> bool {
    let slot = dice.pick(&[0, 1, 2, 3, 4, 5, 6, 7, 8]);
    let word = if dice.one_in(20) { dice.between(131_072, 200_000) } else { some_word(dice, fitted) };
    let mut record = pair.record;
    let ours = esdi::word(&mut record, slot, word);
    let mut chain = pair.chain;
    let theirs = if slot < 1 || slot > 7 || word > 131_071 {
        (21, None)
    } else {
        match chain.in_slot_mut(slot as u8) {
            None => (24, None),
            Some(d) => match twin::plain_outcome(d, word) {
                twin::Outcome::Done => (0, None),
                twin::Outcome::Response(response) => (0, Some(twin::with_parity(response))),
                twin::Outcome::Faulted => (5, None),
            },
        }
    };
    if ours == theirs && record == esdi::record_of(&chain) {
        return true;
    }
    println!("DIFFERENCE on the word {:05x} to slot {}: {:?}, the twin's {:?}", word, slot, ours, theirs);
    false
}

/// A pack file, most of them damaged: its status, its packs, and the chain fitted from it.
fn damaged_file(dice: &mut Dice) -> bool {
    let profiles = some_profiles(dice);
    let mut file = twin::file_of_packs(&profiles);
    let ends: Vec<usize> = twin::read_packs(&file).unwrap().iter().map(|p| p.place + twin::pack_length(&p.profile) as usize).collect();
    for _ in 0..dice.upto(3) {
        if ends.is_empty() {
            break;
        }
        let end = ends[dice.upto(ends.len() as u32 - 1) as usize];
        let at = end - 1 - dice.upto(43) as usize;
        file[at] = if dice.one_in(2) { dice.upto(255) as u8 } else { file[at] ^ 1 << dice.upto(7) };
    }
    match dice.upto(5) {
        0 => file.truncate(file.len() - (dice.upto(100) as usize).min(file.len())),
        1 => file.extend(vec![0; dice.upto(60) as usize]),
        2 => drop(file.drain(..(dice.upto(5_000) as usize).min(file.len()))),
        _ => (),
    }
    let mut record = esdi::record_of(&Pair::of(&[some_profile(dice, 3)]).chain);
    let before = record;
    let (answer, place) = twin::read_answer(&file);
    let packs = twin::read_packs(&file).unwrap_or_default();
    let after = twin::Chain::fresh(&file).map_or(before, |c| esdi::record_of(&c));
    let mut same = esdi::fit(&mut record, &file) == (answer, place) && record == after && esdi::packs(&file) == (answer, packs.len(), place);
    for slot in 0..9 {
        let expected = if slot < 1 || slot > 7 {
            (21, 0, esdi::full_pack())
        } else if answer != 0 {
            (answer, place, esdi::full_pack())
        } else if let Some(p) = packs.iter().find(|p| p.profile.slot as u32 == slot) {
            (0, 0, esdi::Pack { fitted: 1, place: p.place as u32, profile: esdi::profile_of(&p.profile) })
        } else {
            (24, 0, esdi::full_pack())
        };
        same &= esdi::pack_at(&file, slot) == expected;
    }
    if !same {
        println!("DIFFERENCE on a pack file of {} bytes of {:?}: {:?}, the twin's {:?}", file.len(), profiles, esdi::packs(&file), (answer, place));
    }
    same
}

/// A pack laid, some of a profile that may not stand.
fn laid(dice: &mut Dice) -> bool {
    let mut p = some_profile(dice, 1);
    match dice.upto(7) {
        0 => p.slot = dice.upto(255) as u8,
        1 => p.general = dice.upto(65_535) as u16,
        2 => p.cylinders = dice.pick(&[0, 1, 4_096, 4_097, 65_535]) as u16,
        3 => p.heads = dice.pick(&[0, 16, 17, 255]) as u8,
        4 => p.track = dice.pick(&[4_094, 40_960, 40_961]) as u16,
        5 => p.settle = dice.pick(&[60_000, 60_001]),
        _ => (),
    }
    let mut part: Vec<u8> = (0..dice.pick(&[0, 43, 4_138, 4_139, 9_000, 30_000])).map(|i| i as u8).collect();
    let mut twins = part.clone();
    let (ours, theirs) = (esdi::lay(&esdi::profile_of(&p), &mut part), twin::lay_pack(&p, &mut twins).0);
    if ours == theirs && part == twins {
        return true;
    }
    println!("DIFFERENCE on laying {:?} into {} bytes: {}, the twin's {}", p, part.len(), ours, theirs);
    false
}

// ---- captures

/// A capture as an analyser takes it.
struct Analyser {
    stamp: u32,
    levels: u16,
    capture: Vec<u8>,
}

impl Analyser {
    fn sample(&mut self) {
        self.capture.extend(twin::sample_of(self.stamp, self.levels));
    }

    fn wait(&mut self, microseconds: u32) {
        self.stamp = self.stamp.wrapping_add(microseconds);
    }

    /// What of an event is seen on the cable: a line's level, or time.
    fn see(&mut self, (kind, a, _): Event) {
        match twin::levels_with(self.levels, kind, a) {
            Some(levels) => self.levels = levels,
            None if kind == 6 && a <= 65_535 => self.wait(a),
            None => (),
        }
    }
}

/// The first stamp: any, or one that runs over soon.
fn some_stamp(dice: &mut Dice) -> u32 {
    match dice.upto(2) {
        0 => 0,
        1 => 0u32.wrapping_sub(dice.upto(30_000)),
        _ => dice.next() as u32,
    }
}

/// Microseconds between two samples: few, some none, seldom about a multiple of 65,535.
fn some_gap(dice: &mut Dice) -> u32 {
    match dice.upto(399) {
        0 => dice.between(1, 4) * 65_535 + dice.upto(2) - 1,
        1..=60 => 0,
        _ => dice.upto(12),
    }
}

/// The first levels: the record's, all low, or any.
fn some_levels(dice: &mut Dice, chain: &twin::Chain) -> u16 {
    match dice.upto(3) {
        0 => dice.upto(2_047) as u16,
        1 => 0,
        _ => twin::LINES.iter().zip(chain.levels()).fold(0, |so_far, (line, level)| so_far | (level << line.lowest) as u16),
    }
}

/// Any samples at all.
fn wild_samples(dice: &mut Dice, analyser: &mut Analyser) {
    for _ in 0..dice.upto(60) {
        analyser.levels = dice.upto(2_047) as u16;
        analyser.sample();
        analyser.wait(some_gap(dice));
    }
}

/// A sample of any levels between two others: what a loose cable shows.
fn glitch(dice: &mut Dice, analyser: &mut Analyser) {
    let levels = analyser.levels;
    analyser.levels = dice.upto(2_047) as u16;
    analyser.sample();
    analyser.levels = levels;
}

/// The samples of a host's events. Of some hosts the data changes with the request, of some a few lines change together.
/// In one capture of a hundred a stamp seems to run back: some 65,536 passing events.
fn host_samples(dice: &mut Dice, fitted: &[twin::Profile], analyser: &mut Analyser) {
    let data_with_request = dice.one_in(2);
    let (together, loose) = (dice.pick(&[8, 200, 10_000, 10_000]), dice.pick(&[50, 2_000, 10_000]));
    let mut back = dice.one_in(100);
    analyser.sample();
    for event in some_events(dice, fitted) {
        analyser.see(event);
        if event.0 == 4 && data_with_request || dice.one_in(together) {
            continue;
        }
        if dice.one_in(loose) {
            glitch(dice, analyser);
        }
        analyser.sample();
        analyser.wait(some_gap(dice));
        if back && dice.one_in(100) {
            analyser.stamp = analyser.stamp.wrapping_sub(dice.between(1, 100_000));
            back = false;
        }
    }
}

fn some_capture(dice: &mut Dice, fitted: &[twin::Profile], chain: &twin::Chain) -> Vec<u8> {
    let mut analyser = Analyser { stamp: some_stamp(dice), levels: some_levels(dice, chain), capture: Vec::new() };
    match dice.upto(39) {
        0 => (), // no sample at all
        1..=4 => wild_samples(dice, &mut analyser),
        _ => host_samples(dice, fitted, &mut analyser),
    }
    analyser.capture
}

/// A capture cut short, lengthened, or with some of bits 11 to 15 set: none any more, but seldom.
fn damage_capture(dice: &mut Dice, capture: &mut Vec<u8>) {
    let samples = capture.len() / twin::SAMPLE;
    let bad = if samples == 0 { 0 } else { dice.upto(3) };
    for _ in 0..bad {
        let at = dice.upto(samples as u32 - 1) as usize * twin::SAMPLE + 4;
        capture[at] |= 1 << dice.between(3, 7);
    }
    match dice.upto(3) {
        0 => capture.truncate(capture.len().saturating_sub(dice.between(1, 5) as usize)),
        1 => capture.extend(vec![0xF8; dice.between(1, 5) as usize]),
        _ => (),
    }
}

/// A capture, and what it is run on.
struct Trial<'a> {
    record: &'a esdi::Chain,
    file: &'a [u8],
    capture: &'a [u8],
    /// Bytes lent for the answers.
    room: usize,
}

/// Answers that no event gives, so that bytes left can be told.
fn unanswered(room: usize) -> Vec<u8> {
    (0..room).map(|i| 0x80 | i as u8).collect()
}

impl Trial<'_> {
    /// The code of the capture and the answers, or what differs.
    fn run(&self) -> Result<((u8, u64), Vec<u8>), String> {
        let (mut record, mut file, mut answers) = (*self.record, self.file.to_vec(), unanswered(self.room));
        let counted = esdi::capture_count(&record, self.capture);
        let ours = esdi::capture(&mut record, &mut file, self.capture, &mut answers);
        let (mut twins, mut expected) = (self.file.to_vec(), unanswered(self.room));
        let (theirs, after) = match esdi::chain_of(self.record) {
            // a record that stands for nothing: its lines are compared as the numbers they are
            None => (twin::feed_capture(esdi::levels_of(self.record), self.capture, &mut expected, |_| (22, 0)), *self.record),
            Some(mut chain) => {
                let code = twin::run_capture(&mut chain, &mut twins, self.capture, &mut expected);
                (code, record_after(self.record, &chain))
            }
        };
        let count = twin::capture_count(esdi::levels_of(self.record), self.capture);
        if ours != theirs {
            return Err(format!("code {:?}, the twin's {:?}", ours, theirs));
        }
        if counted != count {
            return Err(format!("count {:?}, the twin's {:?}", counted, count));
        }
        if let Some(at) = (0..self.room).find(|&i| answers[i] != expected[i]) {
            return Err(format!("byte {} of the answers {}, the twin's {}", at, answers[at], expected[at]));
        }
        if record != after {
            return Err(format!("record {:?}\n, the twin's {:?}", record, after));
        }
        if file != twins {
            return Err("file".to_string());
        }
        Ok((ours, answers))
    }

    /// The shortest capture found, a sample a line.
    fn report(&self) {
        let samples: Vec<&[u8]> = self.capture.chunks(twin::SAMPLE).collect();
        let differ = |fewer: &[&[u8]]| Trial { capture: &fewer.concat(), ..*self }.run().is_err();
        let kept = shortest(&samples, differ);
        println!("DIFFERENCE on a capture, {} bytes for the answers, a file of {} bytes, the record {:?}", self.room, self.file.len(), self.record);
        show_capture(&kept.concat());
        if let Err(what) = (Trial { capture: &kept.concat(), ..*self }).run() {
            println!("{}", what);
        }
    }
}

fn show_capture(capture: &[u8]) {
    for sample in capture.chunks(twin::SAMPLE) {
        println!("{}", sample.iter().map(|byte| format!("{:02x}", byte)).collect::<String>());
    }
}

/// What all the captures came to.
#[derive(Default)]
struct Captured {
    captures: u64,
    samples: u64,
    events: u64,
    over: u64,
    codes: Tally,
    answers: Tally,
}

impl Captured {
    fn add(&mut self, capture: &[u8], (answer, number): (u8, u64), answers: &[u8]) {
        self.captures += 1;
        *self.codes.entry(answer).or_insert(0) += 1;
        if answer != 0 {
            return;
        }
        let stamps: Vec<&[u8]> = capture.chunks(twin::SAMPLE).map(|sample| &sample[..4]).collect();
        self.samples += stamps.len() as u64;
        self.over += stamps.windows(2).filter(|two| two[1] < two[0]).count() as u64;
        self.events += number;
        for pair in answers.chunks_exact(2).take(number as usize) {
            *self.answers.entry(pair[0]).or_insert(0) += 1;
        }
    }
}

/// The answers to a capture that is run with just the room it asks for.
fn answers_to(record: &mut esdi::Chain, file: &mut [u8], capture: &[u8]) -> Vec<u8> {
    let mut answers = vec![0; 2 * esdi::capture_count(record, capture).1 as usize];
    esdi::capture(record, file, capture, &mut answers);
    answers
}

/// A capture cut at a sample, which ends the first part and begins the second, leaves a sound chain as the whole does.
fn in_two_parts(dice: &mut Dice, pair: &Pair, capture: &[u8]) -> bool {
    if capture.is_empty() {
        return true;
    }
    let cut = dice.upto((capture.len() / twin::SAMPLE) as u32 - 1) as usize * twin::SAMPLE;
    let (mut record, mut file) = (pair.record, pair.file.clone());
    let whole = answers_to(&mut record, &mut file, capture);
    let (mut parts, mut twice) = (pair.record, pair.file.clone());
    let mut answers = answers_to(&mut parts, &mut twice, &capture[..cut + twin::SAMPLE]);
    answers.extend(answers_to(&mut parts, &mut twice, &capture[cut..]));
    if answers == whole && parts == record && twice == file {
        return true;
    }
    println!("DIFFERENCE on a capture cut at byte {}, the record {:?}", cut, pair.record);
    show_capture(capture);
    false
}

/// A capture on a sound chain, with too little room, damaged, on a record with bytes changed, over a file of another
/// length, and in two parts.
fn captured(dice: &mut Dice, fitted: &[twin::Profile], pair: &Pair, seen: &mut Captured) -> bool {
    let capture = some_capture(dice, fitted, &pair.chain);
    let needed = 2 * twin::capture_count(pair.chain.levels(), &capture).1 as usize;
    let room = needed + dice.pick(&[0, 0, 1, 2, 50]) as usize;
    let short = needed.saturating_sub(dice.pick(&[1, 1, 2, 2_000_000]) as usize);
    let (mut damaged, mut changed, mut resized) = (capture.clone(), pair.record, pair.file.clone());
    damage_capture(dice, &mut damaged);
    change_bytes(dice, &mut changed);
    change_length(dice, &mut resized);
    let sound = Trial { record: &pair.record, file: &pair.file, capture: &capture, room };
    let trials = [
        Trial { room: short, ..sound },
        Trial { capture: &damaged, room: if dice.one_in(2) { room } else { short }, ..sound },
        // its lines may differ too: six events more, or fewer
        Trial { record: &changed, room: room + 12, ..sound },
        Trial { file: &resized, ..sound },
        sound,
    ];
    for trial in &trials {
        match trial.run() {
            Ok((code, answers)) => seen.add(trial.capture, code, &answers),
            Err(_) => {
                trial.report();
                return false;
            }
        }
    }
    in_two_parts(dice, pair, &capture)
}

extern "C" {
    fn mmap(at: *mut u8, length: usize, protection: i32, flags: i32, file: i32, offset: i64) -> *mut u8;
}

/// A file over 2 GiB: pages that are never touched.
fn large() -> bool {
    let length = 2_147_483_648usize;
    // PROT_READ; MAP_PRIVATE, MAP_ANONYMOUS, MAP_NORESERVE
    let at = unsafe { mmap(std::ptr::null_mut(), length, 1, 0x2 | 0x20 | 0x4000, -1, 0) };
    if at as isize == -1 {
        println!("FAILED: a file of {} bytes could not be mapped here, so 36 was not tried", length);
        return false;
    }
    let file = unsafe { std::slice::from_raw_parts(at, length) };
    let mut record = esdi::empty();
    let ours = (esdi::fit(&mut record, file), esdi::packs(file));
    let same = ours == ((36, 0), (36, 0, 0)) && record == esdi::empty();
    println!("a file of {} bytes: {}", length, if same { "36 at 0, the record left".to_string() } else { format!("DIFFERENCE, {:?}", ours) });
    same
}

fn run() -> bool {
    let arguments: Vec<String> = std::env::args().skip(1).collect();
    let number = |i: usize, other: u64| arguments.get(i).map_or(other, |s| s.parse().expect("a number"));
    let (most, mut dice) = (number(0, 10_000_000), Dice(number(1, 1)));
    let (mut events, mut records, mut words, mut files, mut lays) = (0u64, 0u64, 0u64, 0u64, 0u64);
    let (mut answers, mut lengths, mut changed) = (Tally::new(), Tally::new(), Tally::new());
    let mut captures = Captured::default();
    while events < most {
        let profiles = some_profiles(&mut dice);
        let sequence = some_events(&mut dice, &profiles);
        let mut pair = Pair::of(&profiles);
        for (i, &event) in sequence.iter().enumerate() {
            match pair.event(event) {
                Ok(answer) => *answers.entry(answer).or_insert(0u64) += 1,
                Err(_) => {
                    report(&profiles, &sequence);
                    return false;
                }
            }
            if i % 16 == 0 {
                match changed_record(&mut dice, &pair) {
                    Some(answer) => *changed.entry(answer).or_insert(0u64) += 1,
                    None => return false,
                }
                if !word_at_once(&mut dice, &profiles, &pair) {
                    return false;
                }
                match other_length(&mut dice, &pair) {
                    Some(answer) => *lengths.entry(answer).or_insert(0u64) += 1,
                    None => return false,
                }
                records += 1;
                words += 1;
            }
        }
        events += sequence.len() as u64;
        // behind every other sequence a capture, from where it ended or on a fresh chain
        let start = if dice.one_in(2) { Pair::of(&profiles) } else { pair };
        if dice.one_in(2) && !captured(&mut dice, &profiles, &start, &mut captures) {
            return false;
        }
        if !damaged_file(&mut dice) || !laid(&mut dice) {
            return false;
        }
        files += 1;
        lays += 1;
    }
    println!("{} events, {} records with bytes changed, {} words at once, {} pack files, {} packs laid: 0 differences", events, records, words, files, lays);
    println!("answers to events, by number: {:?}", answers);
    println!("answers on records with bytes changed: {:?}", changed);
    println!("answers over a file of another length: {:?}", lengths);
    println!(
        "{} captures, of them 40 {} and 37 {}; run {} samples, {} events, the stamp ran over {} times: 0 differences",
        captures.captures, count(&captures.codes, 40), count(&captures.codes, 37), captures.samples, captures.events, captures.over
    );
    println!("answers to events of captures: {:?}", captures.answers);
    large() & all_seen(&answers, &changed, &lengths) & all_captured(&captures)
}

fn count(tally: &Tally, number: u8) -> u64 {
    tally.get(&number).copied().unwrap_or(0)
}

/// Every number that an event can be answered has come, so that none went untried.
fn all_seen(answers: &Tally, changed: &Tally, lengths: &Tally) -> bool {
    let never: Vec<u8> = [0, 1, 2, 3, 4, 5, 20, 21, 24, 25].into_iter().filter(|n| !answers.contains_key(n)).collect();
    let refused = changed.contains_key(&22) && lengths.contains_key(&23);
    if never.is_empty() && refused {
        return true;
    }
    println!("FAILED: never answered: {:?}{}; try more events", never, if refused { "" } else { ", 22 or 23" });
    false
}

/// So has every number that a capture, and an event of one, can be answered; stamps have run over.
fn all_captured(captures: &Captured) -> bool {
    let never: Vec<u8> = [0, 37, 40].into_iter().filter(|n| !captures.codes.contains_key(n)).collect();
    let unanswered: Vec<u8> = [0, 3, 4, 5, 22, 23].into_iter().filter(|n| !captures.answers.contains_key(n)).collect();
    if never.is_empty() && unanswered.is_empty() && captures.over > 0 {
        return true;
    }
    println!("FAILED: captures never answered {:?}, their events {:?}, stamps over {}; try more events", never, unanswered, captures.over);
    false
}

#[cfg(not(plain_main))]
fn main() {
    std::process::exit(!run() as i32);
}

/// Where the standard start of a Rust program isn't to be had, as under some emulators.
#[cfg(plain_main)]
#[no_mangle]
pub extern "C" fn main() -> i32 {
    !run() as i32
}
