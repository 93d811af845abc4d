//! The twin: a plain implementation of document 01 ("Build scope and exact
//! rules"), written from the paper in its order and words, to be the oracle
//! in differential tests of the proved library.
//!
//! Where the paper is open, "as we read it" says what decides here;
//! docs/DECISIONS.md says the same points in its own order.
//! Sentences in quotation marks are document 01's, but where a request of
//! document 02 is named: the requests that have landed are in here too.
//!
//! Build:  rustc -O twin.rs          (a library)
//!         rustc -O twin_bus.rs      (the program, uses this file as a module)
//! Test:   rustc --test -O twin.rs && ./twin

#![allow(unused_attributes)]
#![crate_type = "lib"]

#[cfg(test)]
#[path = "twin_test.rs"]
mod twin_test;

// ===========================================================================
// Pack file: the fields
// ===========================================================================

/// "a 44-byte trailer"
pub const TRAILER: usize = 44;
/// "36 file over 2,147,483,647 bytes"
pub const LONGEST_FILE: u64 = 2_147_483_647;
/// "39: form 1"
pub const FORM: u8 = 1;

/// The fields of one pack's trailer (all but the zero places, the form and
/// the distance). The types are as wide as the places, so that a field out
/// of its range can be held and refused.
#[derive(Clone, Copy, Debug, PartialEq, Eq)]
pub struct Profile {
    pub slot: u8,
    pub general: u16,
    pub cylinders: u16,
    pub heads: u8,
    pub vendor: u8,
    pub track: u16,
    pub sector: u16,
    pub gap: u8,
    pub sync: u8,
    pub protected: u8,
    pub settle: u32,
    pub step: u16,
    pub switch: u16,
    pub recalibrate: u32,
    pub start: u32,
    pub diagnostic: u32,
    pub offset: u16,
}

/// Bit `number` of a word.
pub fn bit(word: u16, number: u32) -> bool {
    (word >> number) & 1 == 1
}

fn how_many_of(word: u16, numbers: &[u32]) -> usize {
    numbers.iter().filter(|n| bit(word, **n)).count()
}

/// "0: slot 1..7."
fn slot_fits(p: &Profile) -> bool {
    1 <= p.slot && p.slot <= 7
}

/// "General word: 15 and 12 zero"
fn general_zero_bits_fit(p: &Profile) -> bool {
    !bit(p.general, 15) && !bit(p.general, 12)
}

/// "exactly one of 10, 9, 8"
fn general_rate_fits(p: &Profile) -> bool {
    how_many_of(p.general, &[10, 9, 8]) == 1
}

/// "[exactly one] of 7 (removable), 6 (fixed)"
fn general_medium_fits(p: &Profile) -> bool {
    how_many_of(p.general, &[7, 6]) == 1
}

/// "4 exactly when head switch > 15"
fn general_switch_bit_fits(p: &Profile) -> bool {
    bit(p.general, 4) == (p.switch > 15)
}

/// "exactly one of 2 (soft), 1, 0 (hard)"
fn general_sectoring_fits(p: &Profile) -> bool {
    how_many_of(p.general, &[2, 1, 0]) == 1
}

/// "4-5: cylinders 1..4,096."
fn cylinders_fit(p: &Profile) -> bool {
    1 <= p.cylinders && p.cylinders <= 4_096
}

/// "6: heads 1..16."
fn heads_fit(p: &Profile) -> bool {
    1 <= p.heads && p.heads <= 16
}

/// "8-9: track length 4,095..40,960."
fn track_fits(p: &Profile) -> bool {
    4_095 <= p.track && p.track <= 40_960
}

/// "10-11: sector size, 162..4,095, or 0 exactly if soft." The same rule is
/// the limit of the sector size in force ("pack fields and sector size as
/// below").
pub fn sector_size_fits(p: &Profile, size: u16) -> bool {
    if soft_sectored(p) {
        size == 0
    } else {
        162 <= size && size <= 4_095
    }
}

/// "14: protected 0/1."
fn protected_fits(p: &Profile) -> bool {
    p.protected <= 1
}

/// "16-19: settle ≤ 60,000."
fn settle_fits(p: &Profile) -> bool {
    p.settle <= 60_000
}

/// "20-21: step ≤ 1,000."
fn step_fits(p: &Profile) -> bool {
    p.step <= 1_000
}

/// "22-23: head switch ≤ 60,000."
fn switch_fits(p: &Profile) -> bool {
    p.switch <= 60_000
}

/// "24-27, 28-31, 32-35: recalibrate, start, diagnostic, each ≤ 30,000,000."
fn long_times_fit(p: &Profile) -> bool {
    p.recalibrate <= 30_000_000 && p.start <= 30_000_000 && p.diagnostic <= 30_000_000
}

/// "36-37: offset time ≤ 60,000."
fn offset_time_fits(p: &Profile) -> bool {
    p.offset <= 60_000
}

/// Every field within its range (vendor, gap and sync are any byte).
pub fn valid_profile(p: &Profile) -> bool {
    slot_fits(p)
        && general_zero_bits_fit(p)
        && general_rate_fits(p)
        && general_medium_fits(p)
        && general_switch_bit_fits(p)
        && general_sectoring_fits(p)
        && cylinders_fit(p)
        && heads_fit(p)
        && track_fits(p)
        && sector_size_fits(p, p.sector)
        && protected_fits(p)
        && settle_fits(p)
        && step_fits(p)
        && switch_fits(p)
        && long_times_fit(p)
        && offset_time_fits(p)
}

/// "7 (removable)"
pub fn removable(p: &Profile) -> bool {
    bit(p.general, 7)
}

/// "6 (fixed)"
pub fn fixed(p: &Profile) -> bool {
    bit(p.general, 6)
}

/// "13 offset option"
pub fn offset_option(p: &Profile) -> bool {
    bit(p.general, 13)
}

/// "5 motor option"
pub fn motor_option(p: &Profile) -> bool {
    bit(p.general, 5)
}

/// "2 (soft)"
pub fn soft_sectored(p: &Profile) -> bool {
    bit(p.general, 2)
}

/// As we read it: "Hard sectored" is general bit 1 or 0, that is, not soft.
pub fn hard_sectored(p: &Profile) -> bool {
    !soft_sectored(p)
}

/// "cylinders × heads × track length"
pub fn medium_length(p: &Profile) -> u64 {
    p.cylinders as u64 * p.heads as u64 * p.track as u64
}

/// "cylinders × heads × track length + 44"
pub fn pack_length(p: &Profile) -> u64 {
    medium_length(p) + TRAILER as u64
}

// ===========================================================================
// Pack file: the trailer's bytes, both ways
// ===========================================================================

/// "high byte first"
fn two_bytes(bytes: &[u8], place: usize) -> u16 {
    (bytes[place] as u16) << 8 | bytes[place + 1] as u16
}

fn four_bytes(bytes: &[u8], place: usize) -> u32 {
    (two_bytes(bytes, place) as u32) << 16 | two_bytes(bytes, place + 2) as u32
}

fn put_two(bytes: &mut [u8], place: usize, value: u16) {
    bytes[place] = (value >> 8) as u8;
    bytes[place + 1] = (value & 255) as u8;
}

fn put_four(bytes: &mut [u8], place: usize, value: u32) {
    put_two(bytes, place, (value >> 16) as u16);
    put_two(bytes, place + 2, (value & 65_535) as u16);
}

/// The fields standing in a trailer, in range or not.
pub fn fields_of_trailer(t: &[u8; TRAILER]) -> Profile {
    Profile {
        slot: t[0],
        general: two_bytes(t, 2),
        cylinders: two_bytes(t, 4),
        heads: t[6],
        vendor: t[7],
        track: two_bytes(t, 8),
        sector: two_bytes(t, 10),
        gap: t[12],
        sync: t[13],
        protected: t[14],
        settle: four_bytes(t, 16),
        step: two_bytes(t, 20),
        switch: two_bytes(t, 22),
        recalibrate: four_bytes(t, 24),
        start: four_bytes(t, 28),
        diagnostic: four_bytes(t, 32),
        offset: two_bytes(t, 36),
    }
}

/// The trailer of a valid profile.
pub fn trailer_of_fields(p: &Profile) -> [u8; TRAILER] {
    let mut t = [0u8; TRAILER];
    t[0] = p.slot;
    put_two(&mut t, 2, p.general);
    put_two(&mut t, 4, p.cylinders);
    t[6] = p.heads;
    t[7] = p.vendor;
    put_two(&mut t, 8, p.track);
    put_two(&mut t, 10, p.sector);
    t[12] = p.gap;
    t[13] = p.sync;
    t[14] = p.protected;
    put_four(&mut t, 16, p.settle);
    put_two(&mut t, 20, p.step);
    put_two(&mut t, 22, p.switch);
    put_four(&mut t, 24, p.recalibrate);
    put_four(&mut t, 28, p.start);
    put_four(&mut t, 32, p.diagnostic);
    put_two(&mut t, 36, p.offset);
    t[39] = FORM;
    put_four(&mut t, 40, pack_length(p) as u32);
    t
}

/// "1: zero." "15: zero." "38: zero."
fn zero_places_are_zero(t: &[u8; TRAILER]) -> bool {
    t[1] == 0 && t[15] == 0 && t[38] == 0
}

/// "39: form 1."
fn form_of_trailer(t: &[u8; TRAILER]) -> u8 {
    t[39]
}

/// "40-43: bytes from the pack's end back to its start."
fn distance_of_trailer(t: &[u8; TRAILER]) -> u32 {
    four_bytes(t, 40)
}

// ===========================================================================
// Pack file: reading and laying
// ===========================================================================

/// One pack as reading finds it: its fields and where it starts in the file.
#[derive(Clone, Copy, Debug, PartialEq, Eq)]
pub struct Pack {
    pub profile: Profile,
    pub place: usize,
}

fn last_trailer(left: &[u8]) -> [u8; TRAILER] {
    let mut t = [0u8; TRAILER];
    t.copy_from_slice(&left[left.len() - TRAILER..]);
    t
}

/// One pack, read from the end of what is left. `slot_behind` is the slot of
/// the pack read just before, which stands right behind this one. As we read
/// it: per pack 30 to 35 are tried in the order of their numbers.
fn read_last_pack(left: &[u8], slot_behind: Option<u8>) -> Result<Pack, (u8, usize)> {
    let end = left.len();
    // "30 fewer than 44 bytes left"
    if end < TRAILER {
        return Err((30, end));
    }
    let trailer = last_trailer(left);
    let distance = distance_of_trailer(&trailer) as usize;
    // "31 distance below 44 or more than is left"
    if distance < TRAILER || distance > end {
        return Err((31, end));
    }
    // "32 other form"
    if form_of_trailer(&trailer) != FORM {
        return Err((32, end));
    }
    // "33 a field" (as we read it: the zero places too)
    let profile = fields_of_trailer(&trailer);
    if !zero_places_are_zero(&trailer) || !valid_profile(&profile) {
        return Err((33, end));
    }
    // "34 distance isn't cylinders × heads × track length + 44"
    if distance as u64 != pack_length(&profile) {
        return Err((34, end));
    }
    // "35 slots not rising through the file" (as we read it: the place is the
    // end of the pack in front)
    if let Some(behind) = slot_behind {
        if profile.slot >= behind {
            return Err((35, end));
        }
    }
    Ok(Pack { profile, place: end - distance })
}

/// "Reading goes from the end: the last pack is read, then what is left in
/// front of it by the same rule. Refusals, with the pack's end as place (0
/// for 36)". The packs come in the order of the file.
pub fn read_packs(file: &[u8]) -> Result<Vec<Pack>, (u8, usize)> {
    // "36 file over 2,147,483,647 bytes; then per pack ..."
    if file.len() as u64 > LONGEST_FILE {
        return Err((36, 0));
    }
    let mut packs: Vec<Pack> = Vec::new();
    let mut end = file.len();
    // As we read it: nothing left ends the reading.
    while end > 0 {
        let slot_behind = packs.last().map(|p| p.profile.slot);
        let pack = read_last_pack(&file[..end], slot_behind)?;
        end = pack.place;
        packs.push(pack);
    }
    packs.reverse();
    Ok(packs)
}

/// Reading as answer and place: 0 and 0, or the refusal and its place.
pub fn read_answer(file: &[u8]) -> (u8, usize) {
    match read_packs(file) {
        Ok(_) => (0, 0),
        Err(refusal) => refusal,
    }
}

/// Request 4: "Zero the medium first and write the trailer after it, its back
/// distance last of all." As we read it: ahead of all that the form's byte is
/// zeroed, so that an older pack which ended here is none any more.
pub fn lay_writes(p: &Profile) -> impl Iterator<Item = (usize, u8)> {
    let medium = medium_length(p) as usize;
    let trailer = trailer_of_fields(p);
    let spoil = std::iter::once((medium + 39, 0));
    spoil.chain((0..medium).map(|at| (at, 0))).chain((0..TRAILER).map(move |at| (medium + at, trailer[at])))
}

/// "Laying a pack puts a zeroed medium, then the trailer, at the start of a
/// lent part: 33, then 36, then 37 too little room, buffer untouched. Bytes
/// past the pack stay." As we read it: 36 is the pack's own length over the
/// limit, and laying has no place: 0.
pub fn lay_pack(p: &Profile, part: &mut [u8]) -> (u8, usize) {
    if !valid_profile(p) {
        return (33, 0);
    }
    if pack_length(p) > LONGEST_FILE {
        return (36, 0);
    }
    if (part.len() as u64) < pack_length(p) {
        return (37, 0);
    }
    for (place, byte) in lay_writes(p) {
        part[place] = byte;
    }
    (0, 0)
}

// ===========================================================================
// The chain record
// ===========================================================================

#[derive(Clone, Copy, Debug, PartialEq, Eq)]
pub enum Motor {
    Stopped,
    Starting,
    Up,
}

/// "A transfer is open from its first bit to the end of its last fall,
/// response included."
#[derive(Clone, Copy, Debug, PartialEq, Eq)]
pub enum Transfer {
    /// No transfer open.
    None,
    /// The word's bits are being taken.
    Taking,
    /// The response's bits are being put out.
    Responding,
}

#[derive(Clone, Copy, Debug, PartialEq, Eq)]
pub struct Drive {
    pub profile: Profile,
    /// Where the pack starts in the file.
    pub place: usize,
    pub motor: Motor,
    pub cylinder: u16,
    pub offset: i8,
    pub head: u8,
    pub busy: u32,
    pub head_timer: u32,
    /// The latched status bits, each at its own place in the status word.
    pub latched: u16,
    pub lost: bool,
    /// Sector size in force.
    pub sector: u16,
    pub reading: bool,
    pub writing: bool,
    /// A write fault stands.
    pub standing: bool,
    pub transfer: Transfer,
    /// Bits taken while taking, bits put out while responding.
    pub count: u8,
    /// The bits taken so far, the last one lowest; 0 unless taking.
    pub bits: u32,
    /// The response with its parity bit lowest; 0 unless responding.
    pub response: u32,
    /// Microseconds since the open transfer's last request edge.
    pub waiting: u32,
    pub acknowledge: bool,
}

#[derive(Clone, Copy, Debug, PartialEq, Eq)]
pub struct Chain {
    /// Slot 1 is drives[0].
    pub drives: [Option<Drive>; 7],
    pub select: u8,
    pub head_lines: u8,
    pub write_gate: bool,
    pub read_gate: bool,
    pub command_data: bool,
    pub request: bool,
    /// The pack file's length.
    pub length: usize,
}

/// "Fresh drive: motor up, cylinder 0, offset 0, head 0, timers 0, bit 8
/// latched, position found, sector size its pack's."
pub fn fresh_drive(profile: Profile, place: usize) -> Drive {
    Drive {
        profile,
        place,
        motor: Motor::Up,
        cylinder: 0,
        offset: 0,
        head: 0,
        busy: 0,
        head_timer: 0,
        latched: 1 << POWER_ON,
        lost: false,
        sector: profile.sector,
        reading: false,
        writing: false,
        standing: false,
        transfer: Transfer::None,
        count: 0,
        bits: 0,
        response: 0,
        waiting: 0,
        acknowledge: false,
    }
}

impl Chain {
    /// The chain of a pack file: a fresh drive for each pack. "All lines are
    /// low."
    pub fn fresh(file: &[u8]) -> Result<Chain, (u8, usize)> {
        let packs = read_packs(file)?;
        let mut drives = [None; 7];
        for pack in packs {
            drives[pack.profile.slot as usize - 1] = Some(fresh_drive(pack.profile, pack.place));
        }
        Ok(Chain {
            drives,
            select: 0,
            head_lines: 0,
            write_gate: false,
            read_gate: false,
            command_data: false,
            request: false,
            length: file.len(),
        })
    }

    /// The drive in a slot, if the slot is one of 1..7 and fitted.
    pub fn in_slot(&self, slot: u8) -> Option<&Drive> {
        if 1 <= slot && slot <= 7 {
            self.drives[slot as usize - 1].as_ref()
        } else {
            None
        }
    }

    pub fn in_slot_mut(&mut self, slot: u8) -> Option<&mut Drive> {
        if 1 <= slot && slot <= 7 {
            self.drives[slot as usize - 1].as_mut()
        } else {
            None
        }
    }

    /// The fitted drive that is selected, if there is one.
    pub fn selected(&self) -> Option<&Drive> {
        self.in_slot(self.select)
    }

    fn selected_mut(&mut self) -> Option<&mut Drive> {
        self.in_slot_mut(self.select)
    }
}

// ===========================================================================
// Status, attention, command complete, ready
// ===========================================================================

/// "Latched: 8 power on, 7 command parity, 6 interface fault, 5 invalid
/// command, 4 seek fault, 3 write gate with offset, 1 write fault, 0 medium
/// changed."
pub const POWER_ON: u32 = 8;
pub const COMMAND_PARITY: u32 = 7;
pub const INTERFACE_FAULT: u32 = 6;
pub const INVALID_COMMAND: u32 = 5;
pub const SEEK_FAULT: u32 = 4;
pub const WRITE_GATE_WITH_OFFSET: u32 = 3;
pub const WRITE_FAULT: u32 = 1;
pub const MEDIUM_CHANGED: u32 = 0;

pub const LATCHED_BITS: u16 = 1 << POWER_ON
    | 1 << COMMAND_PARITY
    | 1 << INTERFACE_FAULT
    | 1 << INVALID_COMMAND
    | 1 << SEEK_FAULT
    | 1 << WRITE_GATE_WITH_OFFSET
    | 1 << WRITE_FAULT
    | 1 << MEDIUM_CHANGED;

/// "13 or 12 write protected (removable or fixed)", which is also the write
/// gate's "write protected".
pub fn write_protected(d: &Drive) -> bool {
    d.profile.protected == 1
}

/// "9 motor stopped" and "A starting motor still counts as stopped in bit 9."
fn motor_stopped_bit(d: &Drive) -> bool {
    d.motor != Motor::Up
}

/// "Status word: bits 14, 13, 12, 9 are live: 14 is 0 here, 13 or 12 write
/// protected (removable or fixed), 9 motor stopped. ... Others 0."
pub fn status_word(d: &Drive) -> u16 {
    let mut word = d.latched;
    if write_protected(d) && removable(&d.profile) {
        word |= 1 << 13;
    }
    if write_protected(d) && fixed(&d.profile) {
        word |= 1 << 12;
    }
    if motor_stopped_bit(d) {
        word |= 1 << 9;
    }
    word
}

/// "Attention is up exactly while a latched bit stands."
pub fn attention(d: &Drive) -> bool {
    d.latched != 0
}

pub fn transfer_open(d: &Drive) -> bool {
    d.transfer != Transfer::None
}

/// "Command complete: no transfer open, busy timer 0, head timer 0."
pub fn command_complete(d: &Drive) -> bool {
    !transfer_open(d) && d.busy == 0 && d.head_timer == 0
}

/// "Ready: motor up."
pub fn ready(d: &Drive) -> bool {
    d.motor == Motor::Up
}

/// "head not present", turned round.
pub fn head_present(d: &Drive) -> bool {
    d.head < d.profile.heads
}

/// Latches a bit. "Latching any bit ends writing." (as we read it: and nothing
/// else.)
fn latch(d: &mut Drive, number: u32) {
    d.latched |= 1 << number;
    d.writing = false;
}

/// "A starting motor is up when its busy timer reaches 0, at once if the
/// start time is 0." As we read it: whenever its busy timer is 0, by whatever
/// cause.
fn starting_motor_is_up_at_busy_0(d: &mut Drive) {
    if d.motor == Motor::Starting && d.busy == 0 {
        d.motor = Motor::Up;
    }
}

// ===========================================================================
// What an event did, and its answer
// ===========================================================================

/// What the rules of an event did, as far as the answer asks. Later ones
/// come first in an answer.
#[derive(Clone, Copy, Debug, PartialEq, Eq, PartialOrd, Ord)]
pub enum Did {
    Plain,
    /// "inhibited, nothing latched"
    Inhibited,
    /// "a fault rule applied, even if its bit stood already"
    Fault,
}

/// "no fitted drive selected after kinds 0 to 5 or 7"
fn kind_asks_for_a_drive(kind: u32) -> bool {
    kind <= 5 || kind == 7
}

/// "Of the answers 5, 4, 3, 0 the first that applies is given; a condition
/// taken answers 0." As we read it: kind 6 never answers 3.
fn answer_of(kind: u32, did: Did, fitted_drive_selected: bool) -> u8 {
    match did {
        Did::Fault => 5,
        Did::Inhibited => 4,
        Did::Plain => {
            if kind_asks_for_a_drive(kind) && !fitted_drive_selected {
                3
            } else {
                0
            }
        }
    }
}

// ===========================================================================
// Time and conditions
// ===========================================================================

/// "More than 10,000 µs since its last request edge (house)"
pub const LONGEST_WAIT: u32 = 10_000;

/// "Dropping lowers acknowledge." Nothing is left of the transfer.
fn drop_transfer(d: &mut Drive) {
    end_transfer(d);
}

/// With no transfer open there is no acknowledge and no "collected bit,
/// response or waiting time other than 0".
fn end_transfer(d: &mut Drive) {
    d.transfer = Transfer::None;
    d.count = 0;
    d.bits = 0;
    d.response = 0;
    d.waiting = 0;
    d.acknowledge = false;
}

/// "Microseconds passing lower both timers of every drive, to 0 at least."
fn lower_timers(d: &mut Drive, microseconds: u32) {
    d.busy = d.busy.saturating_sub(microseconds);
    d.head_timer = d.head_timer.saturating_sub(microseconds);
}

/// "More than 10,000 µs since its last request edge (house): bit 6,
/// dropped." As we read it: exactly 10,000 is no drop, however split.
fn let_transfer_wait(d: &mut Drive, microseconds: u32) -> Did {
    if !transfer_open(d) {
        return Did::Plain;
    }
    let waited = d.waiting + microseconds;
    if waited > LONGEST_WAIT {
        latch(d, INTERFACE_FAULT);
        drop_transfer(d);
        Did::Fault
    } else {
        d.waiting = waited;
        Did::Plain
    }
}

/// Kind 6. As we read it: all timers fall by the whole time, also where the
/// transfer is dropped within it.
fn microseconds_pass(chain: &mut Chain, microseconds: u32) -> Did {
    let mut did = Did::Plain;
    for slot in 1..=7 {
        if let Some(d) = chain.in_slot_mut(slot) {
            lower_timers(d, microseconds);
            starting_motor_is_up_at_busy_0(d);
            did = did.max(let_transfer_wait(d, microseconds));
        }
    }
    did
}

/// Kind 8. "Condition 1 latches bit 1; 2 latches bit 4, loses the position
/// and ends reading; 3 latches bit 0." Document 02, request 3: "Condition 1
/// now begins a fault and a new condition 4 ends it."
fn condition_in_slot(d: &mut Drive, condition: u32) {
    match condition {
        1 => {
            latch(d, WRITE_FAULT);
            d.standing = true;
        }
        2 => {
            latch(d, SEEK_FAULT);
            d.lost = true;
            d.reading = false;
        }
        3 => latch(d, MEDIUM_CHANGED),
        _ => d.standing = false,
    }
}

// ===========================================================================
// Handshake
// ===========================================================================

/// "On a rise of request: either gate on: bit 6, any open transfer dropped,
/// no acknowledge. Else no transfer open and command complete false: bit 6,
/// no acknowledge. Else the data line is taken, or the next response bit is
/// put out, and acknowledge rises."
fn request_rises(d: &mut Drive, either_gate: bool, data: bool) -> Did {
    if either_gate {
        latch(d, INTERFACE_FAULT);
        drop_transfer(d);
        return Did::Fault;
    }
    if !transfer_open(d) && !command_complete(d) {
        latch(d, INTERFACE_FAULT);
        return Did::Fault;
    }
    if d.transfer == Transfer::Responding {
        put_out_next_bit(d);
    } else {
        take_data_line(d, data);
    }
    d.acknowledge = true;
    d.waiting = 0;
    Did::Plain
}

/// "the data line is taken": the first bit opens the transfer. "Bit 15 goes
/// first, bit 0, then parity".
fn take_data_line(d: &mut Drive, data: bool) {
    d.transfer = Transfer::Taking;
    d.bits = d.bits * 2 + data as u32;
    d.count += 1;
}

/// "the next response bit is put out"
fn put_out_next_bit(d: &mut Drive) {
    d.count += 1;
}

/// "The configuration/status line is the response bit while acknowledge is
/// up for one, else 0."
pub fn configuration_status_line(d: &Drive) -> bool {
    let bit_is_out = d.transfer == Transfer::Responding && d.acknowledge;
    if bit_is_out && 1 <= d.count && d.count <= 17 {
        // The count-th bit, the first being bit 16 of the seventeen.
        (d.response >> (17 - d.count as u32)) & 1 == 1
    } else {
        false
    }
}

/// "On a fall with acknowledge up it falls; after the 17th bit in, the word
/// is carried out and any response is fixed; after the 17th bit out the
/// transfer ends."
fn request_falls(d: &mut Drive) -> Did {
    if !d.acknowledge {
        return Did::Plain;
    }
    d.acknowledge = false;
    d.waiting = 0;
    if d.count < 17 {
        return Did::Plain;
    }
    if d.transfer == Transfer::Responding {
        end_transfer(d);
        return Did::Plain;
    }
    whole_word_is_in(d)
}

/// The word is carried out when its transfer is over; a response opens the
/// way out within the same transfer. As we read it: a fault that a word latches
/// is answered 5 on the fall of its 17th bit.
fn whole_word_is_in(d: &mut Drive) -> Did {
    let word17 = d.bits;
    end_transfer(d);
    match carry_out(d, word17) {
        Outcome::Faulted => Did::Fault,
        Outcome::Done => Did::Plain,
        Outcome::Response(word) => {
            d.transfer = Transfer::Responding;
            d.response = with_parity(word);
            Did::Plain
        }
    }
}

// ===========================================================================
// Select and head changes
// ===========================================================================

/// "the drive left with a transfer open, or while writing, latches bit 6 and
/// drops both; reading just ends."
fn leave_drive(d: &mut Drive) -> Did {
    d.reading = false;
    if transfer_open(d) || d.writing {
        latch(d, INTERFACE_FAULT);
        drop_transfer(d);
        Did::Fault
    } else {
        Did::Plain
    }
}

/// "The drive entered takes the head lines; if that alters its head, it is a
/// head change."
fn take_head_lines(d: &mut Drive, head_lines: u8) -> Did {
    if d.head == head_lines {
        return Did::Plain;
    }
    d.head = head_lines;
    head_change(d)
}

/// "Head change (house): while writing, bit 6. It ends reading. Where the
/// profile's switch time is over 15 µs, the head timer starts at it."
/// As we read it: the timer starts after a fault as well.
fn head_change(d: &mut Drive) -> Did {
    let did = if d.writing {
        latch(d, INTERFACE_FAULT);
        Did::Fault
    } else {
        Did::Plain
    };
    d.reading = false;
    if d.profile.switch > 15 {
        d.head_timer = d.profile.switch as u32;
    }
    did
}

/// Kind 0. "Setting a line to the level it has does nothing."
fn drive_select_code(chain: &mut Chain, code: u8) -> Did {
    if code == chain.select {
        return Did::Plain;
    }
    let mut did = Did::Plain;
    if let Some(left) = chain.selected_mut() {
        did = did.max(leave_drive(left));
    }
    chain.select = code;
    let head_lines = chain.head_lines;
    if let Some(entered) = chain.selected_mut() {
        did = did.max(take_head_lines(entered, head_lines));
    }
    did
}

/// Kind 1. As we read it: head lines moved with no fitted drive selected alter
/// no drive.
fn head_lines_move(chain: &mut Chain, lines: u8) -> Did {
    if lines == chain.head_lines {
        return Did::Plain;
    }
    chain.head_lines = lines;
    match chain.selected_mut() {
        Some(d) => take_head_lines(d, lines),
        None => Did::Plain,
    }
}

// ===========================================================================
// Gates
// ===========================================================================

/// What a gate's rule says of a drive: the first of its list that applies.
#[derive(Clone, Copy, Debug, PartialEq, Eq)]
pub enum GateRule {
    InterfaceFault,
    Inhibited,
    WriteGateWithOffset,
    WriteFault,
    Begins,
}

/// "Write gate rising, in order: read gate on: bit 6, reading ends.
/// Attention up: inhibited. Offset not 0: bit 3. Not ready, not command
/// complete, position lost, head not present or write protected: bit 1. Else
/// writing begins."
pub fn write_gate_rule(d: &Drive, read_gate: bool) -> GateRule {
    if read_gate {
        GateRule::InterfaceFault
    } else if attention(d) {
        GateRule::Inhibited
    } else if d.offset != 0 {
        GateRule::WriteGateWithOffset
    } else if !ready(d) || !command_complete(d) || d.lost || !head_present(d) || write_protected(d) {
        GateRule::WriteFault
    } else {
        GateRule::Begins
    }
}

/// "Read gate rising: write gate on: bit 6. Not ready, not complete, lost,
/// or head not present: inhibited. Else reading begins."
pub fn read_gate_rule(d: &Drive, write_gate: bool) -> GateRule {
    if write_gate {
        GateRule::InterfaceFault
    } else if !ready(d) || !command_complete(d) || d.lost || !head_present(d) {
        GateRule::Inhibited
    } else {
        GateRule::Begins
    }
}

fn write_gate_rises(d: &mut Drive, read_gate: bool) -> Did {
    match write_gate_rule(d, read_gate) {
        GateRule::InterfaceFault => {
            latch(d, INTERFACE_FAULT);
            d.reading = false;
            Did::Fault
        }
        GateRule::Inhibited => Did::Inhibited,
        GateRule::WriteGateWithOffset => {
            latch(d, WRITE_GATE_WITH_OFFSET);
            Did::Fault
        }
        GateRule::WriteFault => {
            latch(d, WRITE_FAULT);
            Did::Fault
        }
        GateRule::Begins => {
            d.writing = true;
            Did::Plain
        }
    }
}

fn read_gate_rises(d: &mut Drive, write_gate: bool) -> Did {
    match read_gate_rule(d, write_gate) {
        GateRule::InterfaceFault => {
            latch(d, INTERFACE_FAULT);
            Did::Fault
        }
        GateRule::Begins => {
            d.reading = true;
            Did::Plain
        }
        _ => Did::Inhibited,
    }
}

/// Kind 2. "A gate's fall ends its own."
fn write_gate_moves(chain: &mut Chain, level: bool) -> Did {
    if level == chain.write_gate {
        return Did::Plain;
    }
    chain.write_gate = level;
    let read_gate = chain.read_gate;
    match chain.selected_mut() {
        None => Did::Plain,
        Some(d) if level => write_gate_rises(d, read_gate),
        Some(d) => {
            d.writing = false;
            Did::Plain
        }
    }
}

/// Kind 3. "A gate's fall ends its own."
fn read_gate_moves(chain: &mut Chain, level: bool) -> Did {
    if level == chain.read_gate {
        return Did::Plain;
    }
    chain.read_gate = level;
    let write_gate = chain.write_gate;
    match chain.selected_mut() {
        None => Did::Plain,
        Some(d) if level => read_gate_rises(d, write_gate),
        Some(d) => {
            d.reading = false;
            Did::Plain
        }
    }
}

/// Kind 5. "Handshake (000, 5.1.5 to 5.2.4), selected drive only."
fn transfer_request_moves(chain: &mut Chain, level: bool) -> Did {
    if level == chain.request {
        return Did::Plain;
    }
    chain.request = level;
    let either_gate = chain.write_gate || chain.read_gate;
    let data = chain.command_data;
    match chain.selected_mut() {
        None => Did::Plain,
        Some(d) if level => request_rises(d, either_gate, data),
        Some(d) => request_falls(d),
    }
}

// ===========================================================================
// Data cells
// ===========================================================================

/// "the byte at (cylinder × heads + head) × track length + position of that
/// pack's medium"
pub fn cell_place(d: &Drive, position: usize) -> usize {
    let track_number = d.cylinder as usize * d.profile.heads as usize + d.head as usize;
    d.place + track_number * d.profile.track as usize + position
}

/// Kind 7: answer and value. "A cell with neither writing nor reading is
/// inhibited." As we read it: with no fitted drive selected a cell is 3, and a
/// byte written that was there already is still answer 2.
fn data_cell(chain: &Chain, file: &mut [u8], position: usize, byte: u8) -> (u8, u8) {
    match chain.selected() {
        None => (answer_of(7, Did::Plain, false), 0),
        Some(d) if d.writing => {
            file[cell_place(d, position)] = byte;
            (2, 0)
        }
        Some(d) if d.reading => (1, file[cell_place(d, position)]),
        Some(_) => (answer_of(7, Did::Inhibited, true), 0),
    }
}

// ===========================================================================
// Command words
// ===========================================================================

#[derive(Clone, Copy, Debug, PartialEq, Eq)]
pub enum Command {
    Seek,
    Recalibrate,
    RequestStatus,
    RequestConfiguration,
    ClearLatched,
    StopMotor,
    StartMotor,
    RestoreOffset,
    PlusOffset,
    MinusOffset,
    Diagnostics,
    SetBytesPerSector,
}

#[derive(Clone, Copy, Debug, PartialEq, Eq)]
pub enum OptionNeeded {
    None,
    Motor,
    Offset,
    HardSectored,
}

/// "Commands stand in a table of code, modifier range and option needed".
#[derive(Clone, Copy, Debug, PartialEq, Eq)]
pub struct Row {
    pub code: u16,
    pub first: u16,
    pub last: u16,
    pub option: OptionNeeded,
    pub command: Command,
}

const fn row(code: u16, first: u16, last: u16, option: OptionNeeded, command: Command) -> Row {
    Row { code, first, last, option, command }
}

pub const COMMANDS: [Row; 12] = [
    row(0, 0, 15, OptionNeeded::None, Command::Seek),
    row(1, 0, 0, OptionNeeded::None, Command::Recalibrate),
    row(2, 0, 0, OptionNeeded::None, Command::RequestStatus),
    row(3, 0, 15, OptionNeeded::None, Command::RequestConfiguration),
    row(5, 0, 0, OptionNeeded::None, Command::ClearLatched),
    row(5, 2, 2, OptionNeeded::Motor, Command::StopMotor),
    row(5, 3, 3, OptionNeeded::Motor, Command::StartMotor),
    row(7, 0, 1, OptionNeeded::Offset, Command::RestoreOffset),
    row(7, 2, 2, OptionNeeded::Offset, Command::PlusOffset),
    row(7, 3, 3, OptionNeeded::Offset, Command::MinusOffset),
    row(8, 0, 0, OptionNeeded::None, Command::Diagnostics),
    row(9, 0, 15, OptionNeeded::HardSectored, Command::SetBytesPerSector),
];

/// "Bits 15..12 are the code"
fn code_of(word: u16) -> u16 {
    word >> 12
}

/// "11..8 the modifier"
fn modifier_of(word: u16) -> u16 {
    (word >> 8) & 15
}

/// "bits 11..0"
fn parameter_of(word: u16) -> u16 {
    word & 4_095
}

/// "the first row whose code and range fit decides"
fn row_of(word: u16) -> Option<Row> {
    let (code, modifier) = (code_of(word), modifier_of(word));
    for r in COMMANDS.iter() {
        if r.code == code && r.first <= modifier && modifier <= r.last {
            return Some(*r);
        }
    }
    None
}

fn option_present(p: &Profile, option: OptionNeeded) -> bool {
    match option {
        OptionNeeded::None => true,
        OptionNeeded::Motor => motor_option(p),
        OptionNeeded::Offset => offset_option(p),
        OptionNeeded::HardSectored => hard_sectored(p),
    }
}

/// Document 02, request 8: "gap bytes + 2 × sync bytes".
pub fn gaps(p: &Profile) -> u16 {
    p.gap as u16 + 2 * p.sync as u16
}

/// "set bytes per sector, bits 11..0 | hard sectored, 162..4,095". Document
/// 02, request 8: "Command 9 must now leave room: the size must be greater
/// than gap bytes + 2 × sync bytes.", "tried after the 162 to 4,095 range".
fn size_settable(p: &Profile, size: u16) -> bool {
    162 <= size && size > gaps(p)
}

/// "seek, bits 11..0 | cylinder < cylinders"; "so are non-zero bits 7..0
/// outside 0 and 9".
fn parameter_valid(p: &Profile, command: Command, word: u16) -> bool {
    match command {
        Command::Seek => parameter_of(word) < p.cylinders,
        Command::SetBytesPerSector => size_settable(p, parameter_of(word)),
        _ => word & 255 == 0,
    }
}

/// The valid command of a word, or nothing if the word is invalid. "Other
/// codes are invalid; so are non-zero bits 7..0 outside 0 and 9."
pub fn valid_command(p: &Profile, word: u16) -> Option<Command> {
    let r = row_of(word)?;
    if option_present(p, r.option) && parameter_valid(p, r.command, word) {
        Some(r.command)
    } else {
        None
    }
}

/// "the seventeen hold an odd number of ones"
pub fn parity_is_odd(word17: u32) -> bool {
    (word17 & 0x1_FFFF).count_ones() % 2 == 1
}

/// A word with the parity bit that makes its seventeen bits odd.
pub fn with_parity(word: u16) -> u32 {
    let without = (word as u32) << 1;
    if parity_is_odd(without) {
        without
    } else {
        without | 1
    }
}

/// "seek, recalibrate or offset when not ready, bit 4"
fn asks_ready(command: Command) -> bool {
    match command {
        Command::Seek | Command::Recalibrate => true,
        Command::RestoreOffset | Command::PlusOffset | Command::MinusOffset => true,
        _ => false,
    }
}

/// "seek or offset with position lost, bit 4" (as we read it: recalibrate is
/// carried out)
fn asks_position(command: Command) -> bool {
    asks_ready(command) && command != Command::Recalibrate
}

#[derive(Clone, Copy, Debug, PartialEq, Eq)]
pub enum Outcome {
    /// Carried out, no response.
    Done,
    /// Carried out; the response word, without its parity bit.
    Response(u16),
    /// "A faulted word does nothing else and has no response."
    Faulted,
}

/// "Order for a whole word: even parity, bit 7; invalid, bit 5; seek,
/// recalibrate or offset when not ready, bit 4; seek or offset with position
/// lost, bit 4; else carried out."
fn carry_out(d: &mut Drive, word17: u32) -> Outcome {
    let word = ((word17 >> 1) & 65_535) as u16;
    if !parity_is_odd(word17) {
        latch(d, COMMAND_PARITY);
        return Outcome::Faulted;
    }
    let command = match valid_command(&d.profile, word) {
        Some(command) => command,
        None => {
            latch(d, INVALID_COMMAND);
            return Outcome::Faulted;
        }
    };
    if asks_ready(command) && !ready(d) {
        latch(d, SEEK_FAULT);
        return Outcome::Faulted;
    }
    if asks_position(command) && d.lost {
        latch(d, SEEK_FAULT);
        return Outcome::Faulted;
    }
    let outcome = effect(d, command, word);
    starting_motor_is_up_at_busy_0(d);
    outcome
}

fn effect(d: &mut Drive, command: Command, word: u16) -> Outcome {
    match command {
        Command::Seek => seek(d, parameter_of(word)),
        Command::Recalibrate => recalibrate(d),
        Command::RequestStatus => return Outcome::Response(status_word(d)),
        Command::RequestConfiguration => {
            return Outcome::Response(configuration(d, modifier_of(word)))
        }
        Command::ClearLatched => clear_latched(d),
        Command::StopMotor => stop_motor(d),
        Command::StartMotor => start_motor(d),
        Command::RestoreOffset => track_offset(d, 0), // "0, 1 restore"
        Command::PlusOffset => track_offset(d, 1),    // "2 is +1"
        Command::MinusOffset => track_offset(d, -1),  // "3 is −1"
        Command::Diagnostics => d.busy = d.profile.diagnostic, // "busy = diagnostic time"
        Command::SetBytesPerSector => d.sector = parameter_of(word), // "sector size"
    }
    Outcome::Done
}

/// "0 clears latched bits". Document 02, request 3: "While it stands, control
/// 0 clears the other latched bits and leaves bit 1."
fn clear_latched(d: &mut Drive) {
    let left = if d.standing { 1 << WRITE_FAULT } else { 0 };
    d.latched &= left;
}

/// "Distance is the displacement without its sign."
fn distance(from: u16, to: u16) -> u32 {
    if from < to {
        (to - from) as u32
    } else {
        (from - to) as u32
    }
}

/// Document 02, request 1: "The seek time becomes 0 for distance 0 and stays
/// settle + step × distance otherwise." (no sum overflows on a valid profile)
fn seek_time(p: &Profile, distance: u32) -> u32 {
    if distance == 0 {
        return 0;
    }
    p.settle.saturating_add(p.step as u32 * distance)
}

/// "offset 0; busy = .." the seek time, and "The cylinder changes at once."
fn seek(d: &mut Drive, to: u16) {
    d.busy = seek_time(&d.profile, distance(d.cylinder, to));
    d.cylinder = to;
    d.offset = 0;
}

/// "cylinder 0, offset 0, position found; busy = recalibrate time"
fn recalibrate(d: &mut Drive) {
    d.cylinder = 0;
    d.offset = 0;
    d.lost = false;
    d.busy = d.profile.recalibrate;
}

/// "2 stops"; "Stop when stopped ... do[es] nothing". As we read it: stop while
/// starting stops and leaves busy as it is.
fn stop_motor(d: &mut Drive) {
    d.motor = Motor::Stopped;
}

/// "3 starts"; "start when not stopped do[es] nothing; start sets cylinder
/// 0, offset 0, position found, busy = start time." As we read it: start while
/// starting does nothing.
fn start_motor(d: &mut Drive) {
    if d.motor != Motor::Stopped {
        return;
    }
    d.motor = Motor::Starting;
    d.cylinder = 0;
    d.offset = 0;
    d.lost = false;
    d.busy = d.profile.start;
}

/// "busy = offset time" (as we read it: restore too)
fn track_offset(d: &mut Drive, offset: i8) {
    d.offset = offset;
    d.busy = d.profile.offset as u32;
}

/// "Configuration by modifier (003, table 6-8)"
pub fn configuration(d: &Drive, modifier: u16) -> u16 {
    let p = &d.profile;
    match modifier {
        0 => p.general,                                // "0 general word"
        1 => if fixed(p) { p.cylinders } else { 0 },   // "1, 2 cylinders if fixed,
        2 => if removable(p) { p.cylinders } else { 0 }, // if removable, else 0"
        3 => heads_word(p),
        4 => p.track,                                  // "4 track length"
        5 => sector_size_word(d),
        6 => whole_sectors_word(d),
        7 => p.gap as u16,                             // "7 gap bytes"
        8 => p.sync as u16,                            // "8 sync bytes"
        15 => (p.vendor as u16) << 8,                  // "15 vendor in 15..8"
        _ => 0,                                        // "9 to 14 zero"
    }
}

/// "3 heads, removable in 15..8, fixed in 7..0"
fn heads_word(p: &Profile) -> u16 {
    if removable(p) {
        (p.heads as u16) << 8
    } else {
        p.heads as u16
    }
}

/// "5 sector size now in force (0 if soft)"
fn sector_size_word(d: &Drive) -> u16 {
    if soft_sectored(&d.profile) {
        0
    } else {
        d.sector
    }
}

/// "6 whole sectors of that size in a track (0 if soft)"
fn whole_sectors_word(d: &Drive) -> u16 {
    if soft_sectored(&d.profile) || d.sector == 0 {
        0
    } else {
        d.profile.track / d.sector
    }
}

/// "The plain word rules are these, given a drive and a word with its parity
/// bit at once; on a drive that reads or writes, or with command complete
/// false, they latch bit 6 and stop." The word stands in bits 16..1, its
/// parity bit in bit 0. As we read it: they look at no line.
pub fn plain_outcome(d: &mut Drive, word17: u32) -> Outcome {
    if d.reading || d.writing || !command_complete(d) {
        latch(d, INTERFACE_FAULT);
        return Outcome::Faulted;
    }
    carry_out(d, word17)
}

/// The response by the plain word rules, its parity bit in bit 0.
pub fn plain_word(d: &mut Drive, word17: u32) -> Option<u32> {
    match plain_outcome(d, word17) {
        Outcome::Response(word) => Some(with_parity(word)),
        Outcome::Done | Outcome::Faulted => None,
    }
}

// ===========================================================================
// A record malformed: each clause by itself
// ===========================================================================

/// "select code ≤ 7"
pub fn select_code_over_7(chain: &Chain) -> bool {
    chain.select > 7
}

/// "head lines | 0..15": the paper's list of limits leaves the head lines
/// out; without the limit a sound chain would not stay sound.
pub fn head_lines_over_15(chain: &Chain) -> bool {
    chain.head_lines > 15
}

/// "Limits: pack fields ... as below"
pub fn pack_field_out_of_range(_: &Chain, _: u8, d: &Drive) -> bool {
    !valid_profile(&d.profile)
}

/// "and sector size as below"
pub fn sector_size_out_of_range(_: &Chain, _: u8, d: &Drive) -> bool {
    !sector_size_fits(&d.profile, d.sector)
}

/// "cylinder below cylinders"
pub fn cylinder_out_of_range(_: &Chain, _: u8, d: &Drive) -> bool {
    d.cylinder >= d.profile.cylinders
}

/// "offset −1 to 1"
pub fn offset_out_of_range(_: &Chain, _: u8, d: &Drive) -> bool {
    d.offset < -1 || d.offset > 1
}

/// "head ≤ 15"
pub fn head_over_15(_: &Chain, _: u8, d: &Drive) -> bool {
    d.head > 15
}

/// "busy ≤ 30,000,000"
pub fn busy_over_limit(_: &Chain, _: u8, d: &Drive) -> bool {
    d.busy > 30_000_000
}

/// "head timer ≤ 60,000"
pub fn head_timer_over_limit(_: &Chain, _: u8, d: &Drive) -> bool {
    d.head_timer > 60_000
}

/// "waiting ≤ 10,000"
pub fn waiting_over_limit(_: &Chain, _: u8, d: &Drive) -> bool {
    d.waiting > LONGEST_WAIT
}

/// "no latched bit but those listed below"
pub fn unlisted_bit_latched(_: &Chain, _: u8, d: &Drive) -> bool {
    d.latched & !LATCHED_BITS != 0
}

/// Document 02, request 3, as we read it: no rule leaves a fault that stands
/// with bit 1 clear.
pub fn fault_stands_without_bit_1(_: &Chain, _: u8, d: &Drive) -> bool {
    d.standing && d.latched & 1 << WRITE_FAULT == 0
}

/// As we read it: a drive's pack names its own slot.
pub fn pack_names_another_slot(_: &Chain, slot: u8, d: &Drive) -> bool {
    d.profile.slot != slot
}

/// "a pack's place isn't one the file rules could give". As we read it: from 0
/// on, slots rising, no gap, the last pack ending at the record's length, at
/// most 2,147,483,647; with no drive the length is 0.
pub fn place_not_from_the_file_rules(chain: &Chain) -> bool {
    let mut end: u64 = 0;
    for slot in 1..=7 {
        if let Some(d) = chain.in_slot(slot) {
            if d.place as u64 != end {
                return true;
            }
            end += pack_length(&d.profile);
        }
    }
    chain.length as u64 != end || end > LONGEST_FILE
}

/// "a starting motor has busy 0"
pub fn starting_motor_with_busy_0(_: &Chain, _: u8, d: &Drive) -> bool {
    d.motor == Motor::Starting && d.busy == 0
}

/// "a drive reads or writes where it is unselected"
pub fn reads_or_writes_unselected(chain: &Chain, slot: u8, d: &Drive) -> bool {
    (d.reading || d.writing) && slot != chain.select
}

/// "[or] its gate is low"
pub fn reads_with_its_gate_low(chain: &Chain, _: u8, d: &Drive) -> bool {
    d.reading && !chain.read_gate
}

pub fn writes_with_its_gate_low(chain: &Chain, _: u8, d: &Drive) -> bool {
    d.writing && !chain.write_gate
}

/// "or that gate's rule would stop it". As we read it: the other gate being on
/// included and, for writing, attention.
pub fn reads_against_its_gates_rule(chain: &Chain, _: u8, d: &Drive) -> bool {
    d.reading && read_gate_rule(d, chain.write_gate) != GateRule::Begins
}

pub fn writes_against_its_gates_rule(chain: &Chain, _: u8, d: &Drive) -> bool {
    d.writing && write_gate_rule(d, chain.read_gate) != GateRule::Begins
}

/// "the selected drive's head isn't the head lines". As we read it: compared
/// only where the slot is fitted.
pub fn selected_head_is_not_the_head_lines(chain: &Chain) -> bool {
    match chain.selected() {
        Some(d) => d.head != chain.head_lines,
        None => false,
    }
}

/// "an unselected drive has a transfer"
pub fn unselected_drive_has_a_transfer(chain: &Chain, slot: u8, d: &Drive) -> bool {
    transfer_open(d) && slot != chain.select
}

/// "an open transfer's acknowledge ... [isn't] what the handshake leaves at
/// that request level". As we read it: it equals the request level.
pub fn open_transfers_acknowledge_is_not_the_request(chain: &Chain, _: u8, d: &Drive) -> bool {
    transfer_open(d) && d.acknowledge != chain.request
}

/// "an open transfer's ... bit counts aren't what the handshake leaves at
/// that request level". As we read it: taking, 1 to 16 bits at low, 1 to 17 at
/// high.
pub fn taking_count_is_not_the_handshakes(chain: &Chain, _: u8, d: &Drive) -> bool {
    let most = if chain.request { 17 } else { 16 };
    d.transfer == Transfer::Taking && (d.count < 1 || d.count > most)
}

/// As we read it: responding, 0 to 16 out at low, 1 to 17 at high.
pub fn responding_count_is_not_the_handshakes(chain: &Chain, _: u8, d: &Drive) -> bool {
    let (least, most) = if chain.request { (1, 17) } else { (0, 16) };
    d.transfer == Transfer::Responding && (d.count < least || d.count > most)
}

/// As we read it: the collected bits are below two to the power of their
/// count. (A count over 17 breaks the clause above; here it counts as 17.)
pub fn taken_bits_over_their_count(_: &Chain, _: u8, d: &Drive) -> bool {
    d.transfer == Transfer::Taking && d.bits as u64 >= 1u64 << d.count.min(17)
}

/// As we read it: a response is below 2^17.
pub fn response_over_17_bits(_: &Chain, _: u8, d: &Drive) -> bool {
    d.transfer == Transfer::Responding && d.response >= 1 << 17
}

/// The twin's record has places for both; the handshake leaves no response
/// while a word is being taken, and no collected bits once it is carried
/// out.
pub fn response_while_taking(_: &Chain, _: u8, d: &Drive) -> bool {
    d.transfer == Transfer::Taking && d.response != 0
}

pub fn taken_bits_while_responding(_: &Chain, _: u8, d: &Drive) -> bool {
    d.transfer == Transfer::Responding && d.bits != 0
}

/// "a drive with no open transfer has acknowledge up"
pub fn acknowledge_without_transfer(_: &Chain, _: u8, d: &Drive) -> bool {
    !transfer_open(d) && d.acknowledge
}

/// "or any collected bit"
pub fn collected_bit_without_transfer(_: &Chain, _: u8, d: &Drive) -> bool {
    !transfer_open(d) && (d.count != 0 || d.bits != 0)
}

/// "response"
pub fn response_without_transfer(_: &Chain, _: u8, d: &Drive) -> bool {
    !transfer_open(d) && d.response != 0
}

/// "or waiting time other than 0"
pub fn waiting_without_transfer(_: &Chain, _: u8, d: &Drive) -> bool {
    !transfer_open(d) && d.waiting != 0
}

/// A clause that speaks of the chain, and one that speaks of each drive: its name and its test.
pub enum Clause {
    OfChain(&'static str, fn(&Chain) -> bool),
    OfDrive(&'static str, fn(&Chain, u8, &Drive) -> bool),
}

/// The clauses, and whether one is broken: the chain's first, then each drive's, a drive at a time.
macro_rules! clauses {
    ($($kind:ident $name:ident),*) => {
        /// "A record is malformed when ...", clause by clause, in the paper's order.
        pub const CLAUSES: [Clause; 33] = [$(Clause::$kind(stringify!($name), $name)),*];

        pub fn malformed(chain: &Chain) -> bool {
            $(clauses!(@chain $kind $name chain) ||)* (1..=7).any(|slot| match chain.in_slot(slot) {
                Some(d) => $(clauses!(@drive $kind $name chain slot d) ||)* false,
                None => false,
            })
        }
    };
    (@chain OfChain $name:ident $chain:ident) => { $name($chain) };
    (@chain OfDrive $name:ident $chain:ident) => { false };
    (@drive OfChain $name:ident $chain:ident $slot:ident $d:ident) => { false };
    (@drive OfDrive $name:ident $chain:ident $slot:ident $d:ident) => { $name($chain, $slot, $d) };
}

clauses!(
    OfChain select_code_over_7,
    OfChain head_lines_over_15,
    OfDrive pack_field_out_of_range,
    OfDrive sector_size_out_of_range,
    OfDrive cylinder_out_of_range,
    OfDrive offset_out_of_range,
    OfDrive head_over_15,
    OfDrive busy_over_limit,
    OfDrive head_timer_over_limit,
    OfDrive waiting_over_limit,
    OfDrive unlisted_bit_latched,
    OfDrive fault_stands_without_bit_1,
    OfDrive pack_names_another_slot,
    OfChain place_not_from_the_file_rules,
    OfDrive starting_motor_with_busy_0,
    OfDrive reads_or_writes_unselected,
    OfDrive reads_with_its_gate_low,
    OfDrive writes_with_its_gate_low,
    OfDrive reads_against_its_gates_rule,
    OfDrive writes_against_its_gates_rule,
    OfChain selected_head_is_not_the_head_lines,
    OfDrive unselected_drive_has_a_transfer,
    OfDrive open_transfers_acknowledge_is_not_the_request,
    OfDrive taking_count_is_not_the_handshakes,
    OfDrive responding_count_is_not_the_handshakes,
    OfDrive taken_bits_over_their_count,
    OfDrive response_over_17_bits,
    OfDrive response_while_taking,
    OfDrive taken_bits_while_responding,
    OfDrive acknowledge_without_transfer,
    OfDrive collected_bit_without_transfer,
    OfDrive response_without_transfer,
    OfDrive waiting_without_transfer
);

impl Clause {
    pub fn name(&self) -> &'static str {
        match self {
            Clause::OfChain(name, _) | Clause::OfDrive(name, _) => name,
        }
    }

    fn broken(&self, chain: &Chain) -> bool {
        match self {
            Clause::OfChain(_, breaks) => breaks(chain),
            Clause::OfDrive(_, breaks) => (1..=7).any(|slot| chain.in_slot(slot).map_or(false, |d| breaks(chain, slot, d))),
        }
    }
}

/// The names of the clauses a record breaks.
pub fn broken_clauses(chain: &Chain) -> Vec<&'static str> {
    CLAUSES.iter().filter(|c| c.broken(chain)).map(|c| c.name()).collect()
}

/// "A chain is sound exactly when its record isn't malformed and the lent
/// file's length is the record's."
pub fn sound(chain: &Chain, file_length: usize) -> bool {
    !malformed(chain) && file_length == chain.length
}

// ===========================================================================
// Refusals
// ===========================================================================

/// "20 unknown kind"
fn kind_unknown(kind: u32) -> bool {
    kind > 8
}

/// "21 operand out of range", by the table of events. "b is 0 for kinds 0 to
/// 6." Document 02, request 3: "condition 4 joins the range of 21".
fn operand_out_of_range(kind: u32, a: u32, b: u32) -> bool {
    match kind {
        0 => a > 7 || b != 0,
        1 => a > 15 || b != 0,
        2 | 3 | 4 | 5 => a > 1 || b != 0,
        6 => a > 65_535 || b != 0,
        7 => a > 65_535 || b > 255,
        _ => a < 1 || a > 7 || b < 1 || b > 4,
    }
}

/// "24 condition for an empty slot, or 3 on a fixed drive"
fn condition_has_no_place(chain: &Chain, kind: u32, a: u32, b: u32) -> bool {
    kind == 8
        && match chain.in_slot(a as u8) {
            None => true,
            Some(d) => b == 3 && fixed(&d.profile),
        }
}

/// "25 cell position at or past the selected drive's track length"
fn cell_past_the_track(chain: &Chain, kind: u32, a: u32) -> bool {
    kind == 7
        && match chain.selected() {
            None => false,
            Some(d) => a >= d.profile.track as u32,
        }
}

/// "Refusals 19 to 25 change nothing and are tried in that order."
pub fn refusal(chain: &Chain, file_length: usize, kind: u32, a: u32, b: u32) -> Option<u8> {
    if kind_unknown(kind) {
        return Some(20);
    }
    if operand_out_of_range(kind, a, b) {
        return Some(21);
    }
    // "22 chain record malformed"
    if malformed(chain) {
        return Some(22);
    }
    // "23 lent file's length isn't the record's"
    if file_length != chain.length {
        return Some(23);
    }
    if condition_has_no_place(chain, kind, a, b) {
        return Some(24);
    }
    if cell_past_the_track(chain, kind, a) {
        return Some(25);
    }
    None
}

// ===========================================================================
// The step
// ===========================================================================

/// One event: answer and value. "Value is 0 except for answer 1."
pub fn step(chain: &mut Chain, file: &mut [u8], kind: u32, a: u32, b: u32) -> (u8, u8) {
    if let Some(number) = refusal(chain, file.len(), kind, a, b) {
        return (number, 0);
    }
    let did = match kind {
        0 => drive_select_code(chain, a as u8),
        1 => head_lines_move(chain, a as u8),
        2 => write_gate_moves(chain, a == 1),
        3 => read_gate_moves(chain, a == 1),
        4 => {
            chain.command_data = a == 1;
            Did::Plain
        }
        5 => transfer_request_moves(chain, a == 1),
        6 => microseconds_pass(chain, a),
        7 => return data_cell(chain, file, a as usize, b as u8),
        _ => {
            if let Some(d) = chain.in_slot_mut(a as u8) {
                condition_in_slot(d, b);
            }
            Did::Plain
        }
    };
    (answer_of(kind, did, chain.selected().is_some()), 0)
}

/// "the selected drive's lines as a sum (1 selected, 2 ready, 4 acknowledge,
/// 8 data, 16 attention, 32 complete; 0 if none)"
pub fn line_sum(chain: &Chain) -> u8 {
    match chain.selected() {
        None => 0,
        Some(d) => {
            1 + 2 * ready(d) as u8
                + 4 * d.acknowledge as u8
                + 8 * configuration_status_line(d) as u8
                + 16 * attention(d) as u8
                + 32 * command_complete(d) as u8
        }
    }
}

// ===========================================================================
// Captures (request 2)
// ===========================================================================

/// "Each is three numbers: kind, a, b."
pub type Event = (u32, u32, u32);

/// Request 2: "a four-byte microsecond stamp that runs over at 2^32, then two
/// bytes of line levels, high byte first", a "six-byte" sample.
pub const SAMPLE: usize = 6;

/// A line of a capture: the kind of its events, its lowest bit in the levels,
/// and the highest level it can have.
#[derive(Clone, Copy, Debug, PartialEq, Eq)]
pub struct Line {
    pub kind: u32,
    pub lowest: u32,
    pub most: u32,
}

const fn captured(kind: u32, lowest: u32, most: u32) -> Line {
    Line { kind, lowest, most }
}

/// Request 2: "Lines changing in one sample are applied in a fixed order:
/// select, head, read gate, write gate, data, request." That is their order
/// in the levels too: "bits 0 to 2 are the select code, 3 to 6 the head lines,
/// 7 read gate, 8 write gate, 9 data, 10 request".
pub const LINES: [Line; 6] = [
    captured(0, 0, 7),
    captured(1, 3, 15),
    captured(3, 7, 1),
    captured(2, 8, 1),
    captured(4, 9, 1),
    captured(5, 10, 1),
];

/// The levels of the six lines, in that order.
pub type Levels = [u32; 6];

fn stamp_of(sample: &[u8]) -> u32 {
    four_bytes(sample, 0)
}

fn levels_of(sample: &[u8]) -> Levels {
    LINES.map(|line| two_bytes(sample, 4) as u32 >> line.lowest & line.most)
}

/// A sample's bytes.
pub fn sample_of(stamp: u32, levels: u16) -> [u8; SAMPLE] {
    let mut sample = [0; SAMPLE];
    put_four(&mut sample, 0, stamp);
    put_two(&mut sample, 4, levels);
    sample
}

/// A sample's levels with one line at a new level; none where no line of that
/// kind can have it.
pub fn levels_with(levels: u16, kind: u32, level: u32) -> Option<u16> {
    let line = LINES.iter().find(|line| line.kind == kind && level <= line.most)?;
    let others = levels & !((line.most << line.lowest) as u16);
    Some(others | (level << line.lowest) as u16)
}

/// Request 2: "40 capture not a whole number of six-byte samples or a sample
/// with one of bits 11 to 15 set": are these bytes, the next six or all that
/// is left, a sample?
pub fn is_sample(bytes: &[u8]) -> bool {
    bytes.len() == SAMPLE && two_bytes(bytes, 4) >> 11 == 0
}

/// Where the first sample that is none begins, an incomplete last one
/// included; none where the bytes are a capture. As we read it: no bytes at
/// all are one.
pub fn capture_place(capture: &[u8]) -> Option<usize> {
    capture.chunks(SAMPLE).position(|bytes| !is_sample(bytes)).map(|n| n * SAMPLE)
}

/// Request 2: "The time between two samples is the later stamp less the
/// earlier, wrapping on purpose". "A pause of 2^32 µs or more can't be told".
pub fn time_between(earlier: u32, later: u32) -> u32 {
    later.wrapping_sub(earlier)
}

/// Request 2: "split into passing events of 65,535, the rest last if not 0".
pub fn passing_events(time: u32) -> impl Iterator<Item = Event> {
    let (whole, rest) = (time / 65_535, time % 65_535);
    (0..whole).map(|_| (6, 65_535, 0)).chain((rest != 0).then_some((6, rest, 0)))
}

/// Request 2: "Lines changing in one sample are applied in a fixed order".
pub fn line_events(before: Levels, after: Levels) -> impl Iterator<Item = Event> {
    (0..LINES.len()).filter(move |&n| before[n] != after[n]).map(move |n| (LINES[n].kind, after[n], 0))
}

/// The cable as the sample before left it.
#[derive(Clone, Copy, Debug, PartialEq, Eq)]
pub struct Cable {
    /// None ahead of the first sample.
    pub stamp: Option<u32>,
    pub levels: Levels,
}

impl Cable {
    /// Ahead of a capture. As we read it: the first sample's lines differ from
    /// the line levels in the record.
    pub fn of(chain: &Chain) -> Cable {
        Cable { stamp: None, levels: chain.levels() }
    }

    /// The events of the next sample: the time, then the lines. Request 2: "The
    /// first sample sets its levels with no time passing."
    pub fn sample(&mut self, sample: &[u8]) -> impl Iterator<Item = Event> {
        let (before, stamp, levels) = (*self, stamp_of(sample), levels_of(sample));
        *self = Cable { stamp: Some(stamp), levels };
        let time = before.stamp.map_or(0, |earlier| time_between(earlier, stamp));
        passing_events(time).chain(line_events(before.levels, levels))
    }
}

impl Chain {
    /// The line levels in the record.
    pub fn levels(&self) -> Levels {
        [
            self.select as u32,
            self.head_lines as u32,
            self.read_gate as u32,
            self.write_gate as u32,
            self.command_data as u32,
            self.request as u32,
        ]
    }
}

/// The events of a capture on lines at these levels, one at a time.
pub fn capture_events(levels: Levels, capture: &[u8]) -> impl Iterator<Item = Event> + '_ {
    let mut cable = Cable { stamp: None, levels };
    capture.chunks(SAMPLE).flat_map(move |sample| cable.sample(sample))
}

/// How many events a capture has: 0 and their count, or 40 and the place of
/// the first bad sample.
pub fn capture_count(levels: Levels, capture: &[u8]) -> (u8, u64) {
    match capture_place(capture) {
        Some(place) => (40, place as u64),
        None => (0, capture_events(levels, capture).count() as u64),
    }
}

/// A capture's events fed one by one to whatever answers them, number and
/// value of each answer put at their two bytes: 0 and how many events, or 40
/// and the place, or 37 and how many there would be. As we read it: 37 is a
/// buffer shorter than two bytes an event, after 40, and before the first
/// event; bytes past the answers stay.
pub fn feed_capture(levels: Levels, capture: &[u8], answers: &mut [u8], mut feed: impl FnMut(Event) -> (u8, u8)) -> (u8, u64) {
    let (refused, number) = capture_count(levels, capture);
    if refused != 0 {
        return (refused, number);
    }
    if (answers.len() as u64) < 2 * number {
        return (37, number);
    }
    for (event, pair) in capture_events(levels, capture).zip(answers.chunks_exact_mut(2)) {
        let (answer, value) = feed(event);
        pair.copy_from_slice(&[answer, value]);
    }
    (0, number)
}

/// Request 2: "The result is the chain, the pack file and each answer, equal
/// to feeding the same events singly." "Refusals: 40 ... ahead of everything,
/// chain and file as before."
pub fn run_capture(chain: &mut Chain, file: &mut [u8], capture: &[u8], answers: &mut [u8]) -> (u8, u64) {
    feed_capture(chain.levels(), capture, answers, |(kind, a, b)| step(chain, file, kind, a, b))
}

// ===========================================================================
// Runner
// ===========================================================================

/// "the smallest drive (1 cylinder, 1 head, 4,095 bytes, general word 0242h,
/// sector 512, form 1, the rest 0)"
pub fn smallest_drive(slot: u8) -> Profile {
    Profile {
        slot,
        general: 0x0242,
        cylinders: 1,
        heads: 1,
        vendor: 0,
        track: 4_095,
        sector: 512,
        gap: 0,
        sync: 0,
        protected: 0,
        settle: 0,
        step: 0,
        switch: 0,
        recalibrate: 0,
        start: 0,
        diagnostic: 0,
        offset: 0,
    }
}

/// A pack file of zeroed media for these profiles, which are valid and have
/// rising slots.
pub fn file_of_packs(profiles: &[Profile]) -> Vec<u8> {
    let mut file = Vec::new();
    for p in profiles {
        let start = file.len();
        file.resize(start + pack_length(p) as usize, 0);
        lay_pack(p, &mut file[start..]);
    }
    file
}

/// "three decimal numbers up to 65,535 ... (digits only, leading zeros
/// allowed ...)": one of the three.
fn number_of(digits: &[u8]) -> Option<u32> {
    if digits.is_empty() {
        return None;
    }
    let mut value: u32 = 0;
    for digit in digits {
        if !digit.is_ascii_digit() {
            return None;
        }
        value = value * 10 + (digit - b'0') as u32;
        if value > 65_535 {
            return None;
        }
    }
    Some(value)
}

/// "line isn't three decimal numbers up to 65,535, one space between", of a
/// line without its newline.
pub fn event_of_line(line: &[u8]) -> Option<Event> {
    let parts: Vec<&[u8]> = line.split(|byte| *byte == b' ').collect();
    if parts.len() != 3 {
        return None;
    }
    Some((number_of(parts[0])?, number_of(parts[1])?, number_of(parts[2])?))
}

/// The bus runner: a chain, its file and the count of the lines read.
#[derive(Clone, Debug, PartialEq, Eq)]
pub struct Runner {
    pub chain: Chain,
    pub file: Vec<u8>,
    pub count: u64,
}

impl Runner {
    /// "The bus runner fits the smallest drive ... in slots 1 and 3".
    pub fn smallest() -> Runner {
        Runner::of_file(file_of_packs(&[smallest_drive(1), smallest_drive(3)])).unwrap()
    }

    pub fn of_file(file: Vec<u8>) -> Result<Runner, (u8, usize)> {
        let chain = Chain::fresh(&file)?;
        Ok(Runner { chain, file, count: 0 })
    }

    /// One input line without its newline.
    pub fn line(&mut self, line: &[u8]) -> String {
        match event_of_line(line) {
            None => self.answered((19, 0)),
            Some(event) => self.event(event),
        }
    }

    fn event(&mut self, (kind, a, b): Event) -> String {
        let answer = step(&mut self.chain, &mut self.file, kind, a, b);
        self.answered(answer)
    }

    /// "Each output line: input line count, answer, value, and the selected
    /// drive's lines as a sum".
    fn answered(&mut self, (answer, value): (u8, u8)) -> String {
        self.count += 1;
        format!("{} {} {} {}\n", self.count, answer, value, line_sum(&self.chain))
    }

    /// A whole input. As we read it: a line ends at the newline byte alone;
    /// after a last newline there is no further line.
    pub fn run(&mut self, input: &[u8]) -> String {
        let mut output = String::new();
        for line in input.split_inclusive(|byte| *byte == b'\n') {
            output.push_str(&self.line(without_newline(line)));
        }
        output
    }

    /// Request 2, a capture's next sample. As we read it: an output line for
    /// each of its events, as if its numbers had been typed.
    pub fn sample<'a>(&'a mut self, cable: &mut Cable, sample: &[u8]) -> impl Iterator<Item = String> + 'a {
        cable.sample(sample).map(move |event| self.event(event))
    }

    /// Request 2, a whole capture, or the place where it is none: 40.
    pub fn capture(&mut self, capture: &[u8]) -> Result<String, usize> {
        if let Some(place) = capture_place(capture) {
            return Err(place);
        }
        let mut cable = Cable::of(&self.chain);
        let mut output = String::new();
        for sample in capture.chunks(SAMPLE) {
            output.extend(self.sample(&mut cable, sample));
        }
        Ok(output)
    }
}

/// "the last newline may be missing"
pub fn without_newline(line: &[u8]) -> &[u8] {
    match line.last() {
        Some(b'\n') => &line[..line.len() - 1],
        _ => line,
    }
}
