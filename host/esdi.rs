//! include/esdi.h as Rust sees it: the record's mirror, the functions, and the
//! record from the twin's chain and back.

use crate::twin;

#[repr(C)]
#[derive(Clone, Copy, Debug, Default, PartialEq, Eq)]
pub struct Shape {
    pub cylinders: u16,
    pub heads: u16,
    pub track: u16,
    pub sector: u16,
}

#[repr(C)]
#[derive(Clone, Copy, Debug, Default, PartialEq, Eq)]
pub struct Times {
    pub settle: u32,
    pub step: u32,
    pub switch: u32,
    pub recalibrate: u32,
    pub start: u32,
    pub diagnostic: u32,
    pub offset: u32,
}

#[repr(C)]
#[derive(Clone, Copy, Debug, Default, PartialEq, Eq)]
pub struct Profile {
    pub slot: u8,
    pub vendor: u8,
    pub general: u16,
    pub gap: u8,
    pub sync: u8,
    pub protected: u16,
    pub shape: Shape,
    pub times: Times,
}

#[repr(C)]
#[derive(Clone, Copy, Debug, Default, PartialEq, Eq)]
pub struct Pack {
    pub fitted: u32,
    pub place: u32,
    pub profile: Profile,
}

#[repr(C)]
#[derive(Clone, Copy, Debug, Default, PartialEq, Eq)]
pub struct Timers {
    pub busy: u32,
    pub head: u32,
}

#[repr(C)]
#[derive(Clone, Copy, Debug, Default, PartialEq, Eq)]
pub struct Arm {
    pub cylinder: u16,
    pub offset: u8,
    pub lost: u8,
}

#[repr(C)]
#[derive(Clone, Copy, Debug, Default, PartialEq, Eq)]
pub struct Body {
    pub timers: Timers,
    pub arm: Arm,
    pub latched: u16,
    pub sector: u16,
    pub head: u8,
    pub motor: u8,
    pub reading: u8,
    pub writing: u8,
    pub standing: u32,
}

#[repr(C)]
#[derive(Clone, Copy, Debug, Default, PartialEq, Eq)]
pub struct Transfer {
    pub waiting: u32,
    pub bits: u32,
    pub response: u32,
    pub count: u16,
    pub way: u8,
    pub acknowledge: u8,
}

#[repr(C)]
#[derive(Clone, Copy, Debug, Default, PartialEq, Eq)]
pub struct State {
    pub body: Body,
    pub transfer: Transfer,
}

#[repr(C)]
#[derive(Clone, Copy, Debug, Default, PartialEq, Eq)]
pub struct Lines {
    pub select: u8,
    pub heads: u8,
    pub writegate: u16,
    pub readgate: u16,
    pub command: u8,
    pub request: u8,
}

#[repr(C)]
#[derive(Clone, Copy, Debug, Default)]
pub struct Chain {
    pub packs: [Pack; 7],
    pub states: [State; 7],
    pub lines: Lines,
    pub length: u32,
}

/// Every byte counts, whatever the fields are.
impl PartialEq for Chain {
    fn eq(&self, other: &Chain) -> bool {
        const SIZE: usize = std::mem::size_of::<Chain>();
        let bytes = |c: &Chain| unsafe { *(c as *const Chain as *const [u8; SIZE]) };
        bytes(self) == bytes(other)
    }
}

extern "C" {
    fn esdi_fit(chain: *mut Chain, file: *const u8, length: usize) -> u64;
    fn esdi_event(chain: *mut Chain, file: *mut u8, length: usize, kind: u32, a: u32, b: u32) -> u32;
    fn esdi_capture(
        chain: *mut Chain,
        file: *mut u8,
        length: usize,
        capture: *const u8,
        capture_length: usize,
        answers: *mut u8,
        answers_length: usize,
    ) -> u64;
    fn esdi_capture_count(chain: *const Chain, capture: *const u8, capture_length: usize) -> u64;
    fn esdi_lines(chain: *const Chain) -> u32;
    fn esdi_word(chain: *mut Chain, slot: u32, word: u32) -> u64;
    fn esdi_packs(file: *const u8, length: usize) -> u64;
    fn esdi_pack_at(pack: *mut Pack, file: *const u8, length: usize, slot: u32) -> u64;
    fn esdi_lay(part: *mut u8, length: usize, profile: *const Profile) -> u32;
    fn limit_sound(chain: *const Chain) -> i32;
}

/// The plain check of host/limit.c.
pub fn limit(chain: &Chain) -> bool {
    unsafe { limit_sound(chain) != 0 }
}

/// The empty chain.
pub fn empty() -> Chain {
    unsafe { std::mem::zeroed() }
}

/// The answer's number and the place.
pub fn fit(chain: &mut Chain, file: &[u8]) -> (u8, usize) {
    let code = unsafe { esdi_fit(chain, file.as_ptr(), file.len()) };
    (code as u8, (code >> 32) as usize)
}

/// The answer's number and its value.
pub fn event(chain: &mut Chain, file: &mut [u8], kind: u32, a: u32, b: u32) -> (u8, u8) {
    let code = unsafe { esdi_event(chain, file.as_mut_ptr(), file.len(), kind, a, b) };
    (code as u8, (code >> 8) as u8)
}

/// The answer's number, and how many events there are or the place of the bad sample.
pub fn capture(chain: &mut Chain, file: &mut [u8], capture: &[u8], answers: &mut [u8]) -> (u8, u64) {
    let code = unsafe {
        esdi_capture(chain, file.as_mut_ptr(), file.len(), capture.as_ptr(), capture.len(), answers.as_mut_ptr(), answers.len())
    };
    (code as u8, code >> 8)
}

/// The same of a capture that isn't run.
pub fn capture_count(chain: &Chain, capture: &[u8]) -> (u8, u64) {
    let code = unsafe { esdi_capture_count(chain, capture.as_ptr(), capture.len()) };
    (code as u8, code >> 8)
}

/// The answer's number and the sum of the lines.
pub fn lines(chain: &Chain) -> (u8, u8) {
    let code = unsafe { esdi_lines(chain) };
    (code as u8, (code >> 8) as u8)
}

/// The answer's number, and the response if there is one.
pub fn word(chain: &mut Chain, slot: u32, word: u32) -> (u8, Option<u32>) {
    let code = unsafe { esdi_word(chain, slot, word) };
    (code as u8, if code >> 8 & 1 == 1 { Some((code >> 32) as u32) } else { None })
}

/// The answer's number, how many packs, and the place.
pub fn packs(file: &[u8]) -> (u8, usize, usize) {
    let code = unsafe { esdi_packs(file.as_ptr(), file.len()) };
    (code as u8, (code >> 8 & 255) as usize, (code >> 32) as usize)
}

/// A pack whose every bit is one.
pub fn full_pack() -> Pack {
    unsafe { std::mem::transmute([0xFFu8; std::mem::size_of::<Pack>()]) }
}

/// The answer's number, the place, and the pack put into a full one.
pub fn pack_at(file: &[u8], slot: u32) -> (u8, usize, Pack) {
    let mut pack = full_pack();
    let code = unsafe { esdi_pack_at(&mut pack, file.as_ptr(), file.len(), slot) };
    (code as u8, (code >> 32) as usize, pack)
}

pub fn lay(profile: &Profile, part: &mut [u8]) -> u8 {
    unsafe { esdi_lay(part.as_mut_ptr(), part.len(), profile) as u8 }
}

pub fn profile_of(p: &twin::Profile) -> Profile {
    Profile {
        slot: p.slot,
        vendor: p.vendor,
        general: p.general,
        gap: p.gap,
        sync: p.sync,
        protected: p.protected as u16,
        shape: Shape { cylinders: p.cylinders, heads: p.heads as u16, track: p.track, sector: p.sector },
        times: Times {
            settle: p.settle,
            step: p.step as u32,
            switch: p.switch as u32,
            recalibrate: p.recalibrate,
            start: p.start,
            diagnostic: p.diagnostic,
            offset: p.offset as u32,
        },
    }
}

fn state_of(d: &twin::Drive) -> State {
    State {
        body: Body {
            timers: Timers { busy: d.busy, head: d.head_timer },
            arm: Arm {
                cylinder: d.cylinder,
                offset: match d.offset {
                    1 => 1,
                    -1 => 2,
                    _ => 0,
                },
                lost: d.lost as u8,
            },
            latched: d.latched,
            sector: d.sector,
            head: d.head,
            motor: match d.motor {
                twin::Motor::Stopped => 0,
                twin::Motor::Starting => 1,
                twin::Motor::Up => 2,
            },
            reading: d.reading as u8,
            writing: d.writing as u8,
            standing: d.standing as u32,
        },
        transfer: Transfer {
            waiting: d.waiting,
            bits: d.bits,
            response: d.response,
            way: match d.transfer {
                twin::Transfer::None => 0,
                twin::Transfer::Taking => 1,
                twin::Transfer::Responding => 2,
            },
            count: d.count as u16,
            acknowledge: d.acknowledge as u8,
        },
    }
}

/// The record that stands for the twin's chain.
pub fn record_of(c: &twin::Chain) -> Chain {
    let mut r: Chain = unsafe { std::mem::zeroed() };
    for (i, slot) in c.drives.iter().enumerate() {
        if let Some(d) = slot {
            r.packs[i].fitted = 1;
            r.packs[i].place = d.place as u32;
            r.packs[i].profile = profile_of(&d.profile);
            r.states[i] = state_of(d);
        }
    }
    r.lines = Lines {
        select: c.select,
        heads: c.head_lines,
        writegate: c.write_gate as u16,
        readgate: c.read_gate as u16,
        command: c.command_data as u8,
        request: c.request as u8,
    };
    r.length = c.length as u32;
    r
}

/// The record's line levels in a capture's order, numbers that stand for no level too.
pub fn levels_of(r: &Chain) -> twin::Levels {
    let l = &r.lines;
    [l.select as u32, l.heads as u32, l.readgate as u32, l.writegate as u32, l.command as u32, l.request as u32]
}

fn flag(n: impl Into<u32>) -> Option<bool> {
    match n.into() {
        0 => Some(false),
        1 => Some(true),
        _ => None,
    }
}

fn drive_of(p: &Pack, s: &State) -> Option<twin::Drive> {
    let (f, t) = (&p.profile, &p.profile.times);
    let (b, w) = (&s.body, &s.transfer);
    Some(twin::Drive {
        profile: twin::Profile {
            slot: f.slot,
            general: f.general,
            cylinders: f.shape.cylinders,
            heads: u8::try_from(f.shape.heads).ok()?,
            vendor: f.vendor,
            track: f.shape.track,
            sector: f.shape.sector,
            gap: f.gap,
            sync: f.sync,
            protected: u8::try_from(f.protected).ok()?,
            settle: t.settle,
            step: u16::try_from(t.step).ok()?,
            switch: u16::try_from(t.switch).ok()?,
            recalibrate: t.recalibrate,
            start: t.start,
            diagnostic: t.diagnostic,
            offset: u16::try_from(t.offset).ok()?,
        },
        place: p.place as usize,
        motor: match b.motor {
            0 => twin::Motor::Stopped,
            1 => twin::Motor::Starting,
            2 => twin::Motor::Up,
            _ => return None,
        },
        cylinder: b.arm.cylinder,
        offset: match b.arm.offset {
            0 => 0,
            1 => 1,
            2 => -1,
            _ => return None,
        },
        head: b.head,
        busy: b.timers.busy,
        head_timer: b.timers.head,
        latched: b.latched,
        lost: flag(b.arm.lost)?,
        sector: b.sector,
        reading: flag(b.reading)?,
        writing: flag(b.writing)?,
        standing: flag(b.standing)?,
        transfer: match w.way {
            0 => twin::Transfer::None,
            1 => twin::Transfer::Taking,
            2 => twin::Transfer::Responding,
            _ => return None,
        },
        count: u8::try_from(w.count).ok()?,
        bits: w.bits,
        response: w.response,
        waiting: w.waiting,
        acknowledge: flag(w.acknowledge)?,
    })
}

/// The twin's chain of a record; none where a number stands for nothing, which is out of its limit.
pub fn chain_of(r: &Chain) -> Option<twin::Chain> {
    let mut drives = [None; 7];
    for i in 0..7 {
        if flag(r.packs[i].fitted)? {
            drives[i] = Some(drive_of(&r.packs[i], &r.states[i])?);
        }
    }
    Some(twin::Chain {
        drives,
        select: r.lines.select,
        head_lines: r.lines.heads,
        write_gate: flag(r.lines.writegate)?,
        read_gate: flag(r.lines.readgate)?,
        command_data: flag(r.lines.command)?,
        request: flag(r.lines.request)?,
        length: r.length as usize,
    })
}
