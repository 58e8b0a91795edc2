//! The proved incremental reduce of Daniskol, called from Rust.
//!
//! A [`Tactic`] owns the memory of a call once, keeps the pending list between calls as the crate's tactic does, and hands back tiles,
//! corrections and the next frontier. What it calls is proved: every input ends with a status, the corrections make the output right at every
//! time short of `upper`, and a pending time stays listed until its call comes.
//!
//! ```
//! use daniskol::{Mode, Run, Tactic, Time};
//!
//! let mut tactic = Tactic::new(Mode::Count, 1);
//! // One sheet at (0,1) and one at (1,0): they meet at (1,1).
//! let new = Run { keys: &[7, 7], values: &[1, 1], times: &[Time::new(0, 1).packed(), Time::new(1, 0).packed()], diffs: &[1, 1] };
//! let start = [Time::new(0, 0)];
//! let answer = tactic.retire(Run::EMPTY, new, Run::EMPTY, &start, &[], &start).unwrap();
//! assert_eq!(answer.crossings, 3);
//! assert_eq!(answer.fixes.len(), 4);
//! assert_eq!(answer.fixes[2].time, Time::new(1, 1));
//! ```
//!
//! [`answer`] is the line program's job as a function: lines of a request in, lines of the reply out.
//!
//! # Where a hall calls it
//!
//! `ReduceTactic::retire` of `differential_dataflow::operators::reduce` is the seam. An implementation reads its batches' cursors into three runs
//! of columns, sorted by (key, value, time), calls [`Tactic::retire`] with `lower`, `upper` and `held`, and builds one output batch per
//! [`Tile`] from the corrections that name it, shipped at the tile's held time; the frontier is the antichain to hold.

mod ffi;

use std::fmt;

/// A time (hour, round), packed as one number for the columns.
#[derive(Clone, Copy, Debug, PartialEq, Eq, PartialOrd, Ord, Hash)]
pub struct Time {
    pub hour: u32,
    pub round: u32,
}

impl Time {
    pub const fn new(hour: u32, round: u32) -> Time {
        Time { hour, round }
    }

    pub const fn packed(self) -> u64 {
        (self.hour as u64) << 32 | self.round as u64
    }

    pub const fn unpacked(n: u64) -> Time {
        Time { hour: (n >> 32) as u32, round: n as u32 }
    }
}

/// What is wanted of a key: how many sheets in all, or which.
#[derive(Clone, Copy, Debug, PartialEq, Eq)]
pub enum Mode {
    Count,
    Distinct,
}

/// A run of records as four columns, strictly ascending by (key, value, time). Times are packed.
#[derive(Clone, Copy, Debug)]
pub struct Run<'a> {
    pub keys: &'a [u64],
    pub values: &'a [u64],
    pub times: &'a [u64],
    pub diffs: &'a [i64],
}

impl Run<'_> {
    pub const EMPTY: Run<'static> = Run { keys: &[], values: &[], times: &[], diffs: &[] };
}

/// A part of the interval from lower to upper, shipped at a held time.
#[derive(Clone, Debug, PartialEq, Eq)]
pub struct Tile {
    pub lower: Vec<Time>,
    pub upper: Vec<Time>,
    pub held: Time,
}

/// A correction of the output; `tile` is the place of its tile.
#[derive(Clone, Copy, Debug, PartialEq, Eq)]
pub struct Fix {
    pub tile: usize,
    pub key: u64,
    pub value: u64,
    pub time: Time,
    pub diff: i64,
}

/// The answer of a call that was accepted: it worked, or it was quiet, or nothing had changed.
#[derive(Clone, Debug, PartialEq, Eq)]
pub struct Answer {
    pub status: Status,
    pub crossings: u64,
    pub tiles: Vec<Tile>,
    pub fixes: Vec<Fix>,
    pub frontier: Vec<Time>,
}

#[derive(Clone, Copy, Debug, PartialEq, Eq)]
pub enum Status {
    Worked,
    Quiet,
    NothingChanged,
}

/// Why a call was refused. The pending list is as it was before.
#[derive(Clone, Copy, Debug, PartialEq, Eq)]
pub enum Refusal {
    /// 11: mode, width, unequal columns, a run or pending list over 4,096.
    Sizes,
    /// 12: lower, upper or held is no frontier.
    Frontier,
    /// 13: an upper or held time is not beyond lower.
    Below,
    /// 14: a run out of order or a diff out of range.
    Run,
    /// 15: the pending list does not ascend.
    Pending,
    /// 16: a record or a pending time on the wrong side of lower or upper.
    Place,
    /// 17: a new or pending time short of upper with no held time at or below it.
    NotHeld,
    /// 18: too many moments, joins, pended times or frontier times.
    TooMany,
    /// 19: a correction out of range, or over 4,096 of them.
    TooLarge,
}

impl fmt::Display for Refusal {
    fn fmt(&self, f: &mut fmt::Formatter<'_>) -> fmt::Result {
        f.write_str(match self {
            Refusal::Sizes => "mode, width, unequal columns or too many records (11)",
            Refusal::Frontier => "lower, upper or held is no frontier (12)",
            Refusal::Below => "an upper or held time is not beyond lower (13)",
            Refusal::Run => "a run is out of order or a diff out of range (14)",
            Refusal::Pending => "the pending list does not ascend (15)",
            Refusal::Place => "a record or a pending time is on the wrong side of lower or upper (16)",
            Refusal::NotHeld => "no held time is at or below a new or pending time (17)",
            Refusal::TooMany => "too many moments, joins, pended times or frontier times (18)",
            Refusal::TooLarge => "a correction is out of range, or there are too many (19)",
        })
    }
}

impl std::error::Error for Refusal {}

/// What the line program prints for the bytes of a request, whatever they are. All memory of its call is local, so it runs on a stack of its own.
pub fn answer(request: &[u8]) -> Vec<u8> {
    const STACK: usize = 4 << 20;
    let printed = || {
        // The text is as long as the longest reply; both pointers are live slices' with their lengths.
        let mut text = vec![0; unsafe { ffi::daniskol_text_size() }];
        let n = unsafe { ffi::daniskol_answer(request.as_ptr(), request.len(), text.as_mut_ptr(), text.len()) };
        text.truncate(n);
        text
    };
    std::thread::scope(|s| {
        let call = std::thread::Builder::new().stack_size(STACK).spawn_scoped(s, printed);
        call.expect("a thread for the call").join().expect("the call does not panic")
    })
}

// Result memory: where each column starts (document: "Result memory holds …").
const COLUMN: usize = 4096;
const TILES: usize = 6 * COLUMN;
const BOUND: usize = 31;
const TILE: usize = 2 * (BOUND + 1) + 1;
const FRONTIER: usize = TILES + 16 * TILE;

/// The memory of a call, and the pending list between calls.
pub struct Tactic {
    mode: Mode,
    width: u64,
    pending_keys: Vec<u64>,
    pending_times: Vec<u64>,
    numbers: Box<[u64]>,
    diffs: Box<[i64]>,
    moments: Box<[u64]>,
    columns: [Box<[u64]>; 5],
    column_diffs: [Box<[i64]>; 2],
}

fn zeros<T: Clone + Default>(n: usize) -> Box<[T]> {
    vec![T::default(); n].into_boxed_slice()
}

// Times, packed: in place where they are as few as a frontier may have.
struct Packed {
    few: [u64; 16],
    many: Vec<u64>,
    len: usize,
}

impl Packed {
    fn new(ts: &[Time]) -> Packed {
        let mut p = Packed { few: [0; 16], many: Vec::new(), len: ts.len() };
        if ts.len() <= p.few.len() {
            for (slot, t) in p.few.iter_mut().zip(ts) {
                *slot = t.packed();
            }
        } else {
            p.many = ts.iter().map(|t| t.packed()).collect();
        }
        p
    }
}

impl std::ops::Deref for Packed {
    type Target = [u64];

    fn deref(&self) -> &[u64] {
        if self.many.is_empty() { &self.few[..self.len] } else { &self.many }
    }
}

fn unpacked(ts: &[u64]) -> Vec<Time> {
    ts.iter().map(|&t| Time::unpacked(t)).collect()
}

impl Tactic {
    /// A tactic with no pending times. `width` keys, 1 to 64, cross to the backend together.
    pub fn new(mode: Mode, width: u64) -> Tactic {
        // The sizes are constants of the library.
        let (numbers, diffs, moments, column) =
            unsafe { (ffi::daniskol_numbers_size(), ffi::daniskol_diffs_size(), ffi::daniskol_moments_size(), ffi::daniskol_column_size()) };
        Tactic {
            mode,
            width,
            pending_keys: Vec::new(),
            pending_times: Vec::new(),
            numbers: zeros(numbers),
            diffs: zeros(diffs),
            moments: zeros(moments),
            columns: std::array::from_fn(|_| zeros(column)),
            column_diffs: std::array::from_fn(|_| zeros(column)),
        }
    }

    /// The pending list: (key, time), ascending.
    pub fn pending(&self) -> impl Iterator<Item = (u64, Time)> + '_ {
        self.pending_keys.iter().copied().zip(self.pending_times.iter().map(|&t| Time::unpacked(t)))
    }

    /// Takes up a pending list, ascending, as that of an earlier run of calls.
    pub fn set_pending(&mut self, list: impl IntoIterator<Item = (u64, Time)>) {
        self.pending_keys.clear();
        self.pending_times.clear();
        for (key, time) in list {
            self.pending_keys.push(key);
            self.pending_times.push(time.packed());
        }
    }

    /// Retires the interval from `lower` to `upper`. `old` and `out` are short of `lower`; `new` lies between.
    ///
    /// A refused call changes nothing: the pending list is that of the last accepted one.
    pub fn retire(&mut self, old: Run<'_>, new: Run<'_>, out: Run<'_>, lower: &[Time], upper: &[Time], held: &[Time]) -> Result<Answer, Refusal> {
        let (lower, upper, held) = (Packed::new(lower), Packed::new(upper), Packed::new(held));
        let mode = match self.mode {
            Mode::Count => 1,
            Mode::Distinct => 2,
        };
        let mut counts = [0u64; 6];
        // A call clears the work memory that it is lent: of what self owns it is lent as much as it needs. The rest is zero and stays so.
        let (m, n) = unsafe {
            (
                ffi::daniskol_moments_needed(self.width, old.keys.len(), new.keys.as_ptr(), new.keys.len(), self.pending_keys.as_ptr(), self.pending_keys.len()),
                ffi::daniskol_column_needed(old.keys.len(), new.keys.len()),
            )
        };
        let moments = &mut self.moments[..m];
        let [tk, tv, tt, uv, ut] = self.columns.each_mut().map(|c| &mut c[..n]);
        let [td, ud] = self.column_diffs.each_mut().map(|c| &mut c[..n]);
        // Each pointer is a live slice's with its length; what is lent mutably is owned by self and lent once.
        let status = unsafe {
            ffi::daniskol_retire(
                mode,
                self.width,
                lower.as_ptr(), lower.len(),
                upper.as_ptr(), upper.len(),
                held.as_ptr(), held.len(),
                old.keys.as_ptr(), old.keys.len(),
                old.values.as_ptr(), old.values.len(),
                old.times.as_ptr(), old.times.len(),
                old.diffs.as_ptr(), old.diffs.len(),
                new.keys.as_ptr(), new.keys.len(),
                new.values.as_ptr(), new.values.len(),
                new.times.as_ptr(), new.times.len(),
                new.diffs.as_ptr(), new.diffs.len(),
                out.keys.as_ptr(), out.keys.len(),
                out.values.as_ptr(), out.values.len(),
                out.times.as_ptr(), out.times.len(),
                out.diffs.as_ptr(), out.diffs.len(),
                self.pending_keys.as_ptr(), self.pending_keys.len(),
                self.pending_times.as_ptr(), self.pending_times.len(),
                counts.as_mut_ptr(), counts.len(),
                self.numbers.as_mut_ptr(), self.numbers.len(),
                self.diffs.as_mut_ptr(), self.diffs.len(),
                moments.as_mut_ptr(), moments.len(),
                tk.as_mut_ptr(), tk.len(),
                tv.as_mut_ptr(), tv.len(),
                tt.as_mut_ptr(), tt.len(),
                uv.as_mut_ptr(), uv.len(),
                ut.as_mut_ptr(), ut.len(),
                td.as_mut_ptr(), td.len(),
                ud.as_mut_ptr(), ud.len(),
            )
        };
        let status = match status {
            0 => Status::Worked,
            1 => Status::Quiet,
            2 => Status::NothingChanged,
            11 => return Err(Refusal::Sizes),
            12 => return Err(Refusal::Frontier),
            13 => return Err(Refusal::Below),
            14 => return Err(Refusal::Run),
            15 => return Err(Refusal::Pending),
            16 => return Err(Refusal::Place),
            17 => return Err(Refusal::NotHeld),
            18 => return Err(Refusal::TooMany),
            19 => return Err(Refusal::TooLarge),
            n => unreachable!("{n} is no status of the table"),
        };
        let [_, crossings, tiles, fixes, pending, frontier] = counts.map(|n| n as usize);
        self.keep(pending);
        Ok(Answer {
            status,
            crossings: crossings as u64,
            tiles: (0..tiles).map(|i| self.tile(i)).collect(),
            fixes: (0..fixes).map(|i| self.fix(i)).collect(),
            frontier: unpacked(&self.numbers[FRONTIER..FRONTIER + frontier]),
        })
    }

    // The next pending list takes the place of the old one.
    fn keep(&mut self, n: usize) {
        self.pending_keys.clear();
        self.pending_keys.extend_from_slice(&self.numbers[4 * COLUMN..4 * COLUMN + n]);
        self.pending_times.clear();
        self.pending_times.extend_from_slice(&self.numbers[5 * COLUMN..5 * COLUMN + n]);
    }

    fn fix(&self, i: usize) -> Fix {
        Fix {
            tile: self.numbers[i] as usize,
            key: self.numbers[COLUMN + i],
            value: self.numbers[2 * COLUMN + i],
            time: Time::unpacked(self.numbers[3 * COLUMN + i]),
            diff: self.diffs[i],
        }
    }

    fn tile(&self, i: usize) -> Tile {
        let t = &self.numbers[TILES + i * TILE..TILES + (i + 1) * TILE];
        let bound = |at: usize| unpacked(&t[at + 1..at + 1 + t[at] as usize]);
        Tile { lower: bound(0), upper: bound(BOUND + 1), held: Time::unpacked(t[TILE - 1]) }
    }
}
