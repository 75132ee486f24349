//! Times one job of both sides, and the clearing of the room, in turn: the least time of each.
use crate::archive::enter;
use crate::call::{Call, Lengths};
use crate::jobs::Job;
use crate::original;
use std::hint::black_box;

/// Processor time of this thread, as POSIX has it.
#[repr(C)]
#[derive(Default)]
struct Timespec {
    seconds: i64,
    nanoseconds: i64,
}

const THREAD_CLOCK: i32 = 3;

extern "C" {
    fn clock_gettime(clock: i32, time: *mut Timespec) -> i32;
}

/// In microseconds.
fn now() -> f64 {
    let mut time = Timespec::default();
    // SAFETY: it writes the time, whose layout is that of x86-64 Linux
    let failed = unsafe { clock_gettime(THREAD_CLOCK, &mut time) };
    assert_eq!(failed, 0, "no clock");
    time.seconds as f64 * 1e6 + time.nanoseconds as f64 / 1e3
}

/// What a round of one side takes at least, in microseconds, where a call takes less.
const ROUND: f64 = 4000.0;

const ROUNDS: usize = 9;

/// Fewer rounds where one call takes longer than this.
const LONG: f64 = 50_000.0;
const LONG_ROUNDS: usize = 5;

/// Where the archive is timed alone, one call makes a round if it takes longer than this.
pub const LONG_ALONE: f64 = 100_000.0;

#[derive(Clone, Copy)]
enum Side {
    Original,
    Archive,
    Clearing,
}

const SIDES: [Side; 3] = [Side::Original, Side::Archive, Side::Clearing];

/// Least times of one call, in microseconds.
#[derive(Clone, Copy)]
pub struct Times {
    pub original: f64,
    pub archive: f64,
    pub clearing: f64,
}

const LEAST_RATIO: f64 = 0.001;

impl Times {
    pub fn with_clearing(&self) -> f64 {
        self.archive / self.original
    }

    pub fn without_clearing(&self) -> f64 {
        ((self.archive - self.clearing) / self.original).max(LEAST_RATIO)
    }
}

/// Times of one call in one round without the original, in microseconds.
#[derive(Clone, Copy)]
pub struct Alone {
    pub archive: f64,
    pub clearing: f64,
}

impl Alone {
    pub fn least(self, other: Alone) -> Alone {
        Alone {
            archive: self.archive.min(other.archive),
            clearing: self.clearing.min(other.clearing),
        }
    }
}

/// The least time so far of a call of one side, of which a round has so many.
struct Least {
    side: Side,
    calls: u64,
    time: f64,
}

/// Both sides of a job, ready to be called.
struct Sides<'a> {
    original: Box<dyn FnMut() + 'a>,
    call: Call<'a>,
    out: &'a mut [u8],
    room: &'a mut [u64],
}

impl Sides<'_> {
    fn time(&mut self, side: Side, calls: u64) -> f64 {
        let from = now();
        for _ in 0..calls {
            match side {
                Side::Original => (self.original)(),
                Side::Archive => {
                    black_box(enter(black_box(&self.call), self.out, self.room));
                }
                Side::Clearing => black_box(&mut *self.room).fill(0),
            }
        }
        now() - from
    }

    /// How often to call so that a round is long enough. The first call is not counted: it meets cold caches.
    fn calls(&mut self, side: Side) -> u64 {
        self.time(side, 1);
        let mut calls = 1;
        loop {
            let time = self.time(side, calls);
            if time >= ROUND / 4.0 {
                return (calls as f64 * ROUND / time).ceil() as u64;
            }
            calls *= 2;
        }
    }

    fn start(&mut self, side: Side) -> Least {
        Least {
            side,
            calls: self.calls(side),
            time: f64::MAX,
        }
    }

    fn round(&mut self, all: &mut [Least]) {
        for least in all {
            let time = self.time(least.side, least.calls) / least.calls as f64;
            least.time = least.time.min(time);
        }
    }

    fn rounds(&mut self) -> Times {
        let mut least = SIDES.map(|side| self.start(side));
        let mut round = 0;
        while round < LONG_ROUNDS || round < ROUNDS && least[..2].iter().all(|l| l.time < LONG) {
            self.round(&mut least);
            round += 1;
        }
        let [original, archive, clearing] = least.map(|l| l.time);
        Times {
            original,
            archive,
            clearing: if self.room.is_empty() { 0.0 } else { clearing },
        }
    }

    /// One round of the archive and of clearing; of the archive one call, where that is long.
    fn alone(&mut self) -> Alone {
        let mut clearing = [self.start(Side::Clearing)];
        self.round(&mut clearing);
        let mut archive = self.time(Side::Archive, 1);
        if archive < LONG_ALONE {
            let mut least = [self.start(Side::Archive)];
            self.round(&mut least);
            archive = least[0].time;
        }
        Alone {
            archive,
            clearing: clearing[0].time,
        }
    }
}

/// What is lent to the archive, again and again.
pub struct Buffers {
    out: Vec<u8>,
    room: Vec<u64>,
}

pub const MOST_NODES: usize = 65_536;

impl Buffers {
    pub fn new() -> Buffers {
        Buffers {
            out: vec![1; 20 * MOST_NODES],
            room: vec![1; 8 * MOST_NODES],
        }
    }

    /// The least cap under which nothing is refused, of those that double from the first, or else the refusal.
    pub fn least_cap(&mut self, job: &Job, first: u64) -> Result<u64, u64> {
        let mut cap = first;
        loop {
            let lent = job.lengths(cap);
            let room = &mut self.room[..lent.room];
            let answer = enter(&job.call(cap), &mut self.out[..lent.out], room);
            if answer.refusal == 0 {
                return Ok(cap);
            }
            cap *= 2;
            if cap > MOST_NODES as u64 {
                return Err(answer.refusal);
            }
        }
    }

    /// Both sides must answer the same, with the same bytes.
    fn check(&mut self, call: &Call, lent: Lengths) {
        let room = &mut self.room[..lent.room];
        let answer = enter(call, &mut self.out[..lent.out], room);
        let wanted = original::outcome(call);
        assert_eq!(answer, wanted.answer, "the answers differ");
        let same = self.out.starts_with(&wanted.first);
        assert!(same, "the answers' bytes differ");
        assert!(room.iter().all(|n| *n == 0), "the room is not cleared");
    }

    pub fn time(&mut self, job: &Job, cap: u64) -> Times {
        let (call, lent) = (job.call(cap), job.lengths(cap));
        self.check(&call, lent);
        self.sides(call, lent, job.original()).rounds()
    }

    /// The archive's refusal; where there is none, both sides must answer the same.
    pub fn refusal(&mut self, call: &Call, lent: Lengths) -> u64 {
        let room = &mut self.room[..lent.room];
        let refusal = enter(call, &mut self.out[..lent.out], room).refusal;
        if refusal == 0 {
            self.check(call, lent);
        }
        refusal
    }

    pub fn time_alone(&mut self, call: Call, lent: Lengths) -> Alone {
        self.sides(call, lent, Box::new(|| ())).alone()
    }

    fn sides<'a>(
        &'a mut self,
        call: Call<'a>,
        lent: Lengths,
        original: Box<dyn FnMut() + 'a>,
    ) -> Sides<'a> {
        Sides {
            original,
            call,
            out: &mut self.out[..lent.out],
            room: &mut self.room[..lent.room],
        }
    }
}
