//! The receiver: one arrival at a time, the last 64 jumps kept.

use crate::reference::{MOST_BACK, NUMBER, RECEIVER_FULL, RECEIVER_UNFIT, SENT_COUNT, TIME};

/// How far one arrival is stamped after another, or before it.
#[derive(Clone, Copy, PartialEq, Eq, Debug)]
pub enum LateTime {
    After(u64),
    Before(u64),
}

impl LateTime {
    /// The time from `past` to `own`; equal times are after, by 0.
    #[inline(always)]
    pub fn since(past: u64, own: u64) -> LateTime {
        match own.checked_sub(past) {
            Some(amount) => LateTime::After(amount),
            None => LateTime::Before(past - own),
        }
    }
}

/// The last jumps in order of arrival, `kept` of them from place 0 on. Places past them are unused.
#[repr(C)]
#[derive(Clone, PartialEq, Eq, Debug)]
pub struct Jumps {
    pub times: [u64; Receiver::WINDOW],
    pub positions: [u16; Receiver::WINDOW],
    pub numbers: [u16; Receiver::WINDOW],
    pub kept: u32,
    /// The number of the last jump dropped, 0 for none.
    pub dropped: u32,
}

#[repr(C)]
#[derive(Clone, PartialEq, Eq, Debug)]
pub struct Receiver {
    /// One bit for each packet: packet s has bit (s - 1) % 64 of word (s - 1) / 64.
    pub marks: [u64; Receiver::PACKETS / 64],
    pub jumps: Jumps,
    /// The greatest time of an accepted arrival, copies among them.
    pub greatest_time: u64,
    /// K.
    pub sent: u32,
    /// L.
    pub first_arrivals: u32,
    pub duplicates: u32,
    pub in_order: u32,
    /// NextExp.
    pub next_expected: u32,
    pub open_run: u32,
    pub closed_runs: u32,
    pub squares: u32,
}

#[derive(Clone, Copy, PartialEq, Eq, Debug)]
pub enum Step {
    Duplicate,
    InOrder { jump: u32 },
    Exact { extent: u32, late_time: LateTime },
    Beyond { extent: u32, late_time: LateTime },
}

/// What a step answers; refused, it is in order with jump size 0.
#[derive(Clone, Copy, PartialEq, Eq, Debug)]
pub struct Answered {
    pub refusal: u32,
    pub answer: Step,
}

#[derive(Clone, PartialEq, Eq, Debug)]
pub struct Fresh {
    pub refusal: u32,
    pub receiver: Receiver,
}

impl Answered {
    fn refused(refusal: u32) -> Answered {
        Answered { refusal, answer: Step::InOrder { jump: 0 } }
    }

    fn accepted(answer: Step) -> Answered {
        Answered { refusal: 0, answer }
    }
}

impl Jumps {
    /// The place of the oldest kept jump of a number above `number`.
    fn oldest_above(&self, number: u16) -> Option<usize> {
        self.numbers[..self.kept as usize].iter().position(|&n| n > number)
    }

    fn push(&mut self, position: u16, number: u16, time: u64) {
        let place = if (self.kept as usize) < Receiver::WINDOW {
            self.kept += 1;
            self.kept as usize - 1
        } else {
            self.dropped = u32::from(self.numbers[0]);
            self.positions.copy_within(1.., 0);
            self.numbers.copy_within(1.., 0);
            self.times.copy_within(1.., 0);
            Receiver::WINDOW - 1
        };
        self.positions[place] = position;
        self.numbers[place] = number;
        self.times[place] = time;
    }

    /// Whether some kept jump has a position outside 1 to `last`, a number outside 1 to `sent` or a time after
    /// `greatest_time`. All kept places are looked at: without an early end the loops run several places at a time.
    fn unfit(&self, last: u16, sent: u16, greatest_time: u64) -> bool {
        let kept = self.kept as usize;
        let outside = |values: &[u16], most: u16| values.iter().fold(false, |bad, v| bad | (v.wrapping_sub(1) >= most));
        outside(&self.positions[..kept], last)
            | outside(&self.numbers[..kept], sent)
            | self.times[..kept].iter().fold(false, |bad, &t| bad | (t > greatest_time))
    }
}

impl Receiver {
    /// How many jumps are kept.
    pub const WINDOW: usize = 64;
    /// The greatest K, and how many arrivals are accepted.
    pub const PACKETS: usize = 4096;
    /// The greatest sum of squares of a fit state.
    pub const SQUARES: u32 = (Self::PACKETS * Self::PACKETS) as u32;

    const PACKETS_32: u32 = Self::PACKETS as u32;

    /// The fresh receiver for K packets; refused (4) it is the one for K = 1.
    pub fn fresh(sent: u32) -> Fresh {
        let fits = (1..=Self::PACKETS_32).contains(&sent);
        let receiver = Receiver {
            marks: [0; Self::PACKETS / 64],
            jumps: Jumps {
                times: [0; Self::WINDOW],
                positions: [0; Self::WINDOW],
                numbers: [0; Self::WINDOW],
                kept: 0,
                dropped: 0,
            },
            greatest_time: 0,
            sent: if fits { sent } else { 1 },
            first_arrivals: 0,
            duplicates: 0,
            in_order: 0,
            next_expected: 1,
            open_run: 0,
            closed_runs: 0,
            squares: 0,
        };
        Fresh { refusal: if fits { 0 } else { SENT_COUNT }, receiver }
    }

    /// Starts afresh for K packets; refused, nothing changes.
    pub fn restart(&mut self, sent: u32) -> u32 {
        let fresh = Receiver::fresh(sent);
        if fresh.refusal == 0 {
            *self = fresh.receiver;
        }
        fresh.refusal
    }

    pub fn unfit(&self) -> bool {
        let (k, l) = (self.sent, self.first_arrivals);
        !(1..=Self::PACKETS_32).contains(&k)
            || l > k
            || self.duplicates > Self::PACKETS_32 - l
            || self.in_order > l
            || self.open_run > self.in_order
            || self.closed_runs > l
            || self.squares > Self::SQUARES
            || self.next_expected < 1
            || self.next_expected > k + 1
            || self.jumps.dropped > k
            || self.jumps.kept > Self::WINDOW as u32
            || self.jumps.unfit(l as u16, k as u16, self.greatest_time)
    }

    pub fn marked(&self, number: u32) -> bool {
        let bit = number as usize - 1;
        self.marks[bit / 64] >> (bit % 64) & 1 == 1
    }

    pub fn mark(&mut self, number: u32) {
        let bit = number as usize - 1;
        self.marks[bit / 64] |= 1 << (bit % 64);
    }

    /// The step by pointer; all refusals are judged before the first write. Never inlined, as an archive's cannot be.
    #[inline(never)]
    pub fn step_mut(&mut self, number: u32, time: u64) -> Answered {
        if self.unfit() {
            return Answered::refused(RECEIVER_UNFIT);
        }
        if self.first_arrivals + self.duplicates == Self::PACKETS_32 {
            return Answered::refused(RECEIVER_FULL);
        }
        if number < 1 || number > self.sent {
            return Answered::refused(NUMBER);
        }
        if self.greatest_time.saturating_sub(time) > MOST_BACK {
            return Answered::refused(TIME);
        }
        if self.marked(number) {
            self.duplicates += 1;
            self.greatest_time = self.greatest_time.max(time);
            return Answered::accepted(Step::Duplicate);
        }
        let position = self.first_arrivals + 1;
        let answer = if number >= self.next_expected {
            let jump = number - self.next_expected;
            if jump > 0 {
                self.jumps.push(position as u16, number as u16, time);
            }
            self.in_order += 1;
            self.open_run += 1;
            self.next_expected = number + 1;
            Step::InOrder { jump }
        } else {
            let Some(place) = self.jumps.oldest_above(number as u16) else {
                return Answered::refused(RECEIVER_UNFIT);
            };
            let beyond = number < self.jumps.dropped;
            let place = if beyond { 0 } else { place };
            let extent = position - u32::from(self.jumps.positions[place]);
            let late_time = LateTime::since(self.jumps.times[place], time);
            self.closed_runs += 1;
            self.squares += self.open_run * self.open_run;
            self.open_run = 0;
            if beyond {
                Step::Beyond { extent, late_time }
            } else {
                Step::Exact { extent, late_time }
            }
        };
        self.mark(number);
        self.first_arrivals = position;
        self.greatest_time = self.greatest_time.max(time);
        Answered::accepted(answer)
    }
}
