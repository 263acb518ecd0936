//! A meter of two streams: the archive's calls, a plain Rust implementation of the same papers over the same struct beside
//! them, lists of calls and states to compare the two on, and what a step costs.

use std::hint::black_box;
use std::ops::Range;

use crate::archive::{c, narrow, stepped, to_archive};
use crate::compare::Seen;
use crate::generate::{clock_step, number_outside, state_case, Random};
use crate::reference::{Answered, LateTime, Step, MOST_BACK, NUMBER, RECEIVER_FULL, RECEIVER_UNFIT, SENT_COUNT, TIME};
use crate::time::{calls, measure, name, steps, KINDS};

const NO_STREAM: u32 = 16;
const PLACES: usize = 64;
const MOST_KEPT: u32 = 48;
const PACKETS: u32 = 4096;

// The reference.

fn refused(refusal: u32) -> Answered {
    Answered { refusal, answer: Step::InOrder { jump: 0 } }
}

/// A stream for K packets that nothing has arrived on.
fn fresh(sent: u32) -> c::StreamState {
    let stream = c::Stream {
        sent,
        arrived: 0,
        duplicates: 0,
        inorder: 0,
        next: 1,
        kept: 0,
        greatest: 0,
        runs: c::Runs { closed: 0, squares: 0, current: 0 },
        dropped: 0,
    };
    c::StreamState { stream, marks: [0; PLACES] }
}

fn new() -> c::Meter {
    let places = c::Places { positions: [0; PLACES], numbers: [0; PLACES], times: [0; PLACES] };
    c::Meter { first: fresh(1), second: fresh(1), places }
}

/// The places of a stream that keeps so many jumps: those of stream 2 are the last, the oldest at the end.
fn range(second: bool, kept: u32) -> Range<usize> {
    if second {
        PLACES - kept as usize..PLACES
    } else {
        0..kept as usize
    }
}

fn stream_unfit(s: &c::Stream, second: bool, p: &c::Places) -> bool {
    let (k, l) = (s.sent, s.arrived);
    if !(1..=PACKETS).contains(&k) || l > k || s.duplicates > PACKETS - l || s.inorder > l || s.kept > MOST_KEPT {
        return true;
    }
    let runs = &s.runs;
    let own = range(second, s.kept);
    let outside = |values: &[u16], most: u16| values.iter().fold(false, |bad, v| bad | (v.wrapping_sub(1) >= most));
    runs.current > s.inorder
        || runs.closed > l
        || runs.squares > PACKETS * PACKETS
        || s.next < 1
        || s.next > k + 1
        || s.dropped > k
        || outside(&p.positions[own.clone()], l as u16)
        || outside(&p.numbers[own.clone()], k as u16)
        || p.times[own].iter().fold(false, |bad, &t| bad | (t > s.greatest))
}

fn unfit(m: &c::Meter) -> bool {
    let (first, second) = (&m.first.stream, &m.second.stream);
    stream_unfit(first, false, &m.places)
        || stream_unfit(second, true, &m.places)
        || (first.kept + second.kept) as usize > PLACES
}

/// A stream started afresh; the refusal.
#[inline(never)]
fn start(m: &mut c::Meter, stream: u32, sent: u32) -> u32 {
    if !(1..=2).contains(&stream) {
        return NO_STREAM;
    }
    if unfit(m) {
        return RECEIVER_UNFIT;
    }
    if !(1..=PACKETS).contains(&sent) {
        return SENT_COUNT;
    }
    *(if stream == 1 { &mut m.first } else { &mut m.second }) = fresh(sent);
    0
}

/// A new jump: in a free place, or with the stream's oldest dropped.
fn push(s: &mut c::Stream, second: bool, room: bool, p: &mut c::Places, position: u16, number: u16, time: u64) {
    if room {
        s.kept += 1;
    } else {
        let own = range(second, s.kept);
        let (oldest, from, to) = if second {
            (own.end - 1, own.start..own.end - 1, own.start + 1)
        } else {
            (own.start, own.start + 1..own.end, own.start)
        };
        s.dropped = u32::from(p.numbers[oldest]);
        p.positions.copy_within(from.clone(), to);
        p.numbers.copy_within(from.clone(), to);
        p.times.copy_within(from, to);
    }
    let own = range(second, s.kept);
    let place = if second { own.start } else { own.end - 1 };
    (p.positions[place], p.numbers[place], p.times[place]) = (position, number, time);
}

/// The places of the oldest kept jump, and of the oldest of a number above this one.
fn found(s: &c::Stream, second: bool, p: &c::Places, number: u16) -> Option<(usize, usize)> {
    let own = range(second, s.kept);
    let mut numbers = p.numbers[own.clone()].iter();
    if second {
        numbers.rposition(|&n| n > number).map(|place| (own.end - 1, own.start + place))
    } else {
        numbers.position(|&n| n > number).map(|place| (0, place))
    }
}

/// All refusals are judged before the first write.
#[inline(never)]
fn step(m: &mut c::Meter, stream: u32, number: u32, time: u64) -> Answered {
    if !(1..=2).contains(&stream) {
        return refused(NO_STREAM);
    }
    if unfit(m) {
        return refused(RECEIVER_UNFIT);
    }
    let kept = m.first.stream.kept + m.second.stream.kept;
    let second = stream == 2;
    let own = if second { &mut m.second } else { &mut m.first };
    let (s, p) = (&mut own.stream, &mut m.places);
    if s.arrived + s.duplicates == PACKETS {
        return refused(RECEIVER_FULL);
    }
    if number < 1 || number > s.sent {
        return refused(NUMBER);
    }
    if s.greatest.saturating_sub(time) > MOST_BACK {
        return refused(TIME);
    }
    let bit = number as usize - 1;
    let position = s.arrived + 1;
    let answer = if own.marks[bit / 64] >> (bit % 64) & 1 == 1 {
        s.duplicates += 1;
        Step::Duplicate
    } else if number >= s.next {
        let jump = number - s.next;
        if jump > 0 {
            let room = s.kept < MOST_KEPT && (kept as usize) < PLACES;
            push(s, second, room, p, position as u16, number as u16, time);
        }
        s.inorder += 1;
        s.runs.current += 1;
        s.next = number + 1;
        Step::InOrder { jump }
    } else {
        let Some((oldest, above)) = found(s, second, p, number as u16) else {
            return refused(RECEIVER_UNFIT);
        };
        let beyond = number < s.dropped;
        let place = if beyond { oldest } else { above };
        let extent = position - u32::from(p.positions[place]);
        let late_time = LateTime::since(p.times[place], time);
        s.runs.closed += 1;
        s.runs.squares += s.runs.current * s.runs.current;
        s.runs.current = 0;
        if beyond {
            Step::Beyond { extent, late_time }
        } else {
            Step::Exact { extent, late_time }
        }
    };
    if answer != Step::Duplicate {
        own.marks[bit / 64] |= 1 << (bit % 64);
        s.arrived = position;
    }
    s.greatest = s.greatest.max(time);
    Answered { refusal: 0, answer }
}

// The calls that are compared.

#[derive(Clone, Copy, Debug)]
enum Call {
    Start { stream: u32, sent: u32 },
    Step { stream: u32, number: u32, time: u64 },
}

/// 1 or 2, and now and then a number that no stream has.
fn stream_number(random: &mut Random, first: usize) -> u32 {
    if random.once_in(40) {
        return random.pick(&[0, 3, 4, u32::MAX]);
    }
    if random.below(8) < first {
        1
    } else {
        2
    }
}

/// A call that is of interest to a meter; streams jump with this chance in eight, and stream 1 is named with that one.
fn call(random: &mut Random, m: &c::Meter, jumps: usize, first: usize, starts: usize) -> Call {
    let stream = stream_number(random, first);
    if random.once_in(starts) {
        let sent = match random.below(6) {
            0 => random.pick(&[0, 4097, u32::MAX]),
            1 => random.between(1, 300) as u32,
            _ => PACKETS,
        };
        return Call::Start { stream, sent };
    }
    let s = if stream == 2 { &m.second.stream } else { &m.first.stream };
    let k = s.sent.clamp(1, PACKETS);
    let next = s.next.clamp(1, PACKETS + 1);
    let number = match random.below(8) {
        n if n < jumps => next + random.between(1, 2) as u32,
        0..4 => next,
        4 => s.dropped.wrapping_add(random.below(3) as u32).wrapping_sub(1),
        5 => u32::from(random.pick(&m.places.numbers)).wrapping_sub(random.below(2) as u32),
        6 if random.once_in(8) => number_outside(random, k),
        6 => next.saturating_sub(random.between(1, 90) as u32).max(1),
        _ => random.between(1, next as usize) as u32,
    };
    let time = match random.below(40) {
        0 => s.greatest.saturating_sub(1001),
        1 => random.below(5000) as u64,
        n if n < 14 => s.greatest.saturating_sub(random.below(1001) as u64),
        n if n < 18 => s.greatest.saturating_add(clock_step(random)),
        _ => s.greatest.saturating_add(random.below(50) as u64),
    };
    Call::Step { stream, number, time }
}

/// Changes one thing of a meter, so that it is unfit in most cases; or leaves it fit, and a stream full.
fn spoil(random: &mut Random, m: &mut c::Meter) {
    let kept = [m.first.stream.kept, m.second.stream.kept];
    let second = random.once_in(2);
    let s = if second { &mut m.second.stream } else { &mut m.first.stream };
    let own = range(second, s.kept.min(MOST_KEPT));
    let place = if own.is_empty() { random.below(PLACES) } else { own.start + random.below(own.len()) };
    match random.below(16) {
        0 => s.sent = random.pick(&[0, 4097, u32::MAX]),
        1 => s.arrived = s.sent.saturating_add(1),
        2 => s.duplicates = 4097 - s.arrived,
        3 => s.inorder = s.arrived + 1,
        4 => s.runs.current = s.inorder + 1,
        5 => s.runs.closed = s.arrived + 1,
        6 => s.runs.squares = 16_777_217,
        7 => s.next = random.pick(&[0, s.sent + 2, u32::MAX]),
        8 => s.dropped = random.pick(&[s.sent + 1, u32::from(u16::MAX), s.sent + 0x1_0000, u32::MAX]),
        9 => s.kept = random.pick(&[49, 64, 65, u32::MAX]),
        10 => s.kept = PLACES as u32 + random.below(2) as u32 - kept[usize::from(!second)],
        11 => m.places.positions[place] = random.pick(&[0, s.arrived as u16 + 1, u16::MAX]),
        12 => m.places.numbers[place] = random.pick(&[0, s.sent as u16 + 1, u16::MAX]),
        13 => m.places.times[place] = random.pick(&[s.greatest.saturating_add(1), u64::MAX]),
        14 => s.duplicates = PACKETS - s.arrived,
        _ => s.next = s.sent + 1,
    }
}

/// A meter of the states of two receivers, each of which may be unfit.
fn made(random: &mut Random, seed: u64, index: u64) -> c::Meter {
    let [a, b] = [0, 1].map(|which| to_archive(&state_case(seed ^ 0x6D65_7465, 2 * index + which).receiver));
    let mut m = c::Meter {
        first: c::StreamState { stream: a.stream, marks: a.marks },
        second: c::StreamState { stream: b.stream, marks: b.marks },
        places: a.places,
    };
    let [first, second] = random.pick(&[[48, 16], [16, 48], [32, 32], [48, 15], [20, 44], [5, 5], [0, 48], [64, 64]]);
    m.first.stream.kept = m.first.stream.kept.min(first);
    if m.second.stream.kept <= 64 {
        m.second.stream.kept = m.second.stream.kept.min(second);
    }
    for i in 0..PLACES - first.min(PLACES as u32) as usize {
        let place = PLACES - 1 - i;
        m.places.positions[place] = b.places.positions[i];
        m.places.numbers[place] = b.places.numbers[i];
        m.places.times[place] = b.places.times[i];
    }
    m
}

// The comparison.

/// The library against the reference: lists of calls from a new meter, with states spoiled in between, and calls from states
/// that are made of two receivers'.
pub fn compare(seed: u64, lists: u64, states: u64, seen: &mut Seen) -> Result<(), String> {
    let mut given = made(&mut Random::new(seed, 1), seed, 1);
    unsafe { c::krakobran_meter_new(&mut given) };
    if given != new() {
        return Err(format!("new meter\n left {given:?}\n"));
    }
    for index in 0..lists {
        let random = &mut Random::new(seed ^ 0x006D_6574_6572, index);
        list(random, given, seen).map_err(|text| format!("meter, list {index} of seed {seed}: {text}"))?;
    }
    for index in 0..states {
        let random = &mut Random::new(seed ^ 0x7374_6174, index);
        let mut m = made(random, seed, index);
        for _ in 0..3 {
            let next = call(random, &m, 2, 4, 8);
            m = one(m, next, seen).map_err(|text| format!("meter, state {index} of seed {seed}: {text}"))?;
        }
    }
    Ok(())
}

fn list(random: &mut Random, mut m: c::Meter, seen: &mut Seen) -> Result<(), String> {
    let many = if random.once_in(60) { 9000 } else { random.pick(&[20, 200, 500]) };
    let (jumps, first) = (random.below(7), random.between(1, 7));
    let starts = random.pick(&[30, 300, 3000]);
    for stream in 1..=2 {
        if !random.once_in(8) {
            m = one(m, Call::Start { stream, sent: PACKETS }, seen)?;
        }
    }
    for _ in 0..many {
        if random.once_in(20) {
            let mut odd = m;
            spoil(random, &mut odd);
            let next = call(random, &odd, jumps, first, 6);
            one(odd, next, seen)?;
        }
        let next = call(random, &m, jumps, first, starts);
        m = one(m, next, seen)?;
    }
    Ok(())
}

/// One call of the library and of the reference; the state that comes of it.
fn one(m: c::Meter, call: Call, seen: &mut Seen) -> Result<c::Meter, String> {
    let (mut lent, mut right) = (m, m);
    let (found, due) = match call {
        Call::Start { stream, sent } => {
            let refusal = narrow(unsafe { c::krakobran_meter_start(&mut lent, stream, sent) });
            seen.call("meter start", refusal);
            (refused(refusal), refused(start(&mut right, stream, sent)))
        }
        Call::Step { stream, number, time } => {
            let found = stepped(|n| unsafe { c::krakobran_meter_step(&mut lent, stream, number, time, n) });
            seen.call("meter step", found.refusal);
            let due = step(&mut right, stream, number, time);
            kinds(&m, stream, due, seen);
            (found, due)
        }
    };
    if (found, &lent) != (due, &right) || due.refusal != 0 && lent != m {
        return Err(format!("{call:?}\n left {found:?} {lent:?}\nright {due:?} {right:?}\nbefore {m:?}\n"));
    }
    Ok(lent)
}

/// Counts what is answered.
fn kinds(m: &c::Meter, stream: u32, given: Answered, seen: &mut Seen) {
    let kept = [m.first.stream.kept, m.second.stream.kept];
    let kind = match given.answer {
        _ if given.refusal == RECEIVER_UNFIT && !unfit(m) => "meter: no greater kept jump",
        _ if given.refusal != 0 => return,
        Step::Duplicate => "meter: duplicate",
        Step::InOrder { jump: 0 } => "meter: in order",
        Step::InOrder { .. } if kept[stream as usize - 1] == MOST_KEPT => "meter: jump, the oldest of 48 dropped",
        Step::InOrder { .. } if kept[0] + kept[1] == PLACES as u32 => "meter: jump, no place free, the oldest dropped",
        Step::InOrder { .. } => "meter: jump, in a free place",
        Step::Exact { .. } => "meter: exact",
        Step::Beyond { .. } => "meter: beyond",
    };
    seen.kind(kind);
}

// The measurement.

/// A new meter with both streams started for 4,096 packets.
fn started() -> c::Meter {
    let mut m = new();
    assert_eq!((start(&mut m, 1, PACKETS), start(&mut m, 2, PACKETS)), (0, 0));
    m
}

/// Feeds a list to both streams in turn.
fn feed(list: &[(u32, u64)], mut one: impl FnMut(u32, u32, u64)) {
    for &(number, time) in list {
        one(1, number, time);
        one(2, number, time);
    }
}

/// Nanoseconds of a step where both streams are fed the same arrivals in turn, and of a start.
pub fn time(amounts: &[usize]) {
    println!("{:22} {:>5} {:>11} {:>11} {:>6}", "meter step, each", "A", "library", "reference", "ratio");
    for kind in KINDS {
        for &many in amounts {
            let list = steps(kind, many);
            let all = measure([
                calls(|| {
                    let (mut m, mut noted) = (started(), c::Noted::LENT);
                    feed(&list, |stream, number, time| {
                        let refusal = unsafe { c::krakobran_meter_step(&mut m, stream, number, time, &mut noted) };
                        black_box((refusal, &noted));
                    });
                    m.second.stream.arrived
                }),
                calls(|| {
                    let mut m = started();
                    feed(&list, |stream, number, time| {
                        black_box(step(&mut m, stream, number, time));
                    });
                    m.second.stream.arrived
                }),
            ]);
            let [a, b] = all.map(|whole| whole / (2 * many) as f64);
            println!("{:22} {many:5} {a:11.1} {b:11.1} {:6.2}", name(kind), a / b);
        }
    }
    let mut meters = [started(); 2];
    let [a, b] = meters.each_mut();
    let [library, reference] = measure([
        calls(|| unsafe { c::krakobran_meter_start(a, 1, PACKETS) }),
        calls(|| u64::from(start(b, 1, PACKETS))),
    ]);
    println!("{:22} {:5} {library:11.1} {reference:11.1} {:6.2}", "a start", "", library / reference);
}
