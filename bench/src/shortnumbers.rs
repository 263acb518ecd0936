//! Short sequence numbers: the archive's calls for 8 and for 10 bits, and a plain Rust implementation beside them.

use std::hint::black_box;

use crate::archive::{c, fresh_state, from_archive, given, lent, narrow, stepped, to_archive};
use crate::compare::Seen;
use crate::generate::{arrival_list, measured, sample_case, state_case, Draft, Order, Random};
use crate::reference::{Answered, Receiver, LISTS_DIFFER, MOST_ARRIVALS, MOST_BACK, MOST_SENT, OUTPUT_SHORT};
use crate::reference::{ARRIVAL_COUNT, NUMBER, SENT_COUNT, TIME};
use crate::time::{calls, measure};

/// How many bits a short number has.
#[derive(Clone, Copy, PartialEq, Eq, Debug)]
pub enum Width {
    Eight,
    Ten,
}

// The library's calls.

fn list_by_library(width: Width, sent: u32, shorts: &[u16], times: &[u64], numbers: &mut [u32]) -> u32 {
    let call = match width {
        Width::Eight => c::krakobran_full_numbers_8,
        Width::Ten => c::krakobran_full_numbers_10,
    };
    let ((s, short_count), (t, time_count), (n, room)) = (given(shorts), given(times), lent(numbers));
    narrow(unsafe { call(sent, s, short_count, t, time_count, n, room) })
}

impl Width {
    /// The library's step.
    fn library(self) -> unsafe extern "C" fn(*mut c::State, u16, u64, *mut c::Noted) -> u64 {
        match self {
            Width::Eight => c::krakobran_receiver_step_8,
            Width::Ten => c::krakobran_receiver_step_10,
        }
    }
}

fn step_by_library(width: Width, receiver: &mut Receiver, short: u16, time: u64) -> Answered {
    let mut state = to_archive(receiver);
    let answered = stepped(|n| unsafe { width.library()(&mut state, short, time, n) });
    *receiver = from_archive(&state);
    answered
}

// The reference.

impl Width {
    fn range(self) -> i64 {
        match self {
            Width::Eight => 1 << 8,
            Width::Ten => 1 << 10,
        }
    }

    /// The number with those low bits that differs from the greatest by at least minus half the range and less than half; none
    /// for a short number over its width.
    pub fn full(self, greatest: i64, short: u32) -> Option<i64> {
        let (range, short) = (self.range(), i64::from(short));
        let half = range / 2;
        (short < range).then(|| greatest + (short - greatest + half).rem_euclid(range) - half)
    }
}

/// The numbers found, or the refusal that is due first.
fn numbers_of(width: Width, sent: u32, shorts: &[u16], times: &[u64]) -> Result<Vec<u32>, u32> {
    if sent == 0 || sent as usize > MOST_SENT {
        return Err(SENT_COUNT);
    }
    if shorts.len() > MOST_ARRIVALS {
        return Err(ARRIVAL_COUNT);
    }
    if shorts.len() != times.len() {
        return Err(LISTS_DIFFER);
    }
    let (mut greatest, mut latest) = (0, 0u64);
    let mut numbers = Vec::with_capacity(shorts.len());
    for (&short, &time) in shorts.iter().zip(times) {
        let number = width.full(greatest, u32::from(short)).filter(|n| (1..=i64::from(sent)).contains(n)).ok_or(NUMBER)?;
        if time < latest.saturating_sub(MOST_BACK) {
            return Err(TIME);
        }
        greatest = greatest.max(number);
        latest = latest.max(time);
        numbers.push(number as u32);
    }
    Ok(numbers)
}

fn list_by_reference(width: Width, sent: u32, shorts: &[u16], times: &[u64], out: &mut [u32]) -> u32 {
    match numbers_of(width, sent, shorts, times) {
        Err(refusal) => refusal,
        Ok(numbers) if numbers.len() > out.len() => OUTPUT_SHORT,
        Ok(numbers) => {
            out[..numbers.len()].copy_from_slice(&numbers);
            0
        }
    }
}

/// The number found by a receiver; one that is no packet's is given as 0, which no receiver takes.
fn number_by(width: Width, receiver: &Receiver, short: u16) -> u32 {
    let greatest = i64::from(receiver.next_expected) - 1;
    width.full(greatest, u32::from(short)).and_then(|n| u32::try_from(n).ok()).unwrap_or(0)
}

/// The step with the number found.
fn step_by_reference(width: Width, receiver: &mut Receiver, short: u16, time: u64) -> Answered {
    receiver.step_mut(number_by(width, receiver, short), time)
}

// The comparison.

/// The library against the reference: lists made of samples, arrivals fed to a receiver from its start, and single steps of
/// made-up states.
pub fn compare(seed: u64, samples: u64, lists: u64, states: u64, seen: &mut Seen) -> Result<(), String> {
    for index in 0..samples {
        let random = &mut Random::new(seed ^ 0x0073_686f_7274, index);
        let draft = sample_case(seed, index).draft;
        for width in [Width::Eight, Width::Ten] {
            list(random, width, &draft, seen)
                .map_err(|text| format!("short numbers of sample {index} of seed {seed}, {width:?}: {text}"))?;
        }
    }
    for index in 0..lists {
        let fed = arrival_list(seed, index);
        for width in [Width::Eight, Width::Ten] {
            let mut receiver = Receiver::fresh(fed.sent).receiver;
            for &(number, time) in &fed.arrivals {
                let short = shortened(width, number);
                receiver = step(width, &receiver, short, time, seen)
                    .map_err(|text| format!("short numbers of list {index} of seed {seed}, {width:?}: {text}"))?;
            }
        }
    }
    for index in 0..states {
        let random = &mut Random::new(seed ^ 0x7374_6570, index);
        let case = state_case(seed, index);
        let width = random.pick(&[Width::Eight, Width::Ten]);
        let near = case.receiver.next_expected.wrapping_add(random.pick(&[0, 1, 127, 128, 129, 511, 512, 513]));
        let number = random.pick(&[case.number, near]);
        let short = if random.once_in(8) { random.draw() as u16 } else { shortened(width, number) };
        step(width, &case.receiver, short, case.time, seen)
            .map_err(|text| format!("short numbers, state {index} of seed {seed}, {width:?}: {text}"))?;
    }
    Ok(())
}

/// The lowest bits of a number.
fn shortened(width: Width, number: u32) -> u16 {
    (i64::from(number) % width.range()) as u16
}

/// The short numbers of a draft's, some of them over their width, into a list with more and less room than they need.
fn list(random: &mut Random, width: Width, draft: &Draft, seen: &mut Seen) -> Result<(), String> {
    let sent = if random.once_in(30) { random.pick(&[0, 4096, 4097, u32::MAX]) } else { draft.sizes.len() as u32 };
    let mut shorts: Vec<u16> = draft.numbers.iter().map(|&number| shortened(width, number)).collect();
    if random.once_in(6) && !shorts.is_empty() {
        let at = random.below(shorts.len());
        shorts[at] = random.pick(&[width.range() as u16, width.range() as u16 - 1, u16::MAX, 0]);
    }
    let room = if random.once_in(8) { random.below(shorts.len() + 1) } else { shorts.len() + random.below(3) };
    let mut left = vec![77_777; room];
    let mut right = left.clone();
    let a = list_by_library(width, sent, &shorts, &draft.times, &mut left);
    let b = list_by_reference(width, sent, &shorts, &draft.times, &mut right);
    seen.call("full numbers", a);
    if (a, &left) != (b, &right) {
        return Err(format!(
            "K {sent} shorts {shorts:?} times {:?}\n left {a} {left:?}\nright {b} {right:?}\n",
            draft.times
        ));
    }
    if a == 0 && shorts.len() == MOST_ARRIVALS {
        seen.kind("full numbers: 4,096 arrivals");
    }
    if a == 0 && left[..shorts.len()] == draft.numbers && draft.numbers.iter().any(|&n| i64::from(n) >= width.range()) {
        seen.kind("full numbers: the true ones, over the width");
    }
    Ok(())
}

/// One step of both; the state that comes of it.
fn step(width: Width, receiver: &Receiver, short: u16, time: u64, seen: &mut Seen) -> Result<Receiver, String> {
    let (mut after, mut due) = (receiver.clone(), receiver.clone());
    let left = step_by_library(width, &mut after, short, time);
    let right = step_by_reference(width, &mut due, short, time);
    seen.call("short step", left.refusal);
    if (left, &after) != (right, &due) {
        let texts = [format!("{left:?} {after:?}"), format!("{right:?} {due:?}")];
        return Err(format!(
            "short {short} time {time}\n left {}\nright {}\nbefore {receiver:?}\n",
            texts[0], texts[1]
        ));
    }
    Ok(after)
}

// The measurement.

/// Short numbers fed to a fresh receiver for K = 4,096; its L.
fn feed_library(width: Width, shorts: &[u16], times: &[u64]) -> u32 {
    let (call, mut state, mut noted) = (width.library(), fresh_state(), c::Noted::LENT);
    for (&short, &time) in shorts.iter().zip(times) {
        let refusal = unsafe { call(&mut state, short, time, &mut noted) };
        black_box((refusal, &noted));
    }
    state.stream.arrived
}

/// The same by the reference.
fn feed_reference(width: Width, shorts: &[u16], times: &[u64]) -> u32 {
    let mut receiver = Receiver::fresh(Receiver::PACKETS as u32).receiver;
    for (&short, &time) in shorts.iter().zip(times) {
        let number = number_by(width, &receiver, short);
        black_box(receiver.step_mut(number, time));
    }
    receiver.first_arrivals
}

/// Nanoseconds of a list call and of a step, for arrivals in order: a number out of order by half the range or more would
/// not be found.
pub fn time(amounts: &[usize]) {
    println!("{:22} {:>5} {:>11} {:>11} {:>6}", "short numbers", "A", "library", "reference", "ratio");
    for width in [Width::Eight, Width::Ten] {
        for &many in amounts {
            let draft = measured(Order::InOrder, many);
            let shorts: Vec<u16> = draft.numbers.iter().map(|&number| shortened(width, number)).collect();
            let (sent, s, times) = (many as u32, &shorts[..], &draft.times[..]);
            let mut outs = [(); 2].map(|()| vec![0; many]);
            let [a, b] = outs.each_mut();
            let list = measure([
                calls(|| list_by_library(width, sent, black_box(s), times, a)),
                calls(|| list_by_reference(width, sent, black_box(s), times, b)),
            ]);
            let steps = measure([
                calls(|| feed_library(width, black_box(s), times)),
                calls(|| feed_reference(width, black_box(s), times)),
            ]);
            let each = steps.map(|sum| sum / many as f64);
            for (call, [library, reference]) in [("list", list), ("step", each)] {
                let (name, ratio) = (format!("{call}, {} bits", width.range().ilog2()), library / reference);
                println!("{name:22} {many:5} {library:11.1} {reference:11.1} {ratio:6.2}");
            }
        }
    }
}

#[cfg(test)]
mod tests {
    use super::Width;

    /// The arithmetic is the search for a number with those low bits and that distance.
    #[test]
    fn found_by_search() {
        for width in [Width::Eight, Width::Ten] {
            let range = width.range();
            for greatest in [0, 1, 127, 128, 255, 256, 500, 511, 512, 1023, 1024, 4095, 4096] {
                for short in 0..range {
                    let by_search = (greatest - range / 2..greatest + range / 2).find(|n| n.rem_euclid(range) == short);
                    assert_eq!(width.full(greatest, short as u32), by_search);
                }
                assert_eq!(width.full(greatest, range as u32), None);
            }
        }
    }
}
