//! The gaps of all records: the archive's call, and a plain Rust implementation beside it.

use std::hint::black_box;

use crate::archive::{c, given, lent, narrow};
use crate::compare::Seen;
use crate::generate::{measured, sample_case, Order, Random};
use crate::reference::{check, gap, number_and_time, Sample, MOST_SENT, OUTPUT_SHORT};
use crate::time::{calls, measure, row};

// The library's call.

fn by_library(file: &[u8], gaps: &mut [u32]) -> u32 {
    let ((f, octets), (g, places)) = (given(file), lent(gaps));
    narrow(unsafe { c::krakobran_gaps(f, octets, g, places) })
}

// The reference.

/// A jump: its record, number and position, and the position of the first reordered packet that has it as its own, 0 for none.
struct Jump {
    record: usize,
    number: u32,
    position: u32,
    discoverer: u32,
}

/// Fills a list that is zeroed: the jumps in order, then the gap of each over its neighbour before, if that was discovered earlier.
pub fn fill(sample: &Sample, gaps: &mut [u32]) {
    let mut seen = [false; MOST_SENT + 1];
    let mut jumps: Vec<Jump> = Vec::new();
    let (mut next_expected, mut position) = (1, 0);
    for (record, arrival) in sample.arrivals.iter().enumerate() {
        let number = number_and_time(arrival).0;
        if std::mem::replace(&mut seen[number as usize], true) {
            continue;
        }
        position += 1;
        if number < next_expected {
            let own = jumps.partition_point(|jump| jump.number < number);
            if jumps[own].discoverer == 0 {
                jumps[own].discoverer = position;
            }
            continue;
        }
        if number > next_expected {
            jumps.push(Jump { record, number, position, discoverer: 0 });
        }
        next_expected = number + 1;
    }
    let mut before: Option<&Jump> = None;
    for jump in jumps.iter().filter(|jump| jump.discoverer > 0) {
        if let Some(before) = before.filter(|before| before.discoverer < jump.discoverer) {
            gaps[jump.record] = jump.position - before.position;
        }
        before = Some(jump);
    }
}

fn by_reference(file: &[u8], gaps: &mut [u32]) -> u32 {
    let sample = match check(file) {
        Ok(sample) => sample,
        Err(refusal) => return refusal,
    };
    let Some(gaps) = gaps.get_mut(..sample.arrivals.len()) else {
        return OUTPUT_SHORT;
    };
    gaps.fill(0);
    fill(&sample, gaps);
    0
}

// The comparison.

/// The library against the reference on samples made from a seed, with more and less room than they need, and some records
/// against the call for one record.
pub fn compare(seed: u64, samples: u64, seen: &mut Seen) -> Result<(), String> {
    for index in 0..samples {
        let random = &mut Random::new(seed ^ 0x67_6170, index);
        let case = sample_case(seed, index);
        let needed = check(&case.file).map_or(5, |sample| sample.arrivals.len());
        let room = if random.once_in(8) { random.below(needed + 1) } else { needed + random.below(4) };
        let mut left = vec![0xA7A7_A7A7; room];
        let mut right = left.clone();
        let a = by_library(&case.file, &mut left);
        let b = by_reference(&case.file, &mut right);
        seen.call("gaps", a);
        if (a, &left) != (b, &right) {
            let at = left.iter().zip(&right).position(|(l, r)| l != r);
            return Err(format!("gaps of sample {index} of seed {seed}: left {a}, right {b}, first difference at {at:?}\n"));
        }
        for &record in case.records.iter().filter(|_| a == 0) {
            let single = gap(&case.file, record);
            if single.refusal == 0 && left[record as usize - 1] != single.gap.unwrap_or(0) {
                return Err(format!("gap of record {record} of sample {index} of seed {seed}: alone {single:?}\n"));
            }
        }
    }
    Ok(())
}

// The measurement.

/// Nanoseconds of a call.
pub fn time(orders: &[Order], amounts: &[usize]) {
    println!("{:30} {:>5} {:>11} {:>11} {:>6}", "gaps of all records", "A", "library", "reference", "ratio");
    for &order in orders {
        for &many in amounts {
            let file = measured(order, many).file();
            let f = &file[..];
            let mut lists = [(); 2].map(|()| vec![0; many]);
            let [l, r] = lists.each_mut();
            let all = measure([calls(|| by_library(black_box(f), l)), calls(|| by_reference(black_box(f), r))]);
            row(&format!("{order:?}"), many, all);
        }
    }
}
