//! Every figure of every record in one call: the archive's, and a plain Rust implementation beside it, a tree of sums and a stack.

use std::hint::black_box;

use crate::archive::{answered, c, given, lent, narrow};
use crate::compare::Seen;
use crate::generate::{measured, sample_case, Order, Random};
use crate::reference::{answer, check, each_answer, found, Answer, LateTime, Swift, OUTPUT_SHORT};
use crate::time::{calls, measure, row};

const NUMBERS: usize = 8;

// The library's call.

fn by_library(file: &[u8], rows: &mut [u64]) -> u32 {
    let ((f, octets), (r, numbers)) = (given(file), lent(rows));
    narrow(unsafe { c::krakobran_rows(f, octets, r.cast(), numbers) })
}

fn from_on(file: &[u8], from: u32, rows: &mut [u64]) -> u32 {
    let ((f, octets), (r, numbers)) = (given(file), lent(rows));
    narrow(unsafe { c::krakobran_rows_from(f, octets, from, r.cast(), numbers) })
}

// The reference.

/// Case, position, jump size, extent, late time, byte offset, largest n and first copy; 0 where a case does not have one.
#[inline(always)]
fn numbers(answer: Answer) -> [u64; NUMBERS] {
    match answer {
        Answer::Duplicate { first_record } => [3, 0, 0, 0, 0, 0, 0, u64::from(first_record)],
        Answer::InOrder { position, jump } => [0, u64::from(position), u64::from(jump), 0, 0, 0, 0, 0],
        Answer::Reordered { position, extent, late_time, byte_offset, largest_n } => {
            let (kind, late) = match late_time {
                LateTime::After(late) => (1, late),
                LateTime::Before(late) => (2, late),
            };
            let [position, extent, offset, largest] = [position, extent, byte_offset, largest_n].map(u64::from);
            [kind, position, 0, extent, late, offset, largest, 0]
        }
    }
}

fn by_reference(file: &[u8], rows: &mut [u64]) -> u32 {
    let sample = match check(file) {
        Ok(sample) => sample,
        Err(refusal) => return refusal,
    };
    if rows.len() < NUMBERS * sample.arrivals.len() {
        return OUTPUT_SHORT;
    }
    let mut rows = rows.as_chunks_mut::<NUMBERS>().0.iter_mut();
    each_answer::<Swift>(&sample, |_, _, answer| *rows.next().unwrap() = numbers(answer));
    0
}

// The comparison.

/// The library against the reference on samples made from a seed, with more and less room than they need; and the reference against
/// single answers on those records that are asked for.
pub fn compare(seed: u64, samples: u64, seen: &mut Seen) -> Result<(), String> {
    for index in 0..samples {
        let case = sample_case(seed, index);
        let random = &mut Random::new(seed ^ 0x726f_7773, index);
        one(random, &case.file, &case.records, seen)
            .map_err(|text| format!("rows of sample {index} of seed {seed}: {text}"))?;
    }
    Ok(())
}

fn one(random: &mut Random, file: &[u8], records: &[u32], seen: &mut Seen) -> Result<(), String> {
    let needed = NUMBERS * found(file).arrivals as usize;
    let room = if random.once_in(8) { random.below(needed + 1) } else { needed + random.below(20) };
    let mut left = vec![c::LENT; room];
    let mut right = left.clone();
    let a = by_library(file, &mut left);
    let b = by_reference(file, &mut right);
    seen.call("rows", a);
    if (a, &left) != (b, &right) {
        let at = left.iter().zip(&right).position(|(l, r)| l != r);
        return Err(format!("left {a}, right {b}, first difference at number {at:?} of {room}\n"));
    }
    let (from, some) = (random.below(needed / NUMBERS + 3), random.below(40));
    let mut block = vec![c::LENT; some];
    let mut due = block.clone();
    let refusal = from_on(file, from as u32, &mut block);
    seen.call("rows_from", refusal);
    let all = if a == 0 { &left[..needed] } else { &[] };
    for (place, &number) in due[..some / NUMBERS * NUMBERS].iter_mut().zip(all.iter().skip(NUMBERS * from)) {
        *place = number;
    }
    if a != OUTPUT_SHORT && (refusal, &block) != (a, &due) {
        return Err(format!("rows from {from} on: {refusal}, {block:?}, of all rows {due:?}\n"));
    }
    for &record in records.iter().filter(|_| a == 0) {
        let single = answer(file, record);
        if single.refusal != 0 {
            continue;
        }
        let place = NUMBERS * (record as usize - 1);
        let [kind, position, jump, extent, late, offset, largest, first] = left[place..place + NUMBERS] else {
            unreachable!()
        };
        let row = c::Row { kind, position, jump, extent, late, offset, largest, first };
        if answered(&row) != single.answer {
            return Err(format!("record {record}: {row:?}, alone {single:?}\n"));
        }
    }
    Ok(())
}

// The measurement.

/// Nanoseconds of a call.
pub fn time(orders: &[Order], amounts: &[usize]) {
    println!("{:30} {:>5} {:>11} {:>11} {:>6}", "rows of all records", "A", "library", "reference", "ratio");
    for &order in orders {
        for &many in amounts {
            let file = measured(order, many).file();
            let f = &file[..];
            let mut lists = [(); 2].map(|()| vec![0; NUMBERS * many]);
            let [l, r] = lists.each_mut();
            let all = measure([calls(|| by_library(black_box(f), l)), calls(|| by_reference(black_box(f), r))]);
            row(&format!("{order:?}"), many, all);
        }
    }
}
