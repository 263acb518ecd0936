//! The total of disorder: the archive's call, and a plain Rust implementation beside it.

use std::hint::black_box;

use crate::archive::{c, given, one_figure};
use crate::compare::Seen;
use crate::generate::{measured, sample_case, Order};
use crate::reference::{answer, check, number_and_time, Answer};
use crate::time::{calls, measure};

/// The refusal, and the total.
#[derive(Clone, Copy, PartialEq, Eq, Debug)]
struct Total {
    refusal: u32,
    total: u32,
}

// The library's call.

fn by_library(file: &[u8]) -> Total {
    let (f, octets) = given(file);
    let (refusal, total) = one_figure(|t| unsafe { c::krakobran_disorder(f, octets, t) });
    Total { refusal, total }
}

// The reference.

/// How many pairs of first arrivals came in the wrong order: of each, how many earlier ones have a greater number. A tree of
/// sums counts those below; a number above all before it needs no sum.
fn by_reference(file: &[u8]) -> Total {
    let sample = match check(file) {
        Ok(sample) => sample,
        Err(refusal) => return Total { refusal, total: 0 },
    };
    let sent = sample.sizes.len();
    let mut tree = [0u16; 4097];
    let mut seen = [false; 4097];
    let mut greatest = 0;
    let mut count = 0;
    let mut total = 0;
    for arrival in sample.arrivals {
        let number = number_and_time(arrival).0 as usize;
        if std::mem::replace(&mut seen[number], true) {
            continue;
        }
        if greatest < number {
            greatest = number;
        } else {
            let mut lower = 0;
            let mut at = number;
            while at != 0 {
                lower += u32::from(tree[at]);
                at &= at - 1;
            }
            total += count - lower;
        }
        let mut at = number;
        while at <= sent {
            tree[at] += 1;
            at += at & at.wrapping_neg();
        }
        count += 1;
    }
    Total { refusal: 0, total }
}

/// The total by the reference; 0 with a refusal.
pub fn total(file: &[u8]) -> u32 {
    by_reference(file).total
}

/// The sum of the byte offsets of a sample of which every payload size is 1.
fn offset_sum(file: &[u8]) -> Option<u32> {
    let sample = check(file).ok().filter(|sample| sample.sizes.iter().all(|&size| size == [0, 1]))?;
    let offset = |record| match answer(file, record).answer {
        Answer::Reordered { byte_offset, .. } => byte_offset,
        _ => 0,
    };
    Some((1..=sample.arrivals.len() as u32).map(offset).sum())
}

// The comparison.

/// The library against the reference on samples made from a seed. Each of at most 64 arrivals is written again with payload
/// sizes of 1, where the total is the sum of the byte offsets.
pub fn compare(seed: u64, samples: u64, seen: &mut Seen) -> Result<(), String> {
    for index in 0..samples {
        let mut case = sample_case(seed, index);
        one(&case.file, seen).map_err(|text| format!("disorder of sample {index} of seed {seed}: {text}"))?;
        if case.draft.numbers.len() <= 64 {
            case.draft.sizes.fill(1);
            let file = case.draft.file();
            let total = one(&file, seen)?;
            if let Some(sum) = offset_sum(&file) {
                seen.kind("disorder: the sum of the byte offsets");
                if total != sum {
                    return Err(format!("disorder of sample {index} of seed {seed}: {total}, byte offsets {sum}\n"));
                }
            }
        }
    }
    Ok(())
}

fn one(file: &[u8], seen: &mut Seen) -> Result<u32, String> {
    let a = by_library(file);
    let b = by_reference(file);
    seen.call("disorder", a.refusal);
    if a != b {
        return Err(format!("left {a:?}\nright {b:?}\n"));
    }
    if a.total == 4096 * 4095 / 2 {
        seen.kind("disorder: the greatest total");
    }
    Ok(a.total)
}

// The measurement.

/// Nanoseconds of a call.
pub fn time(orders: &[Order], amounts: &[usize]) {
    println!("{:22} {:>5} {:>11} {:>11} {:>6}", "disorder", "A", "library", "reference", "ratio");
    for &order in orders {
        for &many in amounts {
            let file = measured(order, many).file();
            let f = &file[..];
            let [library, reference] =
                measure([calls(|| by_library(black_box(f))), calls(|| by_reference(black_box(f)))]);
            let (name, ratio) = (format!("{order:?}"), library / reference);
            println!("{name:22} {many:5} {library:11.0} {reference:11.0} {ratio:6.2}");
        }
    }
}
