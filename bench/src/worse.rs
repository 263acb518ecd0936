//! Of two samples the one with the greater reordered ratio: the archive's call, and a plain Rust implementation beside it.

use crate::archive::{c, given, narrow};
use crate::compare::Seen;
use crate::generate::{sample_case, Random};
use crate::reference::{check, counts};

/// The refusal, the worse sample (1 or 2), and where its label begins in it and its octets; with a refusal all of these are 0.
#[derive(Clone, Copy, PartialEq, Eq, Debug)]
struct Worse {
    refusal: u32,
    link: u32,
    start: u32,
    length: u32,
}

// The library's call.

fn by_library(first: &[u8], second: &[u8]) -> Worse {
    let ((f, first_octets), (s, second_octets)) = (given(first), given(second));
    let mut worse = c::Worse::LENT;
    let refusal = unsafe { c::krakobran_worse(f, first_octets, s, second_octets, &mut worse) };
    let c::Worse { link, start, length } = worse;
    Worse { refusal: narrow(refusal), link: narrow(link), start: narrow(start), length: narrow(length) }
}

// The reference.

/// The reordered ratio as a fraction; an undefined one counts as 0.
fn ratio(file: &[u8]) -> (u64, u64) {
    let c = counts(file);
    if c.first_arrivals == 0 {
        (0, 1)
    } else {
        (u64::from(c.reordered), u64::from(c.first_arrivals))
    }
}

fn by_reference(first: &[u8], second: &[u8]) -> Worse {
    let (one, other) = match (check(first), check(second)) {
        (Err(refusal), _) | (_, Err(refusal)) => return Worse { refusal, link: 0, start: 0, length: 0 },
        (Ok(one), Ok(other)) => (one, other),
    };
    let ((a, m), (b, n)) = (ratio(first), ratio(second));
    let (link, label) = if b * m > a * n { (2, other.label) } else { (1, one.label) };
    Worse { refusal: 0, link, start: 2, length: label.len() as u32 }
}

// The comparison.

/// The library against the reference on pairs of samples made from a seed: each with the next one, with itself, and with one of the
/// first few, so that equal ratios come.
pub fn compare(seed: u64, samples: u64, seen: &mut Seen) -> Result<(), String> {
    for index in 0..samples {
        let random = &mut Random::new(seed ^ 0x77_6f72_7365, index);
        let file = sample_case(seed, index).file;
        for other in [index, index + 1, random.below(64) as u64] {
            one(&file, &sample_case(seed, other).file, seen)
                .map_err(|text| format!("samples {index} and {other} of seed {seed}: {text}"))?;
        }
    }
    Ok(())
}

fn one(first: &[u8], second: &[u8], seen: &mut Seen) -> Result<(), String> {
    let a = by_library(first, second);
    let b = by_reference(first, second);
    seen.call("worse", a.refusal);
    if a == b {
        Ok(())
    } else {
        Err(format!("left {a:?}\nright {b:?}\n"))
    }
}
