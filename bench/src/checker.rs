//! A listing checked against a sample: the archive's call, and a plain Rust implementation beside it, which goes by lines.

use std::hint::black_box;

use crate::archive::{c, given, narrow};
use crate::compare::Seen;
use crate::generate::{measured, sample_case, Order, Random};
use crate::reference::{check, listing_by, report, Swift, LISTING_ROOM};
use crate::time::{calls, measure};

/// The sample's refusal, whether the listing agrees (1 or 0), and the number of its first wrong line.
#[derive(Clone, Copy, PartialEq, Eq, Debug)]
struct Checked {
    refusal: u32,
    agrees: u32,
    line: u32,
}

// The library's call.

fn by_library(file: &[u8], listing: &[u8]) -> Checked {
    let ((f, octets), (l, listing_octets)) = (given(file), given(listing));
    let mut verdict = c::Verdict::LENT;
    let refusal = unsafe { c::krakobran_report_check(f, octets, l, listing_octets, &mut verdict) };
    Checked { refusal: narrow(refusal), agrees: narrow(verdict.agrees), line: narrow(verdict.line) }
}

// The reference.

/// The lines of a text, each with its line feed.
fn lines(text: &[u8]) -> impl Iterator<Item = &[u8]> {
    text.split_inclusive(|&octet| octet == b'\n')
}

fn by_reference(file: &[u8], expected: &[u8], listing: &[u8]) -> Checked {
    if let Err(refusal) = check(file) {
        return Checked { refusal, agrees: 0, line: 0 };
    }
    let (mut must, mut are) = (lines(expected), lines(listing));
    let mut line = 1;
    loop {
        match (must.next(), are.next()) {
            (None, None) => return Checked { refusal: 0, agrees: 1, line: 0 },
            (one, other) if one != other => return Checked { refusal: 0, agrees: 0, line },
            _ => line += 1,
        }
    }
}

// The comparison.

/// A listing with one edit at a place that is drawn.
fn edited(random: &mut Random, listing: &[u8]) -> Vec<u8> {
    let mut text = listing.to_vec();
    let at = random.below(text.len());
    let next = at + text[at..].iter().position(|&octet| octet == b'\n').map_or(text.len() - at, |n| n + 1);
    match random.below(8) {
        0 => text[at] = text[at].wrapping_add(random.between(1, 255) as u8),
        1 => drop(text.remove(at)),
        2 => text.insert(at, random.pick(b"0 -\r\n1x")),
        3 => text.truncate(at),
        4 => text.extend_from_slice(&listing[at..]),
        5 => drop(text.drain(at..next)),
        6 => drop(text.splice(next..next, listing[at..next].iter().copied())),
        _ => drop(text.pop()),
    }
    text
}

/// The library against the reference on samples made from a seed: each with its own listing, with edits of it, with none, and
/// with that of the next sample.
pub fn compare(seed: u64, samples: u64, seen: &mut Seen) -> Result<(), String> {
    for index in 0..samples {
        let random = &mut Random::new(seed ^ 0x63_6865_636b, index);
        let file = sample_case(seed, index).file;
        let own = report(&file);
        let other = report(&sample_case(seed, index + 1).file);
        let mut listings = vec![own.clone(), other, Vec::new()];
        listings.extend((0..4).map(|_| edited(random, &own)));
        for listing in &listings {
            one(&file, &own, listing, seen).map_err(|text| format!("sample {index} of seed {seed}: {text}"))?;
        }
    }
    Ok(())
}

fn one(file: &[u8], expected: &[u8], listing: &[u8], seen: &mut Seen) -> Result<(), String> {
    let a = by_library(file, listing);
    let b = by_reference(file, expected, listing);
    seen.call("check_listing", a.refusal);
    if a == b {
        Ok(())
    } else {
        Err(format!("left {a:?}\nright {b:?}\n"))
    }
}

// The measurement.

/// Prints what a check of the right listing costs; the reference makes the listing, in memory that it is lent, and compares.
pub fn time(orders: &[Order], amounts: &[usize]) {
    println!("{:22} {:>5} {:>11} {:>11} {:>6}", "check of a listing", "A", "library", "reference", "ratio");
    for &order in orders {
        for &many in amounts {
            let file = measured(order, many).file();
            let (f, right, mut out) = (&file[..], report(&file), vec![0; LISTING_ROOM]);
            let [library, reference] = measure([
                calls(|| by_library(black_box(f), black_box(&right))),
                calls(|| {
                    let length = listing_by::<Swift>(black_box(f), &mut out).length as usize;
                    by_reference(f, &out[..length], black_box(&right))
                }),
            ]);
            let name = format!("{order:?}");
            println!("{name:22} {many:5} {library:11.0} {reference:11.0} {:6.2}", library / reference);
        }
    }
}
