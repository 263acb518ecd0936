//! The sweep: the archive's call, a plain Rust implementation of the same papers beside it, and what both cost beside the
//! first engine.

use std::hint::black_box;

use crate::archive::{c, given, lent, narrow};
use crate::boundary::{Meter, LIBRARY};
use crate::compare::Seen;
use crate::generate::{measured, sample_case, Order, Random};
use crate::reference::{check, found, number_and_time, tally, LISTING_ROOM};
use crate::time::{calls, measure};

const PLACES: usize = 4096;
const ARRIVED: u16 = 4097;
const OUTPUT_SHORT: u32 = 8;

/// What is lent: the table, and the lists of flags, positions, extents and late times.
#[derive(Clone, PartialEq, Eq, Debug)]
struct Lent {
    table: Vec<u16>,
    flags: Vec<u8>,
    positions: Vec<u32>,
    extents: Vec<u32>,
    lates: Vec<u64>,
}

impl Lent {
    /// With so many places in each, which hold what no sample gives.
    fn new(table: usize, lists: [usize; 4]) -> Lent {
        Lent {
            table: vec![4242; table],
            flags: vec![99; lists[0]],
            positions: vec![77_777; lists[1]],
            extents: vec![88_888; lists[2]],
            lates: vec![u64::MAX - 5; lists[3]],
        }
    }
}

// The library's call.

/// The refusal.
fn by_library(file: &[u8], l: &mut Lent) -> u32 {
    let ((f, octets), (table, tables)) = (given(file), lent(&mut l.table));
    let ((k, kinds), (p, positions)) = (lent(&mut l.flags), lent(&mut l.positions));
    let ((e, extents), (z, lates)) = (lent(&mut l.extents), lent(&mut l.lates));
    narrow(unsafe { c::krakobran_sweep(f, octets, table, tables, k, kinds, p, positions, e, extents, z, lates) })
}

// The reference.

/// One pass over the arrivals, the table being by packet: 0, the record of the jump that skipped it, or that it has arrived.
fn pass(arrivals: &[[u8; 12]], table: &mut [u16; PLACES], l: [&mut [u32]; 2], flags: &mut [u8], lates: &mut [u64]) {
    let [positions, extents] = l;
    let (mut count, mut next) = (0u32, 1u32);
    for (i, arrival) in arrivals.iter().enumerate() {
        let (number, time) = number_and_time(arrival);
        let at = number as usize - 1;
        let mark = table[at];
        let (flag, position, extent, late);
        if mark == ARRIVED {
            (flag, position, extent, late) = (3, 0, 0, 0);
        } else {
            count += 1;
            position = count;
            table[at] = ARRIVED;
            if number >= next {
                (flag, extent, late) = (0, 0, 0);
                table[next as usize - 1..at].fill(i as u16 + 1);
                next = number + 1;
            } else {
                let jump = usize::from(mark) - 1;
                let past = number_and_time(&arrivals[jump]).1;
                extent = count - positions[jump];
                (flag, late) = if time >= past { (1, time - past) } else { (2, past - time) };
            }
        }
        flags[i] = flag;
        positions[i] = position;
        extents[i] = extent;
        lates[i] = late;
    }
}

fn by_reference(file: &[u8], l: &mut Lent) -> u32 {
    let sample = match check(file) {
        Ok(sample) => sample,
        Err(refusal) => return refusal,
    };
    let n = sample.arrivals.len();
    let lists = [l.flags.len(), l.positions.len(), l.extents.len(), l.lates.len()];
    if l.table.len() < PLACES || lists.iter().any(|&places| places < n) {
        return OUTPUT_SHORT;
    }
    let table = l.table.first_chunk_mut::<PLACES>().unwrap();
    table.fill(0);
    let numbers = [&mut l.positions[..n], &mut l.extents[..n]];
    pass(sample.arrivals, table, numbers, &mut l.flags[..n], &mut l.lates[..n]);
    table.fill(0);
    0
}

// The comparison.

/// The library against the reference on samples made from a seed, with more and less room than they need; and the library's
/// two engines against each other on those records that are asked for.
pub fn compare(seed: u64, samples: u64, seen: &mut Seen) -> Result<(), String> {
    for index in 0..samples {
        let case = sample_case(seed, index);
        let random = &mut Random::new(seed ^ 0x73_7765_6570, index);
        one(random, &case.file, &case.records, seen)
            .map_err(|text| format!("sweep of sample {index} of seed {seed}: {text}"))?;
    }
    Ok(())
}

fn one(random: &mut Random, file: &[u8], records: &[u32], seen: &mut Seen) -> Result<(), String> {
    let n = found(file).arrivals as usize;
    let room = |random: &mut Random| if random.once_in(12) { random.below(n + 1) } else { n + random.below(3) };
    let table = if random.once_in(12) { random.below(PLACES + 1) } else { PLACES + random.below(3) };
    let lists = [(); 4].map(|()| room(random));
    let mut left = Lent::new(table, lists);
    let mut right = left.clone();
    let a = by_library(file, &mut left);
    let b = by_reference(file, &mut right);
    seen.call("sweep", a);
    if (a, &left) != (b, &right) {
        return Err(format!("left {a:?} {left:?}\nright {b:?} {right:?}\n"));
    }
    if a == 0 {
        for &record in records {
            engines(file, record, &left)?;
        }
    }
    Ok(())
}

/// What stands at a record is what the first engine answers for it.
fn engines(file: &[u8], record: u32, l: &Lent) -> Result<(), String> {
    use crate::reference::{Answer, LateTime};
    let first = LIBRARY.answer(file, record);
    if first.refusal != 0 {
        return Ok(());
    }
    let i = record as usize - 1;
    let given = match first.answer {
        Answer::InOrder { position, .. } => (0, position, 0, 0),
        Answer::Reordered { position, extent, late_time: LateTime::After(t), .. } => (1, position, extent, t),
        Answer::Reordered { position, extent, late_time: LateTime::Before(t), .. } => (2, position, extent, t),
        Answer::Duplicate { .. } => (3, 0, 0, 0),
    };
    let swept = (l.flags[i], l.positions[i], l.extents[i], l.lates[i]);
    if given == swept {
        Ok(())
    } else {
        Err(format!("record {record}: first engine {given:?}, second {swept:?}\n"))
    }
}

// The measurement.

/// Nanoseconds an arrival: the sweep by library and reference, and the first engine's tally and listing.
pub fn time(orders: &[Order], amounts: &[usize]) {
    println!(
        "{:22} {:>5} {:>9} {:>9} {:>6} {:>9} {:>9} {:>9}",
        "sweep, each arrival", "A", "library", "reference", "ratio", "tally", "ref.", "listing"
    );
    for &order in orders {
        for &many in amounts {
            let file = measured(order, many).file();
            let f = &file[..];
            let mut lent = [(); 2].map(|()| Lent::new(PLACES, [many; 4]));
            let [l, r] = lent.each_mut();
            let mut out = vec![0; LISTING_ROOM];
            let all = measure([
                calls(|| by_library(black_box(f), l)),
                calls(|| by_reference(black_box(f), r)),
                calls(|| LIBRARY.tally(black_box(f))),
                calls(|| tally(black_box(f))),
                calls(|| LIBRARY.listing(black_box(f), &mut out)),
            ]);
            let [a, b, c, d, e] = all.map(|whole| whole / many as f64);
            let (name, ratio) = (format!("{order:?}"), a / b);
            println!("{name:22} {many:5} {a:9.2} {b:9.2} {ratio:6.2} {c:9.2} {d:9.2} {e:9.2}");
        }
    }
}
