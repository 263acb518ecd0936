//! OWAMP packet records: the archive's two calls, a plain Rust implementation of the same papers beside them with the
//! standard library's stable sort, records to compare the two on, and what they cost.

use std::hint::black_box;

use crate::archive::{c, given, lent, one_figure};
use crate::compare::Seen;
use crate::generate::{sample_case, Random};
use crate::reference::{check, Written};
use crate::time::{calls, measure};

const WIDTH: usize = 25;
const MOST: usize = 4096;
const SECOND: u64 = 1 << 32;
const SENT_OUTSIDE: u32 = 4;
const MANY_ARRIVALS: u32 = 5;
const NUMBER_OUTSIDE: u32 = 6;
const OUTPUT_SHORT: u32 = 8;
const RECORD_CUT: u32 = 15;
const SECONDS_OVER: u32 = 18;

/// What an import answers.
#[derive(Clone, Copy, PartialEq, Eq, Debug)]
pub struct Records {
    pub refusal: u32,
    pub arrivals: u32,
}

// The library's calls.

fn import_by_library(records: &[u8], sent: u32, numbers: &mut [u32], times: &mut [u64]) -> Records {
    let ((r, octets), (n, number_places), (t, time_places)) = (given(records), lent(numbers), lent(times));
    let (refusal, arrivals) =
        one_figure(|a| unsafe { c::krakobran_owamp_import(r, octets, sent, n, number_places, t, time_places, a) });
    Records { refusal, arrivals }
}

fn write_by_library(file: &[u8], out: &mut [u8]) -> Written {
    let ((f, octets), (o, room)) = (given(file), lent(out));
    let (refusal, length) = one_figure(|w| unsafe { c::krakobran_owamp_write(f, octets, o, room, w) });
    Written { refusal, length }
}

// The reference.

/// The sequence number and the receive time of a record.
fn fields(octets: &[u8; WIDTH]) -> (u32, u64) {
    let (mut number, mut time) = ([0; 4], [0; 8]);
    number.copy_from_slice(&octets[..4]);
    time.copy_from_slice(&octets[16..24]);
    (u32::from_be_bytes(number), u64::from_be_bytes(time))
}

/// A receive time in whole microseconds.
fn micros(time: u64) -> u64 {
    (u128::from(time) * 1_000_000 >> 32) as u64
}

fn arrivals(records: &[u8]) -> impl Iterator<Item = (u32, u64)> + '_ {
    records.as_chunks::<WIDTH>().0.iter().map(fields).filter(|&(_, time)| time != 0)
}

pub fn import(records: &[u8], sent: u32, numbers: &mut [u32], times: &mut [u64]) -> Records {
    let refused = |refusal| Records { refusal, arrivals: 0 };
    if records.len() % WIDTH != 0 {
        return refused(RECORD_CUT);
    }
    if sent == 0 || sent as usize > MOST {
        return refused(SENT_OUTSIDE);
    }
    let count = arrivals(records).count();
    if count > MOST {
        return refused(MANY_ARRIVALS);
    }
    if arrivals(records).any(|(number, _)| number >= sent) {
        return refused(NUMBER_OUTSIDE);
    }
    if numbers.len() < count || times.len() < count {
        return refused(OUTPUT_SHORT);
    }
    let mut all: Vec<(u32, u64)> = arrivals(records).collect();
    all.sort_by_key(|&(_, time)| time);
    let least = all.first().map_or(0, |&(_, time)| micros(time));
    for ((number, time), &(sequence, stamp)) in numbers.iter_mut().zip(times).zip(&all) {
        *number = sequence + 1;
        *time = micros(stamp) - least;
    }
    Records { refusal: 0, arrivals: count as u32 }
}

pub fn write(file: &[u8], out: &mut [u8]) -> Written {
    let refused = |refusal| Written { refusal, length: 0 };
    let sample = match check(file) {
        Ok(sample) => sample,
        Err(refusal) => return refused(refusal),
    };
    let all = || {
        sample.arrivals.iter().map(|octets| {
            let (mut number, mut time) = ([0; 4], [0; 8]);
            number.copy_from_slice(&octets[..4]);
            time.copy_from_slice(&octets[4..]);
            (u32::from_be_bytes(number), u64::from_be_bytes(time))
        })
    };
    if all().any(|(_, time)| time / 1_000_000 + 1 > u64::from(u32::MAX)) {
        return refused(SECONDS_OVER);
    }
    let length = WIDTH * sample.arrivals.len();
    if out.len() < length {
        return refused(OUTPUT_SHORT);
    }
    for (octets, (number, time)) in out.as_chunks_mut::<WIDTH>().0.iter_mut().zip(all()) {
        let seconds = (time / 1_000_000 + 1) as u32;
        let fraction = (time % 1_000_000 * SECOND / 1_000_000) as u32;
        octets[..4].copy_from_slice(&(number - 1).to_be_bytes());
        octets[4..16].copy_from_slice(&[0, 1, 0, 1, 0, 0, 0, 0, 0, 0, 0, 0]);
        octets[16..20].copy_from_slice(&seconds.to_be_bytes());
        octets[20..24].copy_from_slice(&fraction.to_be_bytes());
        octets[24] = 255;
    }
    Written { refusal: 0, length: length as u32 }
}

// Records.

/// The octets of a record; those of no field that is read are drawn.
fn record(random: &mut Random, sequence: u32, time: u64) -> [u8; WIDTH] {
    let mut octets = [random.draw() as u8; WIDTH];
    octets[..4].copy_from_slice(&sequence.to_be_bytes());
    octets[16..24].copy_from_slice(&time.to_be_bytes());
    octets
}

/// How receive times lie: each after the one before, each moved by up to 8 places, in any order, each before the one before.
#[derive(Clone, Copy)]
enum Lie {
    InOrder,
    Nearly,
    Shuffled,
    Reversed,
}

/// The place of each record in the order of the receive times.
fn places(random: &mut Random, lie: Lie, many: usize) -> Vec<usize> {
    let mut places: Vec<usize> = (0..many).collect();
    match lie {
        Lie::InOrder => {}
        Lie::Nearly => places.chunks_mut(8).for_each(|some| random.shuffle(some)),
        Lie::Shuffled => random.shuffle(&mut places),
        Lie::Reversed => places.reverse(),
    }
    places
}

/// A receive time: near others, equal to some, far off, near 0, or of a lost packet.
fn receive_time(random: &mut Random, lost: usize) -> u64 {
    if random.once_in(lost) {
        return 0;
    }
    match random.below(8) {
        0 => random.pick(&[1, SECOND - 1, SECOND, u64::MAX, u64::MAX - 1]),
        1 => 7 * SECOND,
        2 => random.draw(),
        3 => SECOND + random.below(10_000) as u64,
        _ => 7 * SECOND + (random.below(1000) as u64) * 4_294_967,
    }
}

/// So many records, most of them of packets 1 to K.
fn drawn(random: &mut Random, many: usize, sent: u32) -> Vec<u8> {
    let lost = random.pick(&[1, 2, 4, 1000]);
    let outside = random.pick(&[8, 100, 10_000]);
    let mut records = Vec::new();
    for _ in 0..many {
        let time = receive_time(random, lost);
        let sequence = if random.once_in(outside) || time == 0 && random.once_in(2) {
            random.pick(&[sent, sent.wrapping_add(1), u32::MAX, u32::MAX - 1])
        } else {
            random.below(sent.clamp(1, MOST as u32) as usize) as u32
        };
        records.extend(record(random, sequence, time));
    }
    records
}

/// Records whose times lie in one of the four ways, some of them equal, some lost.
fn laid(random: &mut Random, many: usize, sent: u32) -> Vec<u8> {
    let lie = random.pick(&[Lie::InOrder, Lie::Nearly, Lie::Shuffled, Lie::Reversed]);
    let equal = random.pick(&[1, 2, 16]);
    let lost = random.pick(&[4, 1000]);
    let mut records = Vec::new();
    for place in places(random, lie, many) {
        let time = if random.once_in(lost) { 0 } else { SECOND + (place / equal) as u64 * (SECOND / 50) };
        let sequence = random.below(sent.clamp(1, MOST as u32) as usize) as u32;
        records.extend(record(random, sequence, time));
    }
    records
}

// The comparison.

/// The library against the reference on records made from a seed, and on the samples of the comparison of files; the text of the
/// first difference names the input.
pub fn compare(seed: u64, inputs: u64, seen: &mut Seen) -> Result<(), String> {
    for index in 0..inputs {
        let mut random = Random::new(seed ^ 0x6F77_616D, index);
        let many = match random.below(500) {
            0 => random.between(MOST - 1, 2 * MOST),
            1..=5 => random.between(12, MOST),
            _ => random.below(40),
        };
        let sent = if random.once_in(40) { random.pick(&[0, 4097, u32::MAX]) } else { random.between(1, MOST) as u32 };
        let draw = if random.once_in(2) { drawn } else { laid };
        let mut records = draw(&mut random, many, sent);
        if random.once_in(20) {
            records.truncate(random.below(records.len() + 1));
        }
        one(&mut random, &records, sent, many, seen)
            .map_err(|text| format!("records {index} of seed {seed}: {text}{records:?}"))?;
        written(&mut random, &sample_case(seed, index).file, seen)
            .map_err(|text| format!("records of sample {index} of seed {seed}: {text}"))?;
    }
    Ok(())
}

fn one(random: &mut Random, records: &[u8], sent: u32, many: usize, seen: &mut Seen) -> Result<(), String> {
    let places = many + 2;
    let short = |random: &mut Random| if random.once_in(6) { random.below(places) } else { places };
    let (n, t) = (short(random), short(random));
    let mut left = (vec![77; n], vec![99; t]);
    let mut right = left.clone();
    let a = import_by_library(records, sent, &mut left.0, &mut left.1);
    let b = import(records, sent, &mut right.0, &mut right.1);
    seen.call("records", a.refusal);
    if (a, &left) != (b, &right) {
        return Err(format!("import\n left {a:?} {left:?}\nright {b:?} {right:?}\n"));
    }
    Ok(())
}

fn written(random: &mut Random, file: &[u8], seen: &mut Seen) -> Result<(), String> {
    let room = 3 * file.len();
    let room = if random.once_in(4) { random.below(room + 1) } else { room };
    let mut left = vec![b'.'; room];
    let mut right = left.clone();
    let a = write_by_library(file, &mut left);
    let b = write(file, &mut right);
    seen.call("write rec.", a.refusal);
    if (a.refusal, a.length, &left) != (b.refusal, b.length, &right) {
        return Err(format!("write\n left {} {}\nright {} {}\n", a.refusal, a.length, b.refusal, b.length));
    }
    Ok(())
}

// The measurement.

/// So many arrivals, some 20 milliseconds apart.
fn measured(lie: Lie, many: usize) -> Vec<u8> {
    let mut random = Random::new(1, 1);
    let places = places(&mut random, lie, many);
    let mut records = Vec::new();
    for (sequence, place) in places.into_iter().enumerate() {
        let time = SECOND + place as u64 * (SECOND / 50) + random.below(1 << 20) as u64;
        records.extend(record(&mut random, sequence as u32, time));
    }
    records
}

/// Import in each order, and write, of so many records, in nanoseconds of a call.
pub fn time(amounts: &[usize]) {
    println!("{:22} {:>5} {:>11} {:>11} {:>6}", "OWAMP records", "A", "library", "reference", "ratio");
    for (name, lie) in [
        ("import in order", Lie::InOrder),
        ("import nearly", Lie::Nearly),
        ("import shuffled", Lie::Shuffled),
        ("import reversed", Lie::Reversed),
    ] {
        for &many in amounts {
            let records = measured(lie, many);
            let mut lists = [(); 2].map(|()| (vec![0; many], vec![0; many]));
            let [l, r] = lists.each_mut();
            let sent = many as u32;
            let [library, reference] = measure([
                calls(|| import_by_library(black_box(&records), sent, &mut l.0, &mut l.1)),
                calls(|| import(black_box(&records), sent, &mut r.0, &mut r.1)),
            ]);
            row(name, many, library, reference);
        }
    }
    for &many in amounts {
        let file = crate::generate::measured(crate::generate::Order::InOrder, many).file();
        let mut outs = [(); 2].map(|()| vec![0; WIDTH * many]);
        let [lo, ro] = outs.each_mut();
        let [library, reference] =
            measure([calls(|| write_by_library(black_box(&file), lo)), calls(|| write(black_box(&file), ro))]);
        row("write", many, library, reference);
    }
}

fn row(name: &str, many: usize, library: f64, reference: f64) {
    println!("{name:22} {many:5} {library:11.0} {reference:11.0} {:6.2}", library / reference);
}
