//! What a receiver that restores order needs: the greatest needs of a sample, how many first arrivals a buffer accommodates, and
//! the least buffer for a share of them. The archive's four calls, and a plain Rust implementation beside them: RFC 4737 has the
//! needs as reordering extent (4.2.2), late time offset (4.2.3) and byte offset (4.2.4); in order, or before its discontinuity, is 0.

use std::hint::black_box;

use crate::archive::{c, given, narrow};
use crate::compare::Seen;
use crate::generate::{measured, sample_case, Order, Random};
use crate::reference::{answer, check, each_first, Answer, LateTime, Sample, OUTSIDE};
use crate::time::{calls, measure, row};

/// What a buffer is measured in, by its number; others are refused.
const PACKETS: u32 = 0;
const OCTETS: u32 = 1;
const TIME: u32 = 2;
pub const MEASURES: [u32; 3] = [PACKETS, OCTETS, TIME];

// The library's calls.

/// The refusal, and the greatest need in packets, octets and time.
fn greatest_by_library(file: &[u8]) -> (u32, [u64; 3]) {
    let (f, octets) = given(file);
    let mut n = c::Needs::LENT;
    let refusal = unsafe { c::krakobran_greatest_needs(f, octets, &mut n) };
    (narrow(refusal), [n.packets, n.octets, n.time])
}

/// The refusal, how many first arrivals a buffer of this size accommodates, and L.
fn accommodated_by_library(file: &[u8], measure: u32, size: u64) -> (u32, [u64; 2]) {
    let (f, octets) = given(file);
    let mut a = c::Accommodated::LENT;
    let refusal = unsafe { c::krakobran_accommodated(f, octets, measure, size, &mut a) };
    (narrow(refusal), [a.accommodated, a.arrived])
}

/// The refusal, L, the greatest need, and how many first arrivals buffers of the sizes low, low + 2^shift and so on accommodate.
fn steps_by_library(file: &[u8], measure: u32, low: u64, shift: u32) -> (u32, c::Steps) {
    let (f, octets) = given(file);
    let mut steps = c::Steps::LENT;
    let refusal = unsafe { c::krakobran_accommodated_steps(f, octets, measure, low, shift, &mut steps) };
    (narrow(refusal), steps)
}

/// The refusal, and the least size that accommodates part in whole of the first arrivals.
fn least_by_library(file: &[u8], measure: u32, part: u32, whole: u32) -> (u32, u64) {
    let (f, octets) = given(file);
    let mut size = c::LENT;
    let refusal = unsafe { c::krakobran_least_size(f, octets, measure, part, whole, &mut size) };
    (narrow(refusal), size)
}

// The reference.

/// Payload sizes of the packets that have arrived, in a tree of sums by number.
struct Payloads<'a> {
    sizes: &'a [[u8; 2]],
    sums: [u32; 4097],
    total: u32,
}

impl Payloads<'_> {
    fn new<'a>(sample: &Sample<'a>) -> Payloads<'a> {
        Payloads { sizes: sample.sizes, sums: [0; 4097], total: 0 }
    }

    /// Adds a packet; the octets of the greater ones that came before it.
    #[inline(always)]
    fn arrive(&mut self, number: usize, reordered: bool) -> u64 {
        let mut offset = 0;
        if reordered {
            let mut at = number;
            offset = self.total;
            while at > 0 {
                offset -= self.sums[at];
                at &= at - 1;
            }
        }
        let size = u32::from(u16::from_be_bytes(self.sizes[number - 1]));
        let mut at = number;
        self.total += size;
        while at <= self.sizes.len() {
            self.sums[at] += size;
            at += at & at.wrapping_neg();
        }
        u64::from(offset)
    }
}

fn waiting(late: Option<(u32, LateTime)>) -> u64 {
    match late {
        Some((_, LateTime::After(time))) => time,
        _ => 0,
    }
}

/// Calls `each` with the need of each first arrival.
#[inline(always)]
fn each_need(sample: &Sample, measure: u32, mut each: impl FnMut(u64)) {
    match measure {
        PACKETS => each_first(sample, |_, late| each(late.map_or(0, |(extent, _)| u64::from(extent)))),
        OCTETS => {
            let mut payloads = Payloads::new(sample);
            each_first(sample, |number, late| each(payloads.arrive(number, late.is_some())));
        }
        _ => each_first(sample, |_, late| each(waiting(late))),
    }
}

fn greatest_by_reference(file: &[u8]) -> (u32, [u64; 3]) {
    let sample = match check(file) {
        Ok(sample) => sample,
        Err(refusal) => return (refusal, [0; 3]),
    };
    let mut most = [0; 3];
    let mut payloads = Payloads::new(&sample);
    each_first(&sample, |number, late| {
        let needs = [late.map_or(0, |late| u64::from(late.0)), payloads.arrive(number, late.is_some()), waiting(late)];
        most.iter_mut().zip(needs).for_each(|(most, need)| *most = need.max(*most));
    });
    (0, most)
}

fn accommodated_by_reference(file: &[u8], measure: u32, size: u64) -> (u32, [u64; 2]) {
    match check(file) {
        Err(refusal) => (refusal, [0; 2]),
        Ok(_) if measure > TIME => (OUTSIDE, [0; 2]),
        Ok(sample) => {
            let mut counts = [0; 2];
            each_need(&sample, measure, |need| {
                counts[0] += u64::from(need <= size);
                counts[1] += 1;
            });
            (0, counts)
        }
    }
}

/// Of the needs in rising order, those before the first that is greater than the size. No need has over 64 bits.
fn steps_by_reference(file: &[u8], measure: u32, low: u64, shift: u32) -> (u32, c::Steps) {
    let none = c::Steps { arrived: 0, greatest: 0, counts: [0; c::STEPS] };
    match check(file) {
        Err(refusal) => (refusal, none),
        Ok(_) if measure > TIME => (OUTSIDE, none),
        Ok(sample) => {
            let mut needs = Vec::with_capacity(sample.arrivals.len());
            each_need(&sample, measure, |need| needs.push(u128::from(need)));
            needs.sort_unstable();
            let counts = std::array::from_fn(|step| {
                let size = u128::from(low) + ((step as u128) << shift.min(64));
                needs.partition_point(|&need| need <= size) as u64
            });
            let greatest = needs.last().map_or(0, |&need| need as u64);
            (0, c::Steps { arrived: needs.len() as u64, greatest, counts })
        }
    }
}

/// The same with no sort: each need is counted at the first size that accommodates it, and the counts are summed up.
fn steps_by_buckets(file: &[u8], measure: u32, low: u64, shift: u32) -> (u32, c::Steps) {
    let mut steps = c::Steps { arrived: 0, greatest: 0, counts: [0; c::STEPS] };
    match check(file) {
        Err(refusal) => (refusal, steps),
        Ok(_) if measure > TIME => (OUTSIDE, steps),
        Ok(sample) => {
            each_need(&sample, measure, |need| {
                steps.arrived += 1;
                steps.greatest = need.max(steps.greatest);
                let step = if need <= low { 0 } else { (need - low - 1).checked_shr(shift).unwrap_or(0) + 1 };
                if let Some(count) = steps.counts.get_mut(step as usize) {
                    *count += 1;
                }
            });
            let mut sum = 0;
            steps.counts.iter_mut().for_each(|count| {
                sum += *count;
                *count = sum;
            });
            (0, steps)
        }
    }
}

/// The needs in rising order have the size at the last place of the share, which is rounded up.
fn least_by_reference(file: &[u8], measure: u32, part: u32, whole: u32) -> (u32, u64) {
    match check(file) {
        Err(refusal) => (refusal, 0),
        Ok(_) if measure > TIME || part < 1 || part > whole => (OUTSIDE, 0),
        Ok(sample) => {
            let mut needs = Vec::with_capacity(sample.arrivals.len());
            each_need(&sample, measure, |need| needs.push(need));
            if needs.is_empty() {
                return (0, 0);
            }
            let share = (u64::from(part) * needs.len() as u64).div_ceil(u64::from(whole)) as usize;
            (0, *needs.select_nth_unstable(share - 1).1)
        }
    }
}

/// The least sizes for shares in 100, which rise: each is selected among the needs from the one before on.
pub fn least_sizes<const N: usize>(sample: &Sample, measure: u32, parts: [u32; N]) -> [u64; N] {
    let mut needs = Vec::with_capacity(sample.arrivals.len());
    each_need(sample, measure, |need| needs.push(need));
    let mut from = 0;
    parts.map(|part| {
        if needs.is_empty() {
            return 0;
        }
        let place = (part as usize * needs.len()).div_ceil(100) - 1;
        let size = *needs[from..].select_nth_unstable(place - from).1;
        from = place;
        size
    })
}

/// The needs of every record, each by its own scan of the arrivals before it.
fn needs_by_answers(file: &[u8], arrivals: usize) -> Vec<[u64; 3]> {
    let each = (1..=arrivals as u32).map(|record| answer(file, record).answer);
    each.filter_map(|answer| match answer {
        Answer::Duplicate { .. } => None,
        Answer::InOrder { .. } => Some([0; 3]),
        Answer::Reordered { extent, late_time, byte_offset, .. } => {
            Some([u64::from(extent), u64::from(byte_offset), waiting(Some((extent, late_time)))])
        }
    })
    .collect()
}

// The comparison.

/// The library against the reference on samples made from a seed; where they are short, the reference against single answers too.
pub fn compare(seed: u64, samples: u64, seen: &mut Seen) -> Result<(), String> {
    for index in 0..samples {
        let random = &mut Random::new(seed ^ 0x6e65_6564, index);
        let file = sample_case(seed, index).file;
        one(random, &file, seen).map_err(|text| format!("needs of sample {index} of seed {seed}: {text}"))?;
    }
    Ok(())
}

fn same<T: PartialEq + std::fmt::Debug>(call: &str, left: T, right: T) -> Result<(), String> {
    if left == right {
        Ok(())
    } else {
        Err(format!("{call}\n left {left:?}\nright {right:?}\n"))
    }
}

fn one(random: &mut Random, file: &[u8], seen: &mut Seen) -> Result<(), String> {
    let due = greatest_by_reference(file);
    same("greatest needs", greatest_by_library(file), due)?;
    seen.call("greatest needs", due.0);
    if let Ok(sample) = check(file).map_err(|_| ()) {
        if sample.arrivals.len() <= 64 {
            let all = needs_by_answers(file, sample.arrivals.len());
            let most = [0, 1, 2].map(|measure| all.iter().map(|needs| needs[measure]).max().unwrap_or(0));
            same("greatest needs by single answers", due.1, most)?;
        }
    }
    for measure in MEASURES.into_iter().chain([random.pick(&[3, 256, u32::MAX])]) {
        let greatest = due.1.get(measure as usize).copied().unwrap_or(7);
        let whole = random.pick(&[0, 1, 2, 3, 100, 100, 100, 1000, u32::MAX]);
        let part = random.pick(&[0, 1, whole / 2, whole.saturating_sub(1), whole, whole.wrapping_add(1), 50, 99]);
        let least = least_by_reference(file, measure, part, whole);
        same(
            &format!("least size, measure {measure}, {part} in {whole}"),
            least_by_library(file, measure, part, whole),
            least,
        )?;
        seen.call("least size", least.0);
        for size in [least.1, least.1.saturating_sub(1), greatest, random.draw(), random.below(5) as u64] {
            let due = accommodated_by_reference(file, measure, size);
            let found = accommodated_by_library(file, measure, size);
            same(&format!("accommodated, measure {measure}, size {size}"), found, due)?;
            seen.call("accommodated", due.0);
        }
        let any = random.draw();
        let low = random.pick(&[0, least.1, greatest / 2, greatest, any, u64::MAX]);
        let last = random.between(0, 64 - greatest.leading_zeros() as usize) as u32;
        let shift = random.pick(&[0, last, last, last.saturating_sub(6), 57, 63, 64, 127, 128, u32::MAX]);
        let steps = steps_by_reference(file, measure, low, shift);
        let found = steps_by_library(file, measure, low, shift);
        same(&format!("steps, measure {measure}, from {low} by 2^{shift}"), found, steps)?;
        same("steps by buckets", steps_by_buckets(file, measure, low, shift), steps)?;
        seen.call("accommodated steps", steps.0);
        if least.0 == 0 && least.1 > 0 {
            seen.kind(match measure {
                PACKETS => "least size: packets",
                OCTETS => "least size: octets",
                _ => "least size: time",
            });
            let enough = |size| {
                let [held, arrived] = accommodated_by_reference(file, measure, size).1;
                u64::from(part) * arrived <= u64::from(whole) * held
            };
            same("it is enough, and one less is not", (enough(least.1), enough(least.1 - 1)), (true, false))?;
        }
    }
    Ok(())
}

// The measurement.

/// Nanoseconds of a call: the greatest needs, and for each measure what half of the greatest need accommodates, what 128 sizes up to
/// it do, and the least size for 95 in 100.
pub fn time(orders: &[Order], amounts: &[usize]) {
    println!("{:30} {:>5} {:>11} {:>11} {:>6}", "needs", "A", "library", "reference", "ratio");
    for &order in orders {
        for &many in amounts {
            let file = measured(order, many).file();
            let f = &file[..];
            let (_, greatest) = greatest_by_reference(f);
            let all =
                measure([calls(|| greatest_by_library(black_box(f))), calls(|| greatest_by_reference(black_box(f)))]);
            row(&format!("greatest needs {order:?}"), many, all);
            for (kind, name) in [(PACKETS, "packets"), (OCTETS, "octets"), (TIME, "time")] {
                let half = greatest[kind as usize] / 2;
                let held = measure([
                    calls(|| accommodated_by_library(black_box(f), kind, half)),
                    calls(|| accommodated_by_reference(black_box(f), kind, half)),
                ]);
                row(&format!("accommodated, {name} {order:?}"), many, held);
                let shift = (u64::BITS - greatest[kind as usize].leading_zeros()).saturating_sub(7);
                let steps = measure([
                    calls(|| steps_by_library(black_box(f), kind, 0, shift)),
                    calls(|| steps_by_buckets(black_box(f), kind, 0, shift)),
                ]);
                row(&format!("128 sizes, {name} {order:?}"), many, steps);
                let least = measure([
                    calls(|| least_by_library(black_box(f), kind, 95, 100)),
                    calls(|| least_by_reference(black_box(f), kind, 95, 100)),
                ]);
                row(&format!("least size, {name} {order:?}"), many, least);
            }
        }
    }
}
