//! Text logs of short numbers: the archive's calls for 8 and for 10 bits, and a plain Rust implementation beside them.

use crate::archive::{c, given, lent, narrow, one_figure};
use crate::compare::Seen;
use crate::generate::{clock_step, Random};
use crate::reference::{MOST_ARRIVALS as MOST, MOST_BACK, OUTPUT_SHORT};
use crate::reference::{ARRIVAL_COUNT, NUMBER, SENT_COUNT, TIME};
use crate::shortnumbers::Width;
use crate::text::{line, Imported, LINE_MALFORMED};

// The library's calls.

fn import_by_library(width: Width, log: &[u8], sent: u32, numbers: &mut [u32], times: &mut [u64]) -> Imported {
    let call = match width {
        Width::Eight => c::krakobran_log_import_8,
        Width::Ten => c::krakobran_log_import_10,
    };
    let ((l, octets), (n, number_places), (t, time_places)) = (given(log), lent(numbers), lent(times));
    let (refusal, arrivals) =
        one_figure(|a| unsafe { call(l, octets, sent, n, number_places, t, time_places, a) });
    Imported { refusal, arrivals }
}

fn refused_line_by_library(width: Width, log: &[u8], sent: u32) -> u32 {
    let call = match width {
        Width::Eight => c::krakobran_log_refused_line_8,
        Width::Ten => c::krakobran_log_refused_line_10,
    };
    let (l, octets) = given(log);
    let mut line = c::LENT;
    unsafe { call(l, octets, sent, &mut line) };
    narrow(line)
}

// The reference.

/// The arrivals of a log with their full numbers, or the refusal and the number of the refused line, from 1, or 0 where K is
/// refused.
fn arrivals(width: Width, log: &[u8], sent: u32) -> Result<Vec<(u32, u64)>, (u32, u32)> {
    if sent == 0 || sent as usize > MOST {
        return Err((SENT_COUNT, 0));
    }
    let (mut rest, mut found) = (log, Vec::new());
    let (mut greatest, mut latest) = (0, 0u64);
    while !rest.is_empty() {
        let refused = |refusal| (refusal, found.len() as u32 + 1);
        let (short, time, after) = line(rest).ok_or(refused(LINE_MALFORMED))?;
        if found.len() == MOST {
            return Err(refused(ARRIVAL_COUNT));
        }
        let full = width.full(greatest, short).filter(|n| (1..=i64::from(sent)).contains(n));
        let number = full.ok_or(refused(NUMBER))?;
        if latest.saturating_sub(time) > MOST_BACK {
            return Err(refused(TIME));
        }
        (greatest, latest) = (greatest.max(number), latest.max(time));
        found.push((number as u32, time));
        rest = after;
    }
    Ok(found)
}

fn import(width: Width, log: &[u8], sent: u32, numbers: &mut [u32], times: &mut [u64]) -> Imported {
    let refused = |refusal| Imported { refusal, arrivals: 0 };
    let found = match arrivals(width, log, sent) {
        Ok(found) => found,
        Err((refusal, _)) => return refused(refusal),
    };
    if numbers.len() < found.len() || times.len() < found.len() {
        return refused(OUTPUT_SHORT);
    }
    for (at, &(number, time)) in found.iter().enumerate() {
        (numbers[at], times[at]) = (number, time);
    }
    Imported { refusal: 0, arrivals: found.len() as u32 }
}

// The comparison.

/// A log of short numbers of packets that come near each other. In a short log a number or a time is far off here and there, or a
/// line is none; a long one has no such line, so that its length decides.
fn log_of(random: &mut Random, width: Width, sent: u32, many: usize) -> Vec<u8> {
    let range = if width == Width::Eight { 256 } else { 1024 };
    let odd = |random: &mut Random, times: usize| many < 100 && random.once_in(times);
    let (mut number, mut greatest) = (0u64, 2000u64);
    let mut log = Vec::new();
    for _ in 0..many {
        let most = if odd(random, 9) { 200 } else { 4 };
        let step = random.below(most) as u64;
        number = if random.once_in(4) { number.saturating_sub(step) } else { number + step }.clamp(1, u64::from(sent));
        let back = if random.once_in(5) { clock_step(random) } else { 0 };
        let time = greatest - back.min(if odd(random, 20) { 1001 } else { 1000 });
        greatest = if back > 0 { greatest } else { greatest + random.below(3000) as u64 };
        let short = if odd(random, 400) { random.below(5000) as u64 } else { number % range };
        let (whole, rest) = (time / 1000, time % 1000);
        let mark = if odd(random, 400) { ',' } else { ';' };
        log.extend(format!("{short}{mark}{whole}.{rest:03}\n").into_bytes());
    }
    log
}

/// The library against the reference on logs made from a seed; the text of the first difference names the log.
pub fn compare(seed: u64, logs: u64, seen: &mut Seen) -> Result<(), String> {
    for index in 0..logs {
        let random = &mut Random::new(seed ^ 0x7368_6f72, index);
        let width = random.pick(&[Width::Eight, Width::Ten]);
        let many = if random.once_in(500) { random.between(MOST - 1, MOST + 2) } else { random.below(60) };
        let sent = if random.once_in(40) { random.pick(&[0, 4097, u32::MAX]) } else { random.between(1, MOST) as u32 };
        let log = log_of(random, width, sent.clamp(1, 4096), many);
        let places = |random: &mut Random| if random.once_in(8) { random.below(many + 1) } else { many + 2 };
        let mut left = (vec![77; places(random)], vec![99; places(random)]);
        let mut right = left.clone();
        let a = import_by_library(width, &log, sent, &mut left.0, &mut left.1);
        let b = import(width, &log, sent, &mut right.0, &mut right.1);
        seen.call("import short", a.refusal);
        let found = arrivals(width, &log, sent).err().map_or(0, |(_, line)| line);
        let line = refused_line_by_library(width, &log, sent);
        seen.call("import short line", 0);
        if (a, &left, line) != (b, &right, found) {
            return Err(format!(
                "log {index} of seed {seed}, {width:?} bits, K = {sent}:\n left {a:?} line {line}\nright {b:?} line {found}\n{:?}",
                String::from_utf8_lossy(&log)
            ));
        }
    }
    Ok(())
}
