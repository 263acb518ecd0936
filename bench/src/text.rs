//! Text logs, their lines and what is wrong with them: the archive's calls, a plain Rust implementation of the same papers beside
//! them, logs to compare the two on, and what they cost.

use std::hint::black_box;

use crate::archive::{c, given, lent, narrow, one_figure};
use crate::compare::Seen;
use crate::generate::{clock_step, Random};
use crate::reference::MOST_BACK;
use crate::time::{calls, measure};

const MOST: usize = 4096;
const SENT_OUTSIDE: u32 = 4;
const MANY_ARRIVALS: u32 = 5;
const NUMBER_OUTSIDE: u32 = 6;
const TIME_BACK: u32 = 7;
const OUTPUT_SHORT: u32 = 8;
const LISTS_DIFFER: u32 = 12;
pub const LINE_MALFORMED: u32 = 14;

/// What an import answers.
#[derive(Clone, Copy, PartialEq, Eq, Debug)]
pub struct Imported {
    pub refusal: u32,
    pub arrivals: u32,
}

/// What a write answers.
#[derive(Clone, Copy, PartialEq, Eq, Debug)]
pub struct Written {
    pub refusal: u32,
    pub length: u32,
}

// The library's calls.

fn import_by_library(log: &[u8], sent: u32, numbers: &mut [u32], times: &mut [u64]) -> Imported {
    let ((l, octets), (n, number_places), (t, time_places)) = (given(log), lent(numbers), lent(times));
    let (refusal, arrivals) =
        one_figure(|a| unsafe { c::krakobran_log_import(l, octets, sent, n, number_places, t, time_places, a) });
    Imported { refusal, arrivals }
}

fn refused_line_by_library(log: &[u8], sent: u32) -> u32 {
    let (l, octets) = given(log);
    let mut line = c::LENT;
    unsafe { c::krakobran_log_refused_line(l, octets, sent, &mut line) };
    narrow(line)
}

fn read_line_by_library(line: &[u8]) -> (u32, u64, u64) {
    let (l, octets) = given(line);
    let mut arrival = c::Arrival::LENT;
    let refusal = unsafe { c::krakobran_log_read_line(l, octets, &mut arrival) };
    (narrow(refusal), arrival.number, arrival.time)
}

fn line_fault_by_library(line: &[u8]) -> u64 {
    let (l, octets) = given(line);
    unsafe { c::krakobran_log_line_fault(l, octets) }
}

/// Offset and length of line n of a text, from 0.
fn text_line_by_library(text: &[u8], n: usize) -> (u64, u64) {
    let (t, octets) = given(text);
    let mut part = c::Part::LENT;
    unsafe { c::krakobran_text_line(t, octets, n as u64, &mut part) };
    (part.start, part.length)
}

fn write_by_library(sent: u32, numbers: &[u32], times: &[u64], out: &mut [u8]) -> Written {
    let ((n, number_count), (t, time_count), (o, room)) = (given(numbers), given(times), lent(out));
    let (refusal, length) =
        one_figure(|w| unsafe { c::krakobran_log_write(sent, n, number_count, t, time_count, o, room, w) });
    Written { refusal, length }
}

// The reference.

/// The number of the digits at the start, of at most 2^64 - 1, how many there are, and what follows.
fn digits(text: &[u8]) -> Option<(u64, usize, &[u8])> {
    let mut value = 0u64;
    let mut count = 0;
    while let Some(&octet) = text.get(count) {
        if !octet.is_ascii_digit() {
            break;
        }
        value = value.saturating_mul(10).saturating_add(u64::from(octet - b'0'));
        count += 1;
    }
    if count == 0 {
        return None;
    }
    Some((value, count, &text[count..]))
}

/// The microseconds of a time and its line feed, and what follows.
fn time_of(text: &[u8]) -> Option<(u64, &[u8])> {
    let (whole, _, rest) = digits(text)?;
    let micros = whole.checked_mul(1000)?;
    match *rest.first()? {
        b'\n' => Some((micros, &rest[1..])),
        b',' | b'.' => {
            let (value, count, rest) = digits(&rest[1..])?;
            let fraction = match count {
                1 => value * 100,
                2 => value * 10,
                3 => value,
                _ => return None,
            };
            let after = rest.strip_prefix(b"\n")?;
            Some((micros.checked_add(fraction)?, after))
        }
        _ => None,
    }
}

/// The number and the time of the first line, and what follows it.
pub fn line(text: &[u8]) -> Option<(u32, u64, &[u8])> {
    let (number, _, rest) = digits(text)?;
    let (time, after) = time_of(rest.strip_prefix(b";")?)?;
    Some((u32::try_from(number).ok()?, time, after))
}

/// One line by itself: the refusal, the number and the time.
fn read_line(text: &[u8]) -> (u32, u64, u64) {
    match line(text) {
        Some((number, time, [])) => (0, u64::from(number), time),
        _ => (LINE_MALFORMED, 0, 0),
    }
}

const FORMED: u64 = 0;
const BYTE_ORDER_MARK: u64 = 1;
const EMPTY_LINE: u64 = 2;
const NO_DIGIT: u64 = 3;
const CARRIAGE_RETURN: u64 = 4;
const NO_LINE_FEED: u64 = 5;
const NUMBER_OVER: u64 = 6;
const MANY_DECIMALS: u64 = 7;
const OTHER: u64 = 8;

/// What is wrong with a line, by the octets from where its form breaks on.
fn stray(rest: &[u8]) -> u64 {
    match rest {
        [] => NO_LINE_FEED,
        [b'\r', ..] => CARRIAGE_RETURN,
        _ => OTHER,
    }
}

/// What is wrong with a line first.
fn line_fault(line: &[u8]) -> u64 {
    let Some((number, _, rest)) = digits(line) else {
        return match line {
            [0xEF, 0xBB, 0xBF, ..] => BYTE_ORDER_MARK,
            [b'\n', ..] => EMPTY_LINE,
            [b'\r', ..] => CARRIAGE_RETURN,
            _ => NO_DIGIT,
        };
    };
    if number > u64::from(u32::MAX) {
        return NUMBER_OVER;
    }
    let Some(time) = rest.strip_prefix(b";") else { return stray(rest) };
    let Some((_, _, mut rest)) = digits(time) else { return stray(time) };
    if let [b',' | b'.', decimals @ ..] = rest {
        rest = match digits(decimals) {
            None => return stray(decimals),
            Some((_, 1..=3, rest)) => rest,
            Some(_) => return MANY_DECIMALS,
        };
    }
    match rest {
        [b'\n', ..] => FORMED,
        _ => stray(rest),
    }
}

/// Offset and length of line n of a text, from 0, with its line feed; the empty part at its end if there is none.
fn text_line(text: &[u8], n: usize) -> (u64, u64) {
    let mut lines = text.split_inclusive(|&octet| octet == b'\n').map(|line| line.len() as u64);
    let start = lines.by_ref().take(n).sum();
    (start, lines.next().unwrap_or(0))
}

/// How many lines a log has, none of them refused; else the refusal, and the number of the refused line, from 1, or 0 where K is
/// refused.
fn judge(log: &[u8], sent: u32) -> Result<usize, (u32, u32)> {
    if sent == 0 || sent as usize > MOST {
        return Err((SENT_OUTSIDE, 0));
    }
    let mut rest = log;
    let mut count = 0;
    let mut greatest = 0u64;
    while !rest.is_empty() {
        let at = count as u32 + 1;
        let Some((number, time, after)) = line(rest) else {
            return Err((LINE_MALFORMED, at));
        };
        if count == MOST {
            return Err((MANY_ARRIVALS, at));
        }
        if number == 0 || number > sent {
            return Err((NUMBER_OUTSIDE, at));
        }
        if greatest.saturating_sub(time) > MOST_BACK {
            return Err((TIME_BACK, at));
        }
        greatest = greatest.max(time);
        count += 1;
        rest = after;
    }
    Ok(count)
}

/// The number of the first refused line, from 1; 0 where no line is.
pub fn refused_line(log: &[u8], sent: u32) -> u32 {
    judge(log, sent).err().map_or(0, |(_, line)| line)
}

pub fn import(log: &[u8], sent: u32, numbers: &mut [u32], times: &mut [u64]) -> Imported {
    let refused = |refusal| Imported { refusal, arrivals: 0 };
    let count = match judge(log, sent) {
        Ok(count) => count,
        Err((refusal, _)) => return refused(refusal),
    };
    if numbers.len() < count || times.len() < count {
        return refused(OUTPUT_SHORT);
    }
    let mut rest = log;
    for (number, time) in numbers[..count].iter_mut().zip(&mut times[..count]) {
        let Some((n, t, after)) = line(rest) else { unreachable!() };
        *number = n;
        *time = t;
        rest = after;
    }
    Imported { refusal: 0, arrivals: count as u32 }
}

/// Puts the digits of a number and gives back the place after them.
fn put_number(out: &mut [u8], at: usize, value: u64) -> usize {
    let end = at + value.checked_ilog10().unwrap_or(0) as usize + 1;
    let mut rest = value;
    for octet in out[at..end].iter_mut().rev() {
        *octet = b'0' + (rest % 10) as u8;
        rest /= 10;
    }
    end
}

fn line_octets(number: u32, time: u64) -> usize {
    let count = |value: u64| value.checked_ilog10().unwrap_or(0) as usize + 1;
    count(u64::from(number)) + count(time / 1000) + 6
}

pub fn write(sent: u32, numbers: &[u32], times: &[u64], out: &mut [u8]) -> Written {
    let refused = |refusal| Written { refusal, length: 0 };
    if sent == 0 || sent as usize > MOST {
        return refused(SENT_OUTSIDE);
    }
    if numbers.len() > MOST {
        return refused(MANY_ARRIVALS);
    }
    if numbers.len() != times.len() {
        return refused(LISTS_DIFFER);
    }
    let mut greatest = 0u64;
    for (&number, &time) in numbers.iter().zip(times) {
        if number == 0 || number > sent {
            return refused(NUMBER_OUTSIDE);
        }
        if greatest.saturating_sub(time) > MOST_BACK {
            return refused(TIME_BACK);
        }
        greatest = greatest.max(time);
    }
    let length: usize = numbers.iter().zip(times).map(|(&number, &time)| line_octets(number, time)).sum();
    if out.len() < length {
        return refused(OUTPUT_SHORT);
    }
    let mut at = 0;
    for (&number, &time) in numbers.iter().zip(times) {
        at = put_number(out, at, u64::from(number));
        out[at] = b';';
        at = put_number(out, at + 1, time / 1000);
        let rest = (time % 1000) as u32;
        let decimals =
            [b',', b'0' + (rest / 100) as u8, b'0' + (rest / 10 % 10) as u8, b'0' + (rest % 10) as u8, b'\n'];
        out[at..at + 5].copy_from_slice(&decimals);
        at += 5;
    }
    Written { refusal: 0, length: length as u32 }
}

// Logs.

/// A log of so many arrivals in order, as a supplier may write it, with its K: packet r at some 20 milliseconds times r.
fn log_of(random: &mut Random, many: usize) -> Vec<u8> {
    let mut log = Vec::new();
    for record in 1..=many {
        let micros = 20_000 * record as u64 + random.below(10_000) as u64;
        let (whole, rest) = (micros / 1000, micros % 1000);
        log.extend(format!("{record};{whole},{rest:03}\n").bytes());
    }
    log
}

/// A log of so many arrivals by a clock that steps by 0 to 1,001 in both directions.
fn stepping_log(random: &mut Random, many: usize) -> Vec<u8> {
    let apart = random.pick(&[0, 1, 300, 1000]);
    let mut log = Vec::new();
    for record in 1..=many {
        let (time, step) = (2000 + apart * record as u64, clock_step(random));
        let micros = if random.once_in(2) { time + step } else { time - step };
        log.extend(format!("{record};{}.{:03}\n", micros / 1000, micros % 1000).bytes());
    }
    log
}

/// A log with a small change somewhere, or none.
fn damaged(random: &mut Random, mut log: Vec<u8>) -> Vec<u8> {
    const OCTETS: &[u8] = b"0123456789;,.\n\r -+x/:\0";
    for _ in 0..random.below(3) {
        let at = random.below(log.len() + 1);
        match random.below(4) {
            0 if at < log.len() => log[at] = random.pick(OCTETS),
            1 if at < log.len() => drop(log.remove(at)),
            2 => log.insert(at, random.pick(OCTETS)),
            _ => log.truncate(if random.once_in(8) { at } else { log.len() }),
        }
    }
    log
}

/// A line with values near the ends of their ranges and forms of every kind.
fn odd_line(random: &mut Random, sent: u32, greatest: u64) -> Vec<u8> {
    const TIMES: [u64; 6] = [0, 1, u64::MAX, u64::MAX - 1, u64::MAX / 1000, 999];
    let number = match random.below(12) {
        0 => 0,
        1 => u64::from(sent) + 1,
        2 => random.pick(&[u64::from(u32::MAX), 1 << 32, (1 << 32) + 1, u64::MAX]),
        _ => random.between(1, sent as usize) as u64,
    };
    let micros = match random.below(16) {
        0 => random.pick(&TIMES),
        1 | 2 => greatest.saturating_sub(clock_step(random)),
        _ => greatest.saturating_add(random.below(3000) as u64),
    };
    let (whole, rest) = (u128::from(micros) / 1000 + u128::from(random.once_in(60)), micros % 1000);
    let zeros = "0".repeat(if random.once_in(6) { random.below(40) } else { 0 });
    let mark = random.pick(&[',', '.']);
    let time = match random.below(5) {
        0 if rest == 0 => format!("{whole}"),
        1 if rest % 100 == 0 => format!("{whole}{mark}{}", rest / 100),
        2 if rest % 10 == 0 => format!("{whole}{mark}{:02}", rest / 10),
        3 if random.once_in(20) => format!("{whole}{mark}{rest:04}"),
        _ => format!("{whole}{mark}{rest:03}"),
    };
    format!("{zeros}{number};{zeros}{time}\n").into_bytes()
}

fn odd_log(random: &mut Random, sent: u32) -> Vec<u8> {
    let mut log = Vec::new();
    let mut greatest = 0;
    for _ in 0..random.below(6) {
        let line = odd_line(random, sent, greatest);
        let mut time = [0];
        if import(&line, sent, &mut [0], &mut time).refusal == 0 {
            greatest = time[0].max(greatest);
        }
        log.extend(line);
    }
    log
}

// The comparison.

/// The library against the reference on logs made from a seed, and on some of a million digits; the text of the first
/// difference names the log.
pub fn compare(seed: u64, logs: u64, seen: &mut Seen) -> Result<(), String> {
    for (digit, first, last) in
        [("0", "", "1;1\n"), ("9", "", "9;1\n"), ("0", "1;", "5,5\n"), ("9", "1;", "9\n"), ("0", "1;0,", "1\n")]
    {
        let log = format!("{first}{}{last}", digit.repeat(1_000_000));
        one(&mut Random::new(seed, 0), log.as_bytes(), 1, seen).map_err(|text| format!("a million digits: {text}"))?;
    }
    for index in 0..logs {
        let mut random = Random::new(seed ^ 0x7465_7874, index);
        let many = if random.once_in(500) { random.between(MOST - 1, MOST + 2) } else { random.below(8) };
        let sent = if random.once_in(40) {
            random.pick(&[0, 4097, u32::MAX])
        } else {
            random.between(many.clamp(1, MOST), MOST) as u32
        };
        let log = match random.below(4) {
            0 => odd_log(&mut random, sent.clamp(1, 4096)),
            1 => log_of(&mut random, many),
            2 => stepping_log(&mut random, many),
            _ => {
                let log = log_of(&mut random, many);
                damaged(&mut random, log)
            }
        };
        one(&mut random, &log, sent, seen)
            .map_err(|text| format!("log {index} of seed {seed}: {text}{:?}", String::from_utf8_lossy(&log)))?;
    }
    Ok(())
}

fn one(random: &mut Random, log: &[u8], sent: u32, seen: &mut Seen) -> Result<(), String> {
    let places = log.iter().filter(|&&octet| octet == b'\n').count() + 2;
    let short = |random: &mut Random| if random.once_in(6) { random.below(places) } else { places };
    let (n, t) = (short(random), short(random));
    let mut left = (vec![77; n], vec![99; t]);
    let mut right = left.clone();
    let a = import_by_library(log, sent, &mut left.0, &mut left.1);
    let b = import(log, sent, &mut right.0, &mut right.1);
    seen.call("import", a.refusal);
    if (a, &left) != (b, &right) {
        return Err(format!("import\n left {a:?} {left:?}\nright {b:?} {right:?}\n"));
    }
    let (line, found) = (refused_line_by_library(log, sent), refused_line(log, sent));
    seen.call("import line", 0);
    if line != found {
        return Err(format!("refused line\n left {line}\nright {found}\n"));
    }
    for line in log.split_inclusive(|&octet| octet == b'\n').take(3) {
        let (left, right) = (read_line_by_library(line), read_line(line));
        seen.call("read a line", left.0);
        if left != right {
            return Err(format!("a line\n left {left:?}\nright {right:?}\n"));
        }
        faults(random, line, right.0, seen)?;
    }
    let at = if random.once_in(20) { random.draw() as usize } else { random.below(places + 2) };
    let (line, found) = (text_line_by_library(log, at), text_line(log, at));
    seen.call("line of a text", 0);
    if line != found {
        return Err(format!("line {at} of a text\n left {line:?}\nright {found:?}\n"));
    }
    let most = if a.refusal == 0 { a.arrivals as usize } else { n.min(t) };
    let one_short = usize::from(random.once_in(20) && most > 0);
    let (numbers, mut times) = (&left.0[..most.min(n)], left.1[..(most - one_short).min(t)].to_vec());
    if random.once_in(10) {
        times.reverse();
    }
    let room = 46 * most + 3;
    let room = if random.once_in(4) { random.below(room) } else { room };
    let mut left = vec![b'.'; room];
    let mut right = left.clone();
    let a = write_by_library(sent, numbers, &times, &mut left);
    let b = write(sent, numbers, &times, &mut right);
    seen.call("write text", a.refusal);
    if (a, &left) != (b, &right) {
        return Err(format!("write\n left {a:?} {left:?}\nright {b:?} {right:?}\n"));
    }
    Ok(())
}

/// What is wrong with a line, and with the same line damaged; nothing is with one that is not refused.
fn faults(random: &mut Random, line: &[u8], refusal: u32, seen: &mut Seen) -> Result<(), String> {
    let mut other = if line.len() < 100 { damaged(random, line.to_vec()) } else { Vec::new() };
    match random.below(8) {
        0 => drop(other.splice(..0, b"\xEF\xBB\xBF"[..random.between(1, 3)].iter().copied())),
        1 => drop(other.splice(other.len().saturating_sub(1).., *b"\r\n")),
        2 => other.extend(b"\n;"),
        _ => {}
    }
    for (line, refused) in [(line, refusal != 0), (&other, read_line(&other).0 != 0)] {
        let (left, right) = (line_fault_by_library(line), line_fault(line));
        seen.call("fault of a line", 0);
        seen.kind(FAULTS[right as usize]);
        if left != right || right != FORMED && !refused {
            let line = String::from_utf8_lossy(line);
            return Err(format!("fault of {line:?}, refused {refused}\n left {left}\nright {right}\n"));
        }
    }
    Ok(())
}

const FAULTS: [&str; 9] = [
    "line fault: none",
    "line fault: byte order mark",
    "line fault: empty line",
    "line fault: no digit",
    "line fault: carriage return",
    "line fault: no line feed",
    "line fault: number over",
    "line fault: many decimals",
    "line fault: other",
];

// The measurement.

/// Import and write of so many lines, in nanoseconds of a call.
pub fn time(amounts: &[usize]) {
    println!("{:22} {:>5} {:>11} {:>11} {:>6}", "text log", "A", "library", "reference", "ratio");
    for &many in amounts {
        let log = log_of(&mut Random::new(1, 1), many);
        let mut lists = [(); 2].map(|()| (vec![0; many], vec![0; many]));
        let [l, r] = lists.each_mut();
        let sent = many as u32;
        let [library, reference] = measure([
            calls(|| import_by_library(black_box(&log), sent, &mut l.0, &mut l.1)),
            calls(|| import(black_box(&log), sent, &mut r.0, &mut r.1)),
        ]);
        row("import", many, library, reference);
        let [(numbers, times), _] = lists;
        let mut outs = [(); 2].map(|()| vec![0; 46 * many]);
        let [lo, ro] = outs.each_mut();
        let [library, reference] = measure([
            calls(|| write_by_library(sent, black_box(&numbers), &times, lo)),
            calls(|| write(sent, black_box(&numbers), &times, ro)),
        ]);
        row("write", many, library, reference);
    }
}

fn row(name: &str, many: usize, library: f64, reference: f64) {
    println!("{name:22} {many:5} {library:11.0} {reference:11.0} {:6.2}", library / reference);
}
