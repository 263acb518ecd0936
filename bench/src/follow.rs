//! What `krakobran follow` says: the archive's texts of lines and of counts against texts of the reference's receiver, and of figures
//! that are made up.

use crate::archive::{c, fresh_state, given, lent, one_figure};
use crate::compare::Seen;
use crate::generate::{arrival_list, Random};
use crate::reference::{Answered, LateTime, Receiver, Step, OUTPUT_SHORT, OUTSIDE};
use crate::text::{line, LINE_MALFORMED};
use crate::words::words;

/// Room for any of these texts.
const ROOM: usize = 256;

// The reference.

/// What is noted with these figures, if anything is.
fn step_of(n: &c::Noted) -> Option<Step> {
    let [jump, extent] = [n.jump, n.extent].map(|figure| u32::try_from(figure).ok());
    let late_time = if n.kind % 3 == 1 { LateTime::After(n.late) } else { LateTime::Before(n.late) };
    match (n.kind, jump?, extent?, n.late) {
        (0, jump, 0, 0) => Some(Step::InOrder { jump }),
        (1 | 2, 0, extent, _) => Some(Step::Exact { extent, late_time }),
        (3, 0, 0, 0) => Some(Step::Duplicate),
        (4 | 5, 0, extent, _) => Some(Step::Beyond { extent, late_time }),
        _ => None,
    }
}

fn packets(extent: u32) -> String {
    format!("{extent} packet{}", if extent == 1 { "" } else { "s" })
}

fn outcome(Answered { refusal, answer }: Answered) -> String {
    match answer {
        _ if refusal != 0 => format!("refused {refusal}: {}\n", words(u64::from(refusal)).unwrap_or("")),
        Step::Duplicate => "copy\n".to_string(),
        Step::InOrder { jump } => format!("in order, jump {jump}\n"),
        Step::Exact { extent, late_time: LateTime::After(t) | LateTime::Before(t @ 0) } => {
            format!("late by {}, {t} us\n", packets(extent))
        }
        Step::Exact { extent, late_time: LateTime::Before(t) } => format!("late by {}, -{t} us\n", packets(extent)),
        Step::Beyond { extent, .. } => format!("late by more than {}, beyond the window\n", packets(extent)),
    }
}

/// What is said of a line by an outcome; nothing if there is none.
fn said(text: &[u8], answered: Option<Answered>) -> Option<String> {
    let Some((number, time, [])) = line(text) else {
        return Some(outcome(Answered { refusal: LINE_MALFORMED, answer: Step::InOrder { jump: 0 } }));
    };
    answered.map(|answered| format!("{number} at {time} us: {}", outcome(answered)))
}

fn counts(r: &Receiver) -> String {
    format!(
        "accepted {}, in order {}, reordered {}, copies {}, closed runs {}, open run {}\n",
        r.first_arrivals + r.duplicates,
        r.in_order,
        r.first_arrivals - r.in_order,
        r.duplicates,
        r.closed_runs,
        r.open_run
    )
}

// The comparison.

/// Whether a call fills `room` octets with this text, or is refused.
fn same(
    name: &'static str,
    text: Option<&str>,
    room: usize,
    seen: &mut Seen,
    call: impl FnOnce(*mut u8, u64, *mut u64) -> u64,
) -> Result<(), String> {
    let mut left = vec![0xA7; room];
    let mut right = left.clone();
    let (o, places) = lent(&mut left);
    let a = one_figure(|w| call(o, places, w));
    let b = match text {
        None => (OUTSIDE, 0),
        Some(text) if text.len() > room => (OUTPUT_SHORT, 0),
        Some(text) => {
            right[..text.len()].copy_from_slice(text.as_bytes());
            (0, text.len() as u32)
        }
    };
    seen.call(name, a.0);
    if (a, &left) == (b, &right) {
        return Ok(());
    }
    let [left, right] = [left, right].map(|octets| String::from_utf8_lossy(&octets).into_owned());
    Err(format!("{name}\n left {a:?} {left}\nright {b:?} {right}\n"))
}

fn same_line(
    log: &[u8],
    refusal: u64,
    noted: &c::Noted,
    text: Option<&str>,
    room: usize,
    seen: &mut Seen,
) -> Result<(), String> {
    let (l, octets) = given(log);
    same("follow line", text, room, seen, |o, places, w| unsafe {
        c::krakobran_follow_line(l, octets, refusal, noted, o, places, w)
    })
}

/// A line of an arrival, at times cut or with another octet.
fn made_line(random: &mut Random, number: u32, time: u64) -> Vec<u8> {
    let mut log = format!("{number};{},{:03}\n", time / 1000, time % 1000).into_bytes();
    if random.once_in(20) {
        let at = random.below(log.len());
        match random.below(2) {
            0 => log.truncate(at),
            _ => log[at] = random.pick(b"0;,.x\n"),
        }
    }
    log
}

/// Both receivers are fed the lines of a list, and tell their counts.
fn list(seed: u64, index: u64, seen: &mut Seen) -> Result<(), String> {
    let list = arrival_list(seed, index);
    let random = &mut Random::new(!seed, index);
    let (mut right, mut left) = (Receiver::fresh(list.sent).receiver, fresh_state());
    unsafe { c::krakobran_receiver_fresh(&mut left, list.sent) };
    for (number, time) in list.arrivals {
        let log = made_line(random, number, time);
        let (mut noted, mut refusal, mut answered) = (c::Noted::LENT, 0, None);
        if let Some((number, time, [])) = line(&log) {
            refusal = unsafe { c::krakobran_receiver_step(&mut left, number, time, &mut noted) };
            answered = Some(right.step_mut(number, time));
        }
        let text = said(&log, answered);
        same_line(&log, refusal, &noted, text.as_deref(), ROOM, seen)?;
    }
    let short = random.below(80);
    let (s, room) = (&left.stream, random.pick(&[ROOM, short]));
    same("follow counts", Some(&counts(&right)), room, seen, |o, places, w| unsafe {
        c::krakobran_follow_counts(s.arrived, s.inorder, s.duplicates, s.runs.closed, s.runs.current, o, places, w)
    })
}

/// A number that is made up: 0, a small one, one at the end of 32 bits, or any.
fn made_up(random: &mut Random, once_in: usize) -> u64 {
    match random.below(once_in) {
        0 => {
            let many = random.below(64);
            random.draw() >> many
        }
        1 => random.pick(&[u64::from(u32::MAX), 1 << 32, u64::MAX]),
        2 | 3 => random.below(3) as u64,
        _ => 0,
    }
}

/// A line, a refusal and figures that are made up.
fn figures(seed: u64, index: u64, seen: &mut Seen) -> Result<(), String> {
    let random = &mut Random::new(seed, index);
    let (number, time) = (random.draw() as u32, made_up(random, 3));
    let log = made_line(random, number, time);
    let (refusal, any) = (made_up(random, 30), made_up(random, 1));
    let kind = random.pick(&[0, 1, 2, 3, 4, 5, 6, any]);
    let noted = c::Noted { kind, jump: made_up(random, 9), extent: made_up(random, 9), late: made_up(random, 9) };
    let outcome = u32::try_from(refusal).ok().zip(step_of(&noted));
    let answered = outcome.map(|(refusal, answer)| Answered { refusal, answer });
    let short = random.below(120);
    let room = random.pick(&[ROOM, ROOM, short]);
    same_line(&log, refusal, &noted, said(&log, answered).as_deref(), room, seen)
}

/// The lines of lists of arrivals, and lines with figures that are made up.
pub fn compare(seed: u64, lists: u64, states: u64, seen: &mut Seen) -> Result<(), String> {
    for index in 0..lists {
        list(seed, index, seen).map_err(|text| format!("followed list {index} of seed {seed}: {text}"))?;
    }
    for index in 0..states {
        figures(seed, index, seen).map_err(|text| format!("followed figures {index} of seed {seed}: {text}"))?;
    }
    Ok(())
}
