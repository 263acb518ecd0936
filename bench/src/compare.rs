//! Compares two meters call by call on one generated input. A difference is given back as text: the call, both
//! answers and the input.

use std::collections::BTreeMap;
use std::fmt::{Debug, Write};

use crate::boundary::Meter;
use crate::definition::Account;
use crate::generate::{ArrivalList, SampleCase, StateCase};
use crate::reference::{Answer, Answered, Degree, LateTime, Ratios, Receiver, Step, LISTING_ROOM, LONGEST_FILE};

/// How often each call was compared with each refusal, and how often each kind of answer came.
#[derive(Default)]
pub struct Seen {
    pub calls: u64,
    pub arrivals: u64,
    pub refusals: BTreeMap<(&'static str, u32), u64>,
    pub kinds: BTreeMap<&'static str, u64>,
}

impl Seen {
    pub fn call(&mut self, name: &'static str, refusal: u32) {
        self.calls += 1;
        *self.refusals.entry((name, refusal)).or_default() += 1;
    }

    pub fn kind(&mut self, name: &'static str) {
        *self.kinds.entry(name).or_default() += 1;
    }

    /// One line for each call: refusal and how often.
    pub fn table(&self) -> String {
        let mut table = String::new();
        let mut last = "";
        for (&(name, refusal), many) in &self.refusals {
            if name != last {
                let _ = write!(table, "{}{name:11}", if last.is_empty() { "" } else { "\n" });
                last = name;
            }
            let _ = write!(table, " {refusal}:{many}");
        }
        table.push('\n');
        for (name, many) in &self.kinds {
            let _ = writeln!(table, "{name}: {many}");
        }
        table
    }
}

fn same<T: PartialEq + Debug>(call: &str, left: T, right: T) -> Result<(), String> {
    if left == right {
        Ok(())
    } else {
        Err(format!("{call}\n left {left:?}\nright {right:?}\n"))
    }
}

fn same_memory<T: PartialEq + Debug + Copy>(call: &str, left: &[T], right: &[T]) -> Result<(), String> {
    if left == right {
        return Ok(());
    }
    let at = left.iter().zip(right).position(|(l, r)| l != r);
    let values = at.map(|at| (left[at], right[at]));
    Err(format!("{call}: lent memory differs at {at:?}: {values:?}, lengths {} {}\n", left.len(), right.len()))
}

fn hex(octets: &[u8]) -> String {
    octets.iter().fold(String::new(), |mut text, octet| {
        let _ = write!(text, "{octet:02x}");
        text
    })
}

/// Ratios are equal if their bits are.
fn degree_bits(degree: Degree) -> (u32, Option<u64>) {
    (degree.refusal, degree.ratio.map(f64::to_bits))
}

fn ratio_bits(ratios: Ratios) -> (u32, Option<[u64; 3]>) {
    (ratios.refusal, ratios.figures.map(|f| [f.reordered, f.degree_1, f.degree_3].map(f64::to_bits)))
}

/// What lent memory holds before a call.
const OCTET: u8 = 0xA7;
const SIZE: u16 = 0xA7A7;
const NUMBER: u32 = 0xA7A7_A7A7;
const TIME: u64 = 0xA7A7_A7A7_A7A7_A7A7;

/// Two lent buffers, used again for each sample.
pub struct Buffers {
    left: Vec<u8>,
    right: Vec<u8>,
}

impl Default for Buffers {
    fn default() -> Buffers {
        Buffers { left: vec![OCTET; LISTING_ROOM + 64], right: vec![OCTET; LISTING_ROOM + 64] }
    }
}

pub fn sample(
    left: &dyn Meter,
    right: &dyn Meter,
    case: &SampleCase,
    buffers: &mut Buffers,
    seen: &mut Seen,
) -> Result<(), String> {
    compare_sample(left, right, case, buffers, seen).map_err(|text| {
        format!("{text}{:?} {:?} lists {:?} file {}", case.order, case.damages, case.room, hex(&case.file))
    })
}

fn compare_sample(
    left: &dyn Meter,
    right: &dyn Meter,
    case: &SampleCase,
    buffers: &mut Buffers,
    seen: &mut Seen,
) -> Result<(), String> {
    let file = &case.file[..];
    let found = left.check(file);
    same("check", found, right.check(file))?;
    seen.call("check", found.refusal);
    read(left, right, case, seen)?;
    write(left, right, case, seen)?;
    let label = left.label(file);
    same("label", label, right.label(file))?;
    seen.call("label", label.refusal);
    for &record in &case.records {
        let answer = left.answer(file, record);
        same(&format!("answer {record}"), answer, right.answer(file, record))?;
        seen.call("answer", answer.refusal);
        match answer.answer {
            _ if answer.refusal != 0 => {}
            Answer::Duplicate { .. } => seen.kind("answer: duplicate"),
            Answer::InOrder { .. } => seen.kind("answer: in order"),
            Answer::Reordered { extent, largest_n, late_time, .. } => {
                seen.kind(match late_time {
                    LateTime::After(_) => "answer: reordered, late after",
                    LateTime::Before(_) => "answer: reordered, late before",
                });
                if extent > 100 {
                    seen.kind("answer: extent over 100");
                }
                if largest_n > 100 {
                    seen.kind("answer: largest n over 100");
                }
                if largest_n > 0 && largest_n < extent {
                    seen.kind("answer: largest n from 1 to below the extent");
                }
            }
        }
        let gap = left.gap(file, record);
        same(&format!("gap {record}"), gap, right.gap(file, record))?;
        seen.call("gap", gap.refusal);
        if gap.gap.is_some() {
            seen.kind("gap: some");
        }
    }
    let counts = left.counts(file);
    same("counts", counts, right.counts(file))?;
    seen.call("counts", counts.refusal);
    let tally = left.tally(file);
    same("tally", tally, right.tally(file))?;
    seen.call("tally", tally.refusal);
    if tally.places[0] > 0 && tally.places[100] > 0 {
        seen.kind("tally: places 0 and 100 both used");
    }
    for &n in &case.degrees {
        let counts = left.n_reordered(file, n);
        same(&format!("n_reordered {n}"), counts, right.n_reordered(file, n))?;
        seen.call("n_reordered", counts.refusal);
        let degree = degree_bits(left.degree(file, n));
        same(&format!("degree {n}"), degree, degree_bits(right.degree(file, n)))?;
        seen.call("degree", degree.0);
    }
    let ratios = ratio_bits(left.ratios(file));
    same("ratios", ratios, ratio_bits(right.ratios(file)))?;
    seen.call("ratios", ratios.0);
    if ratios == (0, None) {
        seen.kind("ratios: undefined without a refusal");
    }
    listing(left, right, case, buffers, seen)
}

fn read(left: &dyn Meter, right: &dyn Meter, case: &SampleCase, seen: &mut Seen) -> Result<(), String> {
    let [sizes, numbers, times] = case.room;
    let call = |meter: &dyn Meter| {
        let (mut sizes, mut numbers, mut times) = (vec![SIZE; sizes], vec![NUMBER; numbers], vec![TIME; times]);
        let read = meter.read(&case.file, &mut sizes, &mut numbers, &mut times);
        (read, sizes, numbers, times)
    };
    let (l, r) = (call(left), call(right));
    same("read", l.0, r.0)?;
    same_memory("read sizes", &l.1, &r.1)?;
    same_memory("read numbers", &l.2, &r.2)?;
    same_memory("read times", &l.3, &r.3)?;
    seen.call("read", l.0.refusal);
    if l.0.refusal == 0 {
        accepted(case, l.0.sent, l.0.arrivals, seen);
    }
    Ok(())
}

/// The most that a time is below the greatest earlier one.
fn most_back(times: &[u64]) -> u64 {
    let mut greatest = 0;
    times.iter().fold(0, |most, &time| {
        greatest = time.max(greatest);
        most.max(greatest - time)
    })
}

/// Notes accepted samples at the limits.
fn accepted(case: &SampleCase, sent: u32, arrivals: u32, seen: &mut Seen) {
    let label = u16::from_be_bytes([case.file[0], case.file[1]]);
    let limits = [
        (label == 0, "file: label of 0 octets"),
        (label == 64, "file: label of 64 octets"),
        (sent == 1, "file: K of 1"),
        (sent == 4096, "file: K of 4,096"),
        (arrivals == 0, "file: A of 0"),
        (arrivals == 4096, "file: A of 4,096"),
        (case.file.len() == LONGEST_FILE, "file: longest"),
        (case.draft.times.windows(2).any(|pair| pair[0] == pair[1]), "file: equal times"),
        (case.draft.times.windows(2).any(|pair| pair[1] < pair[0]), "file: a time below the one before"),
        (most_back(&case.draft.times) == 1000, "file: a time 1,000 below the greatest"),
    ];
    limits.iter().filter(|limit| limit.0).for_each(|limit| seen.kind(limit.1));
}

fn write(left: &dyn Meter, right: &dyn Meter, case: &SampleCase, seen: &mut Seen) -> Result<(), String> {
    let draft = &case.draft;
    let call = |meter: &dyn Meter| {
        let mut out = vec![OCTET; case.out];
        (meter.write(&draft.label, &draft.sizes, &draft.numbers, &draft.times, &mut out), out)
    };
    let (l, r) = (call(left), call(right));
    let name = format!(
        "write label {} sizes {} numbers {:?} times {:?} out {}",
        draft.label.len(),
        draft.sizes.len(),
        draft.numbers,
        draft.times,
        case.out
    );
    same(&name, l.0, r.0)?;
    same_memory(&name, &l.1, &r.1)?;
    seen.call("write", l.0.refusal);
    let judge = |meter: &dyn Meter| meter.refusal_of_lists(draft.sizes.len() as u64, &draft.numbers, &draft.times);
    let (l, r) = (judge(left), judge(right));
    same(&name, l, r)?;
    seen.call("refusal_of_lists", l);
    Ok(())
}

fn listing(
    left: &dyn Meter,
    right: &dyn Meter,
    case: &SampleCase,
    buffers: &mut Buffers,
    seen: &mut Seen,
) -> Result<(), String> {
    let l = left.listing(&case.file, &mut buffers.left[..case.listing]);
    let r = right.listing(&case.file, &mut buffers.right[..case.listing]);
    let memory = same_memory("listing", &buffers.left, &buffers.right);
    let rest = &buffers.left[l.length as usize..];
    let clean = rest.iter().fold(true, |clean, &octet| clean & (octet == OCTET));
    // Everything is laid out anew after a difference, else only what was filled.
    let used = if memory.is_ok() && clean { l.length as usize } else { buffers.left.len() };
    let text = String::from_utf8_lossy(&buffers.left[..l.length as usize]).into_owned();
    buffers.left[..used].fill(OCTET);
    buffers.right[..used].fill(OCTET);
    same("listing", l, r)?;
    memory?;
    seen.call("listing", l.refusal);
    if l.refusal == 0 && l.length as usize == case.listing {
        seen.kind("listing: fills its room");
    }
    if clean {
        Ok(())
    } else {
        Err(format!("listing: octets past its length were written\n{text}"))
    }
}

/// A lent receiver, started afresh by both.
pub fn fresh(
    left: &dyn Meter,
    right: &dyn Meter,
    lent: &Receiver,
    sent: u32,
    seen: &mut Seen,
) -> Result<Receiver, String> {
    let (mut l, mut r) = (lent.clone(), lent.clone());
    let refusal = left.fresh(&mut l, sent);
    same(&format!("fresh {sent}"), (refusal, &l), (right.fresh(&mut r, sent), &r))?;
    seen.call("fresh", refusal);
    Ok(l)
}

/// Feeds both meters from a fresh receiver, and holds the answers to the account.
pub fn arrivals(left: &dyn Meter, right: &dyn Meter, list: &ArrivalList, seen: &mut Seen) -> Result<(), String> {
    let mut account = Account::new(list.sent);
    let mut receiver = fresh(left, right, &Receiver::fresh(1).receiver, list.sent, seen)?;
    for (index, &(number, time)) in list.arrivals.iter().enumerate() {
        let told = |text: String| format!("{text}K {} arrival {index} of {:?}", list.sent, list.arrivals);
        let answered = one_step(left, right, &mut receiver, number, time, seen).map_err(told)?;
        same("account", answered, account.arrive(number, time)).map_err(told)?;
        if receiver.jumps.dropped > 0 && matches!(answered.answer, Step::Exact { .. }) {
            seen.kind("step: exact after a drop");
        }
    }
    seen.arrivals += list.arrivals.len() as u64;
    let r = &receiver;
    let held = [r.first_arrivals, r.duplicates, r.in_order, r.open_run, r.closed_runs, r.squares];
    same("figures of the account", held, account.figures())
}

/// One step of each meter from `receiver`, which then holds the left one's state.
fn one_step(
    left: &dyn Meter,
    right: &dyn Meter,
    receiver: &mut Receiver,
    number: u32,
    time: u64,
    seen: &mut Seen,
) -> Result<Answered, String> {
    let (mut l, mut r) = (receiver.clone(), receiver.clone());
    let answered = left.step(&mut l, number, time);
    same("step", answered, right.step(&mut r, number, time))?;
    same("step, the state", &l, &r)?;
    if answered.refusal != 0 {
        same("step refused", &l, &*receiver)?;
    }
    seen.call("step", answered.refusal);
    match answered.answer {
        _ if answered.refusal == 10 && !receiver.unfit() => seen.kind("step: no greater kept jump"),
        _ if answered.refusal != 0 => {}
        Step::Duplicate => seen.kind("step: duplicate"),
        Step::InOrder { jump: 0 } => seen.kind("step: in order"),
        Step::InOrder { .. } if receiver.jumps.kept == 64 => seen.kind("step: jump, the oldest dropped"),
        Step::InOrder { .. } => seen.kind("step: jump"),
        Step::Exact { late_time: LateTime::After(_), .. } => seen.kind("step: exact, late after"),
        Step::Exact { late_time: LateTime::Before(_), .. } => seen.kind("step: exact, late before"),
        Step::Beyond { late_time: LateTime::After(_), .. } => seen.kind("step: beyond, late after"),
        Step::Beyond { late_time: LateTime::Before(_), .. } => seen.kind("step: beyond, late before"),
    }
    *receiver = l;
    Ok(answered)
}

/// A step from an arbitrary state, then some more from what came of it, which may be unfit.
pub fn state(left: &dyn Meter, right: &dyn Meter, case: &StateCase, seen: &mut Seen) -> Result<(), String> {
    let mut receiver = case.receiver.clone();
    let mut number = case.number;
    for _ in 0..3 {
        let state = receiver.clone();
        one_step(left, right, &mut receiver, number, case.time, seen)
            .map_err(|text| format!("{text}{:?} number {number} time {} state {state:?}", case.kind, case.time))?;
        if receiver.unfit() && !state.unfit() {
            seen.kind("step: a fit state leaves an unfit one");
        }
        number = number % receiver.sent.max(1) + 1;
    }
    seen.arrivals += 3;
    Ok(())
}
