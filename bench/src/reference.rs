//! The sample file, the answer for a record, the figures of a sample and the report's listing, written for speed:
//! one pass where the order is kept, and one forward scan of the first arrivals for each reordered packet.
//! The two faster engines at the end are for information.

pub use crate::receiver::{Answered, Fresh, Jumps, LateTime, Receiver, Step};

// The refusals.
/// The file ends before a count or a section does.
pub const FILE_SHORT: u32 = 1;
/// Octets follow the last section.
pub const FILE_LONG: u32 = 2;
/// Label over 64 octets.
pub const LABEL_COUNT: u32 = 3;
/// K is 0 or over 4,096.
pub const SENT_COUNT: u32 = 4;
/// Over 4,096 arrivals.
pub const ARRIVAL_COUNT: u32 = 5;
/// Sequence number outside 1 to K.
pub const NUMBER: u32 = 6;
/// Arrival time over 1,000 below the greatest earlier time.
pub const TIME: u32 = 7;
/// Lent output too short.
pub const OUTPUT_SHORT: u32 = 8;
/// Record outside 1 to A, or n outside 1 to 100.
pub const OUTSIDE: u32 = 9;
/// Receiver state unfit, or a reordered packet with no greater kept jump.
pub const RECEIVER_UNFIT: u32 = 10;
/// The receiver has accepted 4,096 arrivals.
pub const RECEIVER_FULL: u32 = 11;
/// The writer's lists of numbers and of times differ in length.
pub const LISTS_DIFFER: u32 = 12;
/// A label octet outside hexadecimal 20 to 7E.
pub const LABEL_OCTET: u32 = 13;

// The limits of a sample.
pub const MOST_LABEL: usize = 64;
pub const MOST_SENT: usize = 4096;
pub const MOST_ARRIVALS: usize = 4096;
pub const MOST_DEGREE: u32 = 100;
/// How far below the greatest earlier time an arrival may be stamped.
pub const MOST_BACK: u64 = 1000;
/// The octets of the longest sample.
pub const LONGEST_FILE: usize = 2 + MOST_LABEL + 2 + 2 * MOST_SENT + 2 + 12 * MOST_ARRIVALS;
/// Room for every listing, as the library names it: 64 octets for each of 4,096 records; the longest listing has fewer.
pub const LISTING_ROOM: usize = 262_144;

// What the calls give back. The refusal is 0 for an accepted input.

#[derive(Clone, Copy, PartialEq, Eq, Debug, Default)]
pub struct Read {
    pub refusal: u32,
    /// Octets of the label.
    pub label: u32,
    /// K.
    pub sent: u32,
    /// A.
    pub arrivals: u32,
}

#[derive(Clone, Copy, PartialEq, Eq, Debug, Default)]
pub struct Written {
    pub refusal: u32,
    pub length: u32,
}

/// The answer for one arrival.
#[derive(Clone, Copy, PartialEq, Eq, Debug)]
pub enum Answer {
    Duplicate { first_record: u32 },
    InOrder { position: u32, jump: u32 },
    Reordered { position: u32, extent: u32, late_time: LateTime, byte_offset: u32, largest_n: u32 },
}

#[derive(Clone, Copy, PartialEq, Eq, Debug)]
pub struct RecordAnswer {
    pub refusal: u32,
    pub answer: Answer,
}

#[derive(Clone, Copy, PartialEq, Eq, Debug, Default)]
pub struct Counts {
    pub refusal: u32,
    /// L.
    pub first_arrivals: u32,
    pub reordered: u32,
    pub duplicates: u32,
    pub closed_runs: u32,
    pub squares: u32,
    pub open_run: u32,
}

/// Place e: how many extents are e, for e from 1 to 100; place 0: how many are greater.
#[derive(Clone, Copy, PartialEq, Eq, Debug)]
pub struct Tally {
    pub refusal: u32,
    pub places: [u32; 101],
}

#[derive(Clone, Copy, PartialEq, Eq, Debug)]
pub struct Gap {
    pub refusal: u32,
    pub gap: Option<u32>,
}

/// The two counts of a degree: n-reordered packets, and L.
#[derive(Clone, Copy, PartialEq, Eq, Debug, Default)]
pub struct DegreeCounts {
    pub refusal: u32,
    pub reordered: u32,
    pub first_arrivals: u32,
}

#[derive(Clone, Copy, Debug)]
pub struct Degree {
    pub refusal: u32,
    pub ratio: Option<f64>,
}

/// The ratio figures of a sample.
#[derive(Clone, Copy, Debug)]
pub struct Figures {
    pub reordered: f64,
    pub degree_1: f64,
    pub degree_3: f64,
}

#[derive(Clone, Copy, Debug)]
pub struct Ratios {
    pub refusal: u32,
    pub figures: Option<Figures>,
}

// The sample file.

/// A checked file, taken apart.
#[derive(Clone, Copy)]
pub struct Sample<'a> {
    pub label: &'a [u8],
    pub sizes: &'a [[u8; 2]],
    pub arrivals: &'a [[u8; 12]],
}

#[inline(always)]
pub fn number_and_time(arrival: &[u8; 12]) -> (u32, u64) {
    let (number, time) = arrival.split_at(4);
    (u32::from_be_bytes(number.try_into().unwrap()), u64::from_be_bytes(time.try_into().unwrap()))
}

fn take<'a>(rest: &mut &'a [u8], length: usize) -> Result<&'a [u8], u32> {
    let (head, tail) = rest.split_at_checked(length).ok_or(FILE_SHORT)?;
    *rest = tail;
    Ok(head)
}

fn count(rest: &mut &[u8]) -> Result<usize, u32> {
    take(rest, 2).map(|octets| usize::from(octets[0]) << 8 | usize::from(octets[1]))
}

fn judge(holds: bool, refusal: u32) -> Result<(), u32> {
    if holds {
        Ok(())
    } else {
        Err(refusal)
    }
}

/// Judges arrivals in turn, the number before the time.
fn judge_arrivals(arrivals: impl Iterator<Item = (u32, u64)>, sent: u32) -> Result<(), u32> {
    let mut greatest = 0u64;
    for (number, time) in arrivals {
        if number.wrapping_sub(1) >= sent {
            return Err(NUMBER);
        }
        if greatest.saturating_sub(time) > MOST_BACK {
            return Err(TIME);
        }
        greatest = greatest.max(time);
    }
    Ok(())
}

/// Judges the octets of a label.
fn judge_octets(label: &[u8]) -> Result<(), u32> {
    judge(label.iter().all(|octet| (0x20..=0x7E).contains(octet)), LABEL_OCTET)
}

/// The file taken apart, or its refusal, 1 to 7 or 13.
pub fn check(file: &[u8]) -> Result<Sample<'_>, u32> {
    let mut rest = file;
    let length = count(&mut rest)?;
    judge(length <= MOST_LABEL, LABEL_COUNT)?;
    let label = take(&mut rest, length)?;
    judge_octets(label)?;
    let sent = count(&mut rest)?;
    judge((1..=MOST_SENT).contains(&sent), SENT_COUNT)?;
    let sizes = take(&mut rest, 2 * sent)?.as_chunks::<2>().0;
    let length = count(&mut rest)?;
    judge(length <= MOST_ARRIVALS, ARRIVAL_COUNT)?;
    let arrivals = take(&mut rest, 12 * length)?.as_chunks::<12>().0;
    judge(rest.is_empty(), FILE_LONG)?;
    judge_arrivals(arrivals.iter().map(number_and_time), sent as u32)?;
    Ok(Sample { label, sizes, arrivals })
}

impl Read {
    fn refused(refusal: u32) -> Read {
        Read { refusal, ..Read::default() }
    }

    pub fn of(sample: &Sample) -> Read {
        let [label, sent, arrivals] =
            [sample.label.len(), sample.sizes.len(), sample.arrivals.len()].map(|count| count as u32);
        Read { refusal: 0, label, sent, arrivals }
    }
}

/// What is found in a file.
pub fn found(file: &[u8]) -> Read {
    check(file).map_or_else(Read::refused, |sample| Read::of(&sample))
}

/// Fills the three lists from their start.
pub fn read(file: &[u8], sizes: &mut [u16], numbers: &mut [u32], times: &mut [u64]) -> Read {
    let sample = match check(file) {
        Ok(sample) => sample,
        Err(refusal) => return Read::refused(refusal),
    };
    let (sent, arrivals) = (sample.sizes.len(), sample.arrivals.len());
    if sizes.len() < sent || numbers.len() < arrivals || times.len() < arrivals {
        return Read::refused(OUTPUT_SHORT);
    }
    for (size, octets) in sizes.iter_mut().zip(sample.sizes) {
        *size = u16::from_be_bytes(*octets);
    }
    for ((number, time), octets) in numbers.iter_mut().zip(times).zip(sample.arrivals) {
        (*number, *time) = number_and_time(octets);
    }
    Read::of(&sample)
}

/// The label as a part of the file, or the refusal.
pub fn label(file: &[u8]) -> Result<&[u8], u32> {
    check(file).map(|sample| sample.label)
}

/// Fills the octets of the file; those after are untouched.
pub fn write(label: &[u8], sizes: &[u16], numbers: &[u32], times: &[u64], out: &mut [u8]) -> Written {
    match judge_lists(label, sizes, numbers, times, out.len()) {
        Err(refusal) => Written { refusal, length: 0 },
        Ok(length) => {
            fill(label, sizes, numbers, times, &mut out[..length]);
            Written { refusal: 0, length: length as u32 }
        }
    }
}

/// The length of the file of these lists, or the writer's refusal.
fn judge_lists(label: &[u8], sizes: &[u16], numbers: &[u32], times: &[u64], room: usize) -> Result<usize, u32> {
    judge(label.len() <= MOST_LABEL, LABEL_COUNT)?;
    judge_octets(label)?;
    judge((1..=MOST_SENT).contains(&sizes.len()), SENT_COUNT)?;
    judge(numbers.len() <= MOST_ARRIVALS, ARRIVAL_COUNT)?;
    judge(numbers.len() == times.len(), LISTS_DIFFER)?;
    judge_arrivals(numbers.iter().copied().zip(times.iter().copied()), sizes.len() as u32)?;
    let length = 2 + label.len() + 2 + 2 * sizes.len() + 2 + 12 * numbers.len();
    judge(length <= room, OUTPUT_SHORT)?;
    Ok(length)
}

fn fill(label: &[u8], sizes: &[u16], numbers: &[u32], times: &[u64], out: &mut [u8]) {
    let put = |out: &mut [u8], n: usize| out.copy_from_slice(&(n as u16).to_be_bytes());
    let (section, out) = out.split_at_mut(2 + label.len());
    put(&mut section[..2], label.len());
    section[2..].copy_from_slice(label);
    let (section, out) = out.split_at_mut(2 + 2 * sizes.len());
    put(&mut section[..2], sizes.len());
    for (octets, size) in section[2..].as_chunks_mut::<2>().0.iter_mut().zip(sizes) {
        *octets = size.to_be_bytes();
    }
    put(&mut out[..2], numbers.len());
    for ((octets, number), time) in out[2..].as_chunks_mut::<12>().0.iter_mut().zip(numbers).zip(times) {
        octets[..4].copy_from_slice(&number.to_be_bytes());
        octets[4..].copy_from_slice(&time.to_be_bytes());
    }
}

// The answer for a record, and the figures that need no scan.

/// One bit for each packet.
struct Marks([u64; MOST_SENT / 64]);

impl Marks {
    fn new() -> Marks {
        Marks([0; MOST_SENT / 64])
    }

    /// Marks a packet and says whether it was marked before.
    #[inline(always)]
    fn mark(&mut self, number: u32) -> bool {
        let bit = number as usize - 1;
        let word = &mut self.0[bit / 64 % (MOST_SENT / 64)];
        let before = *word >> (bit % 64) & 1 == 1;
        *word |= 1 << (bit % 64);
        before
    }
}

const NO_ANSWER: Answer = Answer::InOrder { position: 0, jump: 0 };

fn judge_record(sample: &Sample, record: u32) -> Result<usize, u32> {
    judge((1..=sample.arrivals.len()).contains(&(record as usize)), OUTSIDE)?;
    Ok(record as usize - 1)
}

pub fn answer(file: &[u8], record: u32) -> RecordAnswer {
    match check(file).and_then(|sample| judge_record(&sample, record).map(|index| answer_at(&sample, index))) {
        Ok(answer) => RecordAnswer { refusal: 0, answer },
        Err(refusal) => RecordAnswer { refusal, answer: NO_ANSWER },
    }
}

/// One pass over the arrivals before, each looked at as that of this packet's first arrival would need it.
fn answer_at(sample: &Sample, index: usize) -> Answer {
    let (wanted, time) = number_and_time(&sample.arrivals[index]);
    let mut marks = Marks::new();
    let (mut greatest, mut position) = (0, 1);
    let (mut earliest, mut earliest_time) = (0, 0);
    let (mut byte_offset, mut largest_n) = (0, 0);
    for (record, arrival) in (1..).zip(&sample.arrivals[..index]) {
        let (number, time) = number_and_time(arrival);
        if number == wanted {
            return Answer::Duplicate { first_record: record };
        }
        if marks.mark(number) {
            continue;
        }
        if number > wanted {
            if earliest == 0 {
                (earliest, earliest_time) = (position, time);
            }
            byte_offset += u32::from(u16::from_be_bytes(sample.sizes[number as usize - 1]));
            largest_n += 1;
        } else {
            largest_n = 0;
        }
        greatest = greatest.max(number);
        position += 1;
    }
    if earliest == 0 {
        return Answer::InOrder { position, jump: wanted - (greatest + 1) };
    }
    let late_time = LateTime::since(earliest_time, time);
    Answer::Reordered { position, extent: position - earliest, late_time, byte_offset, largest_n }
}

/// The counts of a sample, one answer after another.
#[derive(Default)]
struct Counter(Counts);

impl Counter {
    #[inline(always)]
    fn duplicate(&mut self) {
        self.0.duplicates += 1;
    }

    #[inline(always)]
    fn in_order(&mut self) {
        self.0.first_arrivals += 1;
        self.0.open_run += 1;
    }

    #[inline(always)]
    fn reordered(&mut self) {
        self.0.first_arrivals += 1;
        self.0.reordered += 1;
        self.0.closed_runs += 1;
        self.0.squares += self.0.open_run * self.0.open_run;
        self.0.open_run = 0;
    }
}

pub fn counts(file: &[u8]) -> Counts {
    let sample = match check(file) {
        Ok(sample) => sample,
        Err(refusal) => return Counts { refusal, ..Counts::default() },
    };
    let mut counter = Counter::default();
    let mut marks = Marks::new();
    let mut next_expected = 1;
    for arrival in sample.arrivals {
        let number = number_and_time(arrival).0;
        if marks.mark(number) {
            counter.duplicate();
        } else if number >= next_expected {
            next_expected = number + 1;
            counter.in_order();
        } else {
            counter.reordered();
        }
    }
    counter.0
}

// Figures of the reordered packets, each by what it needs and no more.

/// Calls `late` for each reordered packet with the numbers of the first arrivals before it and its own;
/// gives back how many first arrivals there are.
#[inline(always)]
fn each_late(sample: &Sample, mut late: impl FnMut(&[u16], u16)) -> u32 {
    let mut marks = Marks::new();
    let mut firsts = Vec::with_capacity(sample.arrivals.len());
    let mut next_expected = 1;
    for arrival in sample.arrivals {
        let number = number_and_time(arrival).0;
        if marks.mark(number) {
            continue;
        }
        if number >= next_expected {
            next_expected = number + 1;
        } else {
            late(&firsts, number as u16);
        }
        firsts.push(number as u16);
    }
    firsts.len() as u32
}

/// Calls `first` for each first arrival with its number and, if it is reordered, its extent and late time. By number the table has
/// position and time of the jump that skipped it, which is its discontinuity: the earliest arrival with a greater number.
#[inline(always)]
pub fn each_first(sample: &Sample, mut first: impl FnMut(usize, Option<(u32, LateTime)>)) {
    let mut skipped = [(0u32, 0u64); 4097];
    let mut arrived = [false; 4097];
    let (mut position, mut next) = (0, 1);
    for arrival in sample.arrivals {
        let (number, time) = number_and_time(arrival);
        let number = number as usize;
        if std::mem::replace(&mut arrived[number], true) {
            continue;
        }
        position += 1;
        if number >= next {
            skipped[next..number].fill((position, time));
            next = number + 1;
            first(number, None);
        } else {
            let (from, since) = skipped[number];
            first(number, Some((position - from, LateTime::since(since, time))));
        }
    }
}

/// The index of the earliest greater number; a reordered packet has one.
#[inline(always)]
fn earliest_above(numbers: &[u16], number: u16) -> usize {
    numbers.iter().position(|&n| n > number).unwrap_or(0)
}

/// The largest n, or `most` if that is less: so many arrivals are looked at.
#[inline(always)]
fn largest_n_to(numbers: &[u16], number: u16, most: u32) -> u32 {
    numbers.iter().rev().take(most as usize).take_while(|&&n| n > number).count() as u32
}

#[inline(always)]
fn largest_n(numbers: &[u16], number: u16) -> u32 {
    largest_n_to(numbers, number, u32::MAX)
}

#[inline(always)]
fn tally_place(extent: u32) -> usize {
    if extent <= 100 {
        extent as usize
    } else {
        0
    }
}

pub fn tally(file: &[u8]) -> Tally {
    let mut places = [0; 101];
    match check(file) {
        Err(refusal) => Tally { refusal, places },
        Ok(sample) => {
            each_first(&sample, |_, late| {
                if let Some((extent, _)) = late {
                    places[tally_place(extent)] += 1;
                }
            });
            Tally { refusal: 0, places }
        }
    }
}

/// A discontinuity is a jump: the earliest greater arrival was the greatest of all when it came.
pub fn gap(file: &[u8], record: u32) -> Gap {
    let found = check(file).and_then(|sample| judge_record(&sample, record).map(|index| gap_at(&sample, index)));
    match found {
        Ok(gap) => Gap { refusal: 0, gap },
        Err(refusal) => Gap { refusal, gap: None },
    }
}

/// The jumps in order, each with its number, position and the position of the first reordered packet that has it as its own, 0 for
/// none. There is a gap exactly if the neighbour before was discovered earlier.
fn gap_at(sample: &Sample, index: usize) -> Option<u32> {
    let mut marks = Marks::new();
    let mut jumps: Vec<(u32, u32, u32)> = Vec::new();
    let (mut next_expected, mut position, mut wanted) = (1, 0, None);
    for (at, arrival) in sample.arrivals.iter().enumerate() {
        let number = number_and_time(arrival).0;
        if marks.mark(number) {
            continue;
        }
        position += 1;
        if number < next_expected {
            let own = jumps.partition_point(|jump| jump.0 < number);
            if jumps[own].2 == 0 {
                jumps[own].2 = position;
            }
            continue;
        }
        if number > next_expected {
            if at == index {
                wanted = Some(jumps.len());
            }
            jumps.push((number, position, 0));
        }
        next_expected = number + 1;
    }
    let (before, rest) = jumps.split_at(wanted?);
    let (_, position, discoverer) = rest[0];
    let neighbour = before.iter().rev().find(|jump| jump.2 > 0)?;
    (neighbour.2 < discoverer).then(|| position - neighbour.1)
}

fn ratio(part: u32, whole: u32) -> Option<f64> {
    (whole > 0).then(|| f64::from(part) / f64::from(whole))
}

impl DegreeCounts {
    fn refused(refusal: u32) -> DegreeCounts {
        DegreeCounts { refusal, ..DegreeCounts::default() }
    }

    fn degree(self) -> Degree {
        Degree { refusal: self.refusal, ratio: ratio(self.reordered, self.first_arrivals) }
    }
}

fn check_degree(file: &[u8], n: u32) -> Result<Sample<'_>, u32> {
    check(file).and_then(|sample| judge((1..=MOST_DEGREE).contains(&n), OUTSIDE).map(|()| sample))
}

/// From this n on a stack is faster than a look at the n arrivals before.
const DEEP: u32 = 8;

pub fn n_reordered(file: &[u8], n: u32) -> DegreeCounts {
    match check_degree(file, n) {
        Err(refusal) => DegreeCounts::refused(refusal),
        Ok(sample) if n >= DEEP => deeply_reordered(&sample, n),
        Ok(sample) => {
            let mut reordered = 0;
            let first_arrivals =
                each_late(&sample, |firsts, number| reordered += u32::from(largest_n_to(firsts, number, n) >= n));
            DegreeCounts { refusal: 0, reordered, first_arrivals }
        }
    }
}

/// The same by a stack of the numbers that none later is below, each with its position: the greater arrivals right before a packet
/// are those after the topmost smaller one.
fn deeply_reordered(sample: &Sample, n: u32) -> DegreeCounts {
    let mut marks = Marks::new();
    let mut rising: Vec<(u16, u16)> = Vec::with_capacity(sample.arrivals.len());
    let (mut position, mut reordered, mut next_expected) = (0, 0, 1);
    for arrival in sample.arrivals {
        let number = number_and_time(arrival).0;
        if marks.mark(number) {
            continue;
        }
        position += 1;
        while rising.last().is_some_and(|top| u32::from(top.0) > number) {
            rising.pop();
        }
        if number >= next_expected {
            next_expected = number + 1;
        } else {
            let smaller = rising.last().map_or(0, |top| u32::from(top.1));
            reordered += u32::from(position - 1 - smaller >= n);
        }
        rising.push((number as u16, position as u16));
    }
    DegreeCounts { refusal: 0, reordered, first_arrivals: position }
}

pub fn degree(file: &[u8], n: u32) -> Degree {
    n_reordered(file, n).degree()
}

pub fn ratios(file: &[u8]) -> Ratios {
    let sample = match check(file) {
        Ok(sample) => sample,
        Err(refusal) => return Ratios { refusal, figures: None },
    };
    let (mut reordered, mut one, mut three) = (0, 0, 0);
    let whole = each_late(&sample, |firsts, number| {
        let largest = largest_n_to(firsts, number, 3);
        reordered += 1;
        one += u32::from(largest >= 1);
        three += u32::from(largest >= 3);
    });
    Ratios { refusal: 0, figures: figures(reordered, one, three, whole) }
}

fn figures(reordered: u32, one: u32, three: u32, whole: u32) -> Option<Figures> {
    Some(Figures { reordered: ratio(reordered, whole)?, degree_1: ratio(one, whole)?, degree_3: ratio(three, whole)? })
}

// Engines: each takes the arrivals of a checked sample in turn and answers them.

pub trait Engine {
    fn new(sent: usize, arrivals: usize) -> Self;
    fn arrive(&mut self, record: u32, number: u32, time: u64, size: u16) -> Answer;
}

/// The first arrivals so far, by position.
struct Firsts {
    numbers: Vec<u16>,
    sizes: Vec<u16>,
    times: Vec<u64>,
    /// By number: the record of the first arrival, 0 for none.
    records: Vec<u16>,
    next_expected: u32,
}

impl Firsts {
    fn new(sent: usize, arrivals: usize) -> Firsts {
        Firsts {
            numbers: Vec::with_capacity(arrivals),
            sizes: Vec::with_capacity(arrivals),
            times: Vec::with_capacity(arrivals),
            records: vec![0; sent + 1],
            next_expected: 1,
        }
    }

    /// The answer, where `scan` gives index, byte offset and largest n for a reordered packet.
    #[inline(always)]
    fn arrive(
        &mut self,
        (record, number, time, size): (u32, u32, u64, u16),
        scan: impl Fn(&[u16], &[u16], u16) -> (usize, u32, u32),
    ) -> Answer {
        let first = &mut self.records[number as usize];
        if *first != 0 {
            return Answer::Duplicate { first_record: u32::from(*first) };
        }
        *first = record as u16;
        let before = self.numbers.len();
        let position = before as u32 + 1;
        let answer = if number >= self.next_expected {
            let jump = number - self.next_expected;
            self.next_expected = number + 1;
            Answer::InOrder { position, jump }
        } else {
            let (earliest, byte_offset, largest_n) = scan(&self.numbers, &self.sizes, number as u16);
            let (extent, late_time) = ((before - earliest) as u32, LateTime::since(self.times[earliest], time));
            Answer::Reordered { position, extent, late_time, byte_offset, largest_n }
        };
        self.numbers.push(number as u16);
        self.sizes.push(size);
        self.times.push(time);
        answer
    }
}

/// The engine to measure against: one forward scan for each reordered packet.
pub struct Scan(Firsts);

impl Engine for Scan {
    fn new(sent: usize, arrivals: usize) -> Scan {
        Scan(Firsts::new(sent, arrivals))
    }

    #[inline(always)]
    fn arrive(&mut self, record: u32, number: u32, time: u64, size: u16) -> Answer {
        self.0.arrive((record, number, time, size), forward_scan)
    }
}

/// The index of the earliest greater number, the sum of the sizes of all greater ones, and how many stand at the end.
/// Without a branch, since whether a number is greater cannot be foretold: `above` is all ones if it is.
#[inline(never)]
fn forward_scan(numbers: &[u16], sizes: &[u16], number: u16) -> (usize, u32, u32) {
    let earliest = earliest_above(numbers, number);
    let (mut byte_offset, mut largest_n) = (0, 0);
    for (&n, &size) in numbers[earliest..].iter().zip(&sizes[earliest..]) {
        let above = ((i32::from(number) - i32::from(n)) >> 31) as u32;
        byte_offset += u32::from(size) & above;
        largest_n = (largest_n + 1) & above;
    }
    (earliest, byte_offset, largest_n)
}

/// For information: the same scan taken apart, so that it runs several places at a time.
pub struct Lanes(Firsts);

const LANES: usize = 32;

/// How many numbers from the start on are not greater.
#[inline(always)]
fn lanes_to_earliest(numbers: &[u16], number: u16) -> usize {
    let blocks = numbers.chunks(LANES).take_while(|block| block.iter().fold(true, |all, &n| all & (n <= number)));
    let known = (blocks.count() * LANES).min(numbers.len());
    known + earliest_above(&numbers[known..], number)
}

/// How many numbers from the end back are greater.
#[inline(always)]
fn lanes_largest_n(numbers: &[u16], number: u16) -> u32 {
    let blocks = numbers.rchunks(LANES).take_while(|block| block.iter().fold(true, |all, &n| all & (n > number)));
    let known = (blocks.count() * LANES).min(numbers.len());
    known as u32 + largest_n(&numbers[..numbers.len() - known], number)
}

impl Engine for Lanes {
    fn new(sent: usize, arrivals: usize) -> Lanes {
        Lanes(Firsts::new(sent, arrivals))
    }

    #[inline(always)]
    fn arrive(&mut self, record: u32, number: u32, time: u64, size: u16) -> Answer {
        self.0.arrive((record, number, time, size), |numbers, sizes, number| {
            let earliest = lanes_to_earliest(numbers, number);
            let above = |(&n, &size): (&u16, &u16)| u32::from(if n > number { size } else { 0 });
            let byte_offset = numbers[earliest..].iter().zip(&sizes[earliest..]).map(above).sum();
            (earliest, byte_offset, lanes_largest_n(numbers, number))
        })
    }
}

/// For information: no scan at all. A packet's discontinuity is the jump that skipped it; the byte offset comes from
/// a tree of partial sums over the numbers; the nearest smaller arrival from a stack of rising numbers.
pub struct Swift {
    /// By number: the record of the first arrival, 0 for none.
    records: Vec<u16>,
    /// By number: position and time of the jump that skipped it.
    skipped: Vec<(u16, u64)>,
    /// Partial sums of sizes over the numbers.
    sums: Vec<u32>,
    total: u32,
    /// Numbers and positions of the arrivals that none later is below.
    rising: Vec<(u16, u16)>,
    next_expected: u32,
    position: u32,
}

impl Engine for Swift {
    fn new(sent: usize, arrivals: usize) -> Swift {
        Swift {
            records: vec![0; sent + 1],
            skipped: vec![(0, 0); sent + 1],
            sums: vec![0; sent + 1],
            total: 0,
            rising: Vec::with_capacity(arrivals),
            next_expected: 1,
            position: 0,
        }
    }

    fn arrive(&mut self, record: u32, number: u32, time: u64, size: u16) -> Answer {
        let s = number as usize;
        if self.records[s] != 0 {
            return Answer::Duplicate { first_record: u32::from(self.records[s]) };
        }
        self.records[s] = record as u16;
        self.position += 1;
        let position = self.position;
        while self.rising.last().is_some_and(|top| u32::from(top.0) > number) {
            self.rising.pop();
        }
        let smaller = self.rising.last().map_or(0, |top| u32::from(top.1));
        self.rising.push((number as u16, position as u16));
        let answer = if number >= self.next_expected {
            let jump = number - self.next_expected;
            self.skipped[self.next_expected as usize..s].fill((position as u16, time));
            self.next_expected = number + 1;
            Answer::InOrder { position, jump }
        } else {
            let (from, since) = self.skipped[s];
            Answer::Reordered {
                position,
                extent: position - u32::from(from),
                late_time: LateTime::since(since, time),
                byte_offset: self.total - self.sum_to(s),
                largest_n: position - 1 - smaller,
            }
        };
        self.add(s, u32::from(size));
        answer
    }
}

impl Swift {
    fn sum_to(&self, mut at: usize) -> u32 {
        let mut sum = 0;
        while at > 0 {
            sum += self.sums[at];
            at &= at - 1;
        }
        sum
    }

    fn add(&mut self, mut at: usize, size: u32) {
        self.total += size;
        while at < self.sums.len() {
            self.sums[at] += size;
            at += at & at.wrapping_neg();
        }
    }
}

/// Every answer of a checked sample in turn.
#[inline(always)]
pub fn each_answer<E: Engine>(sample: &Sample, mut each: impl FnMut(u32, u32, Answer)) {
    let mut engine = E::new(sample.sizes.len(), sample.arrivals.len());
    for (record, arrival) in (1..).zip(sample.arrivals) {
        let (number, time) = number_and_time(arrival);
        let size = u16::from_be_bytes(sample.sizes[number as usize - 1]);
        each(record, number, engine.arrive(record, number, time, size));
    }
}

// The same figures as folds over whole answers: the work of a library with one engine for all of them.

pub fn tally_of_answers<E: Engine>(file: &[u8]) -> Tally {
    let mut places = [0; 101];
    match check(file) {
        Err(refusal) => Tally { refusal, places },
        Ok(sample) => {
            each_answer::<E>(&sample, |_, _, answer| {
                if let Answer::Reordered { extent, .. } = answer {
                    places[tally_place(extent)] += 1;
                }
            });
            Tally { refusal: 0, places }
        }
    }
}

pub fn ratios_of_answers<E: Engine>(file: &[u8]) -> Ratios {
    let sample = match check(file) {
        Ok(sample) => sample,
        Err(refusal) => return Ratios { refusal, figures: None },
    };
    let (mut whole, mut reordered, mut one, mut three) = (0, 0, 0, 0);
    each_answer::<E>(&sample, |_, _, answer| match answer {
        Answer::Duplicate { .. } => {}
        Answer::InOrder { .. } => whole += 1,
        Answer::Reordered { largest_n, .. } => {
            whole += 1;
            reordered += 1;
            one += u32::from(largest_n >= 1);
            three += u32::from(largest_n >= 3);
        }
    });
    Ratios { refusal: 0, figures: figures(reordered, one, three, whole) }
}

pub fn n_reordered_of_answers<E: Engine>(file: &[u8], n: u32) -> DegreeCounts {
    let sample = match check_degree(file, n) {
        Ok(sample) => sample,
        Err(refusal) => return DegreeCounts::refused(refusal),
    };
    let mut counts = DegreeCounts::default();
    each_answer::<E>(&sample, |_, _, answer| match answer {
        Answer::Duplicate { .. } => {}
        Answer::InOrder { .. } => counts.first_arrivals += 1,
        Answer::Reordered { largest_n, .. } => {
            counts.first_arrivals += 1;
            counts.reordered += u32::from(largest_n >= n);
        }
    });
    counts
}

pub fn degree_of_answers<E: Engine>(file: &[u8], n: u32) -> Degree {
    n_reordered_of_answers::<E>(file, n).degree()
}

// The listing.

/// Text in a lent buffer that has room for all of it.
pub struct Text<'a> {
    pub out: &'a mut [u8],
    pub length: usize,
}

/// The digits of 00 to 99.
const PAIRS: [u8; 200] = {
    let mut pairs = [0; 200];
    let mut n = 0;
    while n < 100 {
        pairs[2 * n] = b'0' + (n / 10) as u8;
        pairs[2 * n + 1] = b'0' + (n % 10) as u8;
        n += 1;
    }
    pairs
};

impl Text<'_> {
    #[inline(always)]
    pub fn word(&mut self, word: &[u8]) {
        self.out[self.length..self.length + word.len()].copy_from_slice(word);
        self.length += word.len();
    }

    /// A decimal number and one octet after it.
    #[inline(always)]
    pub fn number(&mut self, mut number: u64, after: u8) {
        let mut digits = [0; 21];
        digits[20] = after;
        let mut at = 20;
        while number >= 100 {
            let pair = (number % 100) as usize * 2;
            number /= 100;
            at -= 2;
            digits[at..at + 2].copy_from_slice(&PAIRS[pair..pair + 2]);
        }
        if number >= 10 {
            let pair = number as usize * 2;
            at -= 2;
            digits[at..at + 2].copy_from_slice(&PAIRS[pair..pair + 2]);
        } else {
            at -= 1;
            digits[at] = b'0' + number as u8;
        }
        self.word(&digits[at..]);
    }

    #[inline(always)]
    fn numbers<const N: usize>(&mut self, numbers: [u32; N]) {
        for (at, number) in numbers.into_iter().enumerate() {
            self.number(u64::from(number), if at + 1 < N { b' ' } else { b'\n' });
        }
    }

    #[inline(always)]
    fn record(&mut self, record: u32, number: u32, answer: Answer) {
        self.number(u64::from(record), b' ');
        self.number(u64::from(number), b' ');
        match answer {
            Answer::Duplicate { first_record } => {
                self.word(b"copy ");
                self.numbers([first_record]);
            }
            Answer::InOrder { position, jump } => {
                self.word(b"in ");
                self.numbers([position, jump]);
            }
            Answer::Reordered { position, extent, late_time, byte_offset, largest_n } => {
                self.word(b"late ");
                self.number(u64::from(position), b' ');
                self.number(u64::from(extent), b' ');
                let amount = match late_time {
                    LateTime::After(amount) => amount,
                    LateTime::Before(amount) => {
                        self.word(b"-");
                        amount
                    }
                };
                self.number(amount, b' ');
                self.numbers([byte_offset, largest_n]);
            }
        }
    }
}

/// The report of a sample in a lent buffer; 8 if it does not fit. With a refusal nothing is written.
pub fn listing(file: &[u8], out: &mut [u8]) -> Written {
    listing_by::<Scan>(file, out)
}

pub fn listing_by<E: Engine>(file: &[u8], out: &mut [u8]) -> Written {
    let sample = match check(file) {
        Ok(sample) => sample,
        Err(refusal) => return Written { refusal, length: 0 },
    };
    if out.len() >= LISTING_ROOM {
        return Written { refusal: 0, length: lines::<E>(&sample, out) as u32 };
    }
    let mut whole = vec![0; LISTING_ROOM];
    let length = lines::<E>(&sample, &mut whole);
    match out.get_mut(..length) {
        None => Written { refusal: OUTPUT_SHORT, length: 0 },
        Some(out) => {
            out.copy_from_slice(&whole[..length]);
            Written { refusal: 0, length: length as u32 }
        }
    }
}

/// What the report program prints: the listing, or the one line of a refused input.
pub fn report(file: &[u8]) -> Vec<u8> {
    let mut out = vec![0; LISTING_ROOM];
    let written = listing(file, &mut out);
    if written.refusal != 0 {
        return format!("refused {}\n", written.refusal).into_bytes();
    }
    out.truncate(written.length as usize);
    out
}

/// Writes the lines of a sample where there is room for any; how many octets they have.
fn lines<E: Engine>(sample: &Sample, out: &mut [u8]) -> usize {
    let text = &mut Text { out, length: 0 };
    text.word(b"sent ");
    text.number(sample.sizes.len() as u64, b' ');
    text.word(b"arrivals ");
    text.numbers([sample.arrivals.len() as u32]);
    let mut counter = Counter::default();
    each_answer::<E>(sample, |record, number, answer| {
        match answer {
            Answer::Duplicate { .. } => counter.duplicate(),
            Answer::InOrder { .. } => counter.in_order(),
            Answer::Reordered { .. } => counter.reordered(),
        }
        text.record(record, number, answer);
    });
    let c = counter.0;
    text.word(b"end ");
    text.numbers([c.first_arrivals, c.reordered, c.duplicates, c.closed_runs, c.squares, c.open_run]);
    text.length
}
