//! Inputs: samples, arrival lists for a receiver and receiver states. Each is made from a seed and an index, so that
//! any one of them can be made again.

use crate::reference::{report, Receiver, LISTING_ROOM, LONGEST_FILE, MOST_ARRIVALS, MOST_LABEL, MOST_SENT};

/// SplitMix64.
pub struct Random(u64);

impl Random {
    pub fn new(seed: u64, index: u64) -> Random {
        let mut random = Random(seed ^ index.wrapping_mul(0xD134_2543_DE82_EF95));
        random.draw();
        random
    }

    pub fn draw(&mut self) -> u64 {
        self.0 = self.0.wrapping_add(0x9E37_79B9_7F4A_7C15);
        let mut z = self.0;
        z = (z ^ (z >> 30)).wrapping_mul(0xBF58_476D_1CE4_E5B9);
        z = (z ^ (z >> 27)).wrapping_mul(0x94D0_49BB_1331_11EB);
        z ^ (z >> 31)
    }

    /// A number below `most`, or 0 if that is 0.
    pub fn below(&mut self, most: usize) -> usize {
        ((u128::from(self.draw()) * most as u128) >> 64) as usize
    }

    /// A number from `low` to `high`, both among them.
    pub fn between(&mut self, low: usize, high: usize) -> usize {
        low + self.below(high - low + 1)
    }

    fn between_32(&mut self, low: u32, high: u32) -> u32 {
        self.between(low as usize, high as usize) as u32
    }

    /// True once in `times`.
    pub fn once_in(&mut self, times: usize) -> bool {
        self.below(times) == 0
    }

    pub fn pick<T: Copy>(&mut self, values: &[T]) -> T {
        values[self.below(values.len())]
    }

    pub fn shuffle<T>(&mut self, values: &mut [T]) {
        for at in (1..values.len()).rev() {
            values.swap(at, self.below(at + 1));
        }
    }
}

// Orders of arrival.

#[derive(Clone, Copy, PartialEq, Eq, Debug)]
pub enum Order {
    InOrder,
    Lossy,
    Mild,
    Duplicates,
    Bursts,
    Shuffled,
    Reversed,
    /// Every second or third packet, then those left out.
    Skips,
    /// Any packets, whether they came before or not.
    Arbitrary,
    /// One after another of the above over parts of the sample.
    Mixed,
    /// The second half, then the first; for measuring.
    Halves,
}

pub const ORDERS: [Order; 10] = [
    Order::InOrder,
    Order::Lossy,
    Order::Mild,
    Order::Duplicates,
    Order::Bursts,
    Order::Shuffled,
    Order::Reversed,
    Order::Skips,
    Order::Arbitrary,
    Order::Mixed,
];

/// Packets `low` to `high` in an order; some may be missing or come more than once.
fn arranged(random: &mut Random, order: Order, low: u32, high: u32) -> Vec<u32> {
    let mut numbers: Vec<u32> = (low..=high).collect();
    match order {
        Order::InOrder => {}
        Order::Lossy => {
            let one_in = random.between(2, 20);
            numbers.retain(|_| !random.once_in(one_in));
        }
        Order::Mild => {
            let (one_in, reach) = (random.between(1, 20), random.between(1, 8));
            for at in 0..numbers.len() {
                if random.once_in(one_in) {
                    let to = (at + random.between(1, reach)).min(numbers.len() - 1);
                    numbers[at..=to].rotate_left(1);
                }
            }
        }
        Order::Duplicates => {
            let one_in = random.between(2, 12);
            for at in 0..numbers.len() {
                if random.once_in(one_in) {
                    let to = random.between(at, numbers.len().min(at + 10));
                    numbers.insert(to.max(at), numbers[at]);
                }
            }
        }
        Order::Bursts => {
            for _ in 0..random.between(1, 6) {
                let from = random.below(numbers.len());
                let to = random.between(from, numbers.len() - 1);
                let middle = random.between(from, to);
                numbers[from..=to].rotate_left(middle - from);
            }
        }
        Order::Shuffled => random.shuffle(&mut numbers),
        Order::Reversed => numbers.reverse(),
        Order::Halves => {
            let half = numbers.len() / 2;
            numbers.rotate_left(half);
        }
        Order::Skips => {
            let step = random.pick(&[2, 2, 3, 5]);
            let offset = random.below(step as usize) as u32;
            let (first, mut rest): (Vec<u32>, Vec<u32>) = numbers.iter().partition(|&&n| n % step == offset);
            match random.below(4) {
                0 => {}
                1 => rest.reverse(),
                2 => random.shuffle(&mut rest),
                _ => rest.truncate(random.between(0, rest.len())),
            }
            numbers = first;
            numbers.extend(rest);
        }
        Order::Arbitrary => {
            for number in &mut numbers {
                *number = random.between_32(low, high);
            }
        }
        Order::Mixed => {
            numbers.clear();
            let mut from = low;
            while from <= high {
                let to = from + random.below((high - from + 1) as usize) as u32;
                let part = random.pick(&ORDERS[..9]);
                numbers.extend(arranged(random, part, from, to));
                from = to + 1;
            }
        }
    }
    numbers
}

/// Times that never go back, for so many arrivals.
fn rising_times(random: &mut Random, many: usize) -> Vec<u64> {
    let mut time = match random.below(6) {
        0 => 0,
        1 => 10,
        2 => random.draw() >> 32,
        3 => random.draw(),
        4 => u64::MAX - random.below(3000) as u64,
        _ => u64::from(u32::MAX) - random.below(2000) as u64,
    };
    let step = random.pick(&[0, 1, 2, 10, 1000, 1 << 33, 1 << 52]);
    let even = random.once_in(3);
    let mut times = Vec::with_capacity(many);
    for _ in 0..many {
        times.push(time);
        let more = if even { step } else { random.below(step as usize + 1) as u64 };
        time = time.saturating_add(more);
    }
    times
}

/// How far a clock steps: up to 1,001.
pub fn clock_step(random: &mut Random) -> u64 {
    let any = random.below(1002) as u64;
    random.pick(&[0, 1, 999, 1000, 1001, any])
}

/// Times for so many arrivals: of a clock that rises, or of one that also steps by 0 to 1,001 in both directions. Most of
/// those are held to 1,000 below their greatest time, so that none is refused.
fn clock_times(random: &mut Random, many: usize) -> Vec<u64> {
    let mut times = rising_times(random, many);
    if random.once_in(2) {
        return times;
    }
    let (one_in, held) = (random.pick(&[1, 1, 2, 5]), !random.once_in(4));
    let mut greatest = 0u64;
    for time in &mut times {
        if random.once_in(one_in) {
            let step = clock_step(random);
            *time = if random.once_in(2) { time.saturating_add(step) } else { time.saturating_sub(step) };
        }
        if held {
            *time = (*time).max(greatest.saturating_sub(1000));
        }
        greatest = greatest.max(*time);
    }
    times
}

/// Short more often than long.
fn sent_count(random: &mut Random) -> usize {
    match random.below(1000) {
        0..550 => random.between(1, 12),
        550..820 => random.between(1, 80),
        820..940 => random.between(60, 300),
        940..980 => random.between(200, 1500),
        980..990 => random.between(1500, 4096),
        990..993 => 4095,
        _ => MOST_SENT,
    }
}

// Samples.

/// A sample's lists, and what its file has otherwise.
#[derive(Clone, Debug, Default)]
pub struct Draft {
    pub label: Vec<u8>,
    pub sizes: Vec<u16>,
    pub numbers: Vec<u32>,
    pub times: Vec<u64>,
    /// Counts that stand in the file instead of the lengths.
    pub counts: [Option<u16>; 3],
    /// Octets after the last section.
    pub tail: Vec<u8>,
    /// Where the file ends early.
    pub cut: Option<usize>,
    /// An octet of the file that is exchanged, and its new value.
    pub flip: Option<(usize, u8)>,
}

impl Draft {
    pub fn file(&self) -> Vec<u8> {
        let lengths = [self.label.len(), self.sizes.len(), self.numbers.len().min(self.times.len())];
        let count = |section: usize| self.counts[section].unwrap_or(lengths[section] as u16).to_be_bytes();
        let mut file = Vec::with_capacity(6 + lengths[0] + 2 * lengths[1] + 12 * lengths[2] + self.tail.len());
        file.extend(count(0));
        file.extend(&self.label);
        file.extend(count(1));
        self.sizes.iter().for_each(|size| file.extend(size.to_be_bytes()));
        file.extend(count(2));
        for (number, time) in self.numbers.iter().zip(&self.times) {
            file.extend(number.to_be_bytes());
            file.extend(time.to_be_bytes());
        }
        file.extend(&self.tail);
        if let Some((at, octet)) = self.flip {
            if let Some(place) = file.get_mut(at) {
                *place = octet;
            }
        }
        file.truncate(self.cut.unwrap_or(usize::MAX));
        file
    }

    /// Where the sections' counts and contents begin and end.
    fn borders(&self) -> [usize; 7] {
        let label = 2 + self.label.len();
        let sizes = label + 2 + 2 * self.sizes.len();
        let end = sizes + 2 + 12 * self.numbers.len().min(self.times.len());
        [0, 2, label, label + 2, sizes, sizes + 2, end]
    }
}

#[derive(Clone, Copy, PartialEq, Eq, Debug)]
pub enum Damage {
    Cut,
    CutAtBorder,
    Tail,
    Flip,
    LabelLong,
    LabelCount,
    LabelOctet,
    SentNone,
    SentOver,
    SentCount,
    ArrivalsOver,
    ArrivalCount,
    Number,
    TimeBack,
    /// Both in one record or in neighbouring ones.
    NumberAndTime,
    TimesLonger,
    TimesShorter,
    Noise,
}

pub const DAMAGES: [Damage; 18] = [
    Damage::Cut,
    Damage::CutAtBorder,
    Damage::Tail,
    Damage::Flip,
    Damage::LabelLong,
    Damage::LabelCount,
    Damage::LabelOctet,
    Damage::SentNone,
    Damage::SentOver,
    Damage::SentCount,
    Damage::ArrivalsOver,
    Damage::ArrivalCount,
    Damage::Number,
    Damage::TimeBack,
    Damage::NumberAndTime,
    Damage::TimesLonger,
    Damage::TimesShorter,
    Damage::Noise,
];

/// An octet that a label may have: hexadecimal 20 to 7E.
fn shown_octet(random: &mut Random) -> u8 {
    match random.below(8) {
        0 => 0x20,
        1 => 0x7E,
        _ => random.between_32(0x20, 0x7E) as u8,
    }
}

/// An octet that a label may not have.
fn octet_outside(random: &mut Random) -> u8 {
    match random.below(4) {
        0 => 0x1F,
        1 => 0x7F,
        2 => random.between_32(0, 0x1F) as u8,
        _ => random.between_32(0x7F, 0xFF) as u8,
    }
}

/// A number outside 1 to K; some have low bits that lie inside.
pub fn number_outside(random: &mut Random, sent: u32) -> u32 {
    let inside = random.between_32(1, sent.max(1));
    match random.below(7) {
        0 => 0,
        1 | 2 => sent + 1,
        3 => inside + 0x1_0000 * random.between_32(1, 0xFFFE),
        4 => u32::MAX,
        5 => inside | 0x8000_0000,
        _ => (sent + 1).saturating_add(random.draw() as u32),
    }
}

fn time_before(random: &mut Random, time: u64) -> u64 {
    match random.below(4) {
        0 | 1 => time.saturating_sub(random.pick(&[1, 1000, 1001, 1001, 1002])),
        2 => time.saturating_sub(random.pick(&[256, 2000, 2001, 1 << 32])),
        _ => random.below(time as usize) as u64,
    }
}

/// The greatest time before the arrival at a place.
fn greatest_before(draft: &Draft, at: usize) -> u64 {
    draft.times[..at].iter().copied().max().unwrap_or(0)
}

fn damage(random: &mut Random, draft: &mut Draft, damage: Damage) {
    let arrivals = draft.numbers.len();
    let place = |random: &mut Random| {
        if random.once_in(3) {
            random.pick(&[0, arrivals - 1])
        } else {
            random.below(arrivals)
        }
    };
    match damage {
        Damage::Cut => draft.cut = Some(random.below(draft.file().len())),
        Damage::CutAtBorder => {
            let border = random.pick(&draft.borders());
            draft.cut = Some((border + random.below(3)).saturating_sub(1));
        }
        Damage::Tail => {
            let many = random.pick(&[1, 1, 1, 2, 11, 12, 13, 100]);
            draft.tail = (0..many).map(|_| random.draw() as u8).collect();
        }
        Damage::Flip => draft.flip = Some((random.below(draft.file().len()), random.draw() as u8)),
        Damage::LabelLong => {
            let many = random.pick(&[65, 65, 66, 100, 255, 256, 300]);
            draft.label = (0..many).map(|_| random.draw() as u8).collect();
        }
        Damage::LabelCount => draft.counts[0] = Some(random.pick(&[0, 1, 63, 64, 65, 255, 256, 320, 0x4000, 0xFFFF])),
        Damage::LabelOctet => {
            if draft.label.is_empty() {
                draft.label = (0..random.between(1, 64)).map(|_| shown_octet(random)).collect();
            }
            let last = draft.label.len() - 1;
            let at = random.pick(&[0, last, last / 2]);
            draft.label[at] = octet_outside(random);
        }
        Damage::SentNone => draft.sizes.clear(),
        Damage::SentOver => {
            let many = random.pick(&[4097, 4097, 4098, 5000]);
            draft.sizes.resize(many, random.draw() as u16);
        }
        Damage::SentCount => {
            draft.counts[1] = Some(random.pick(&[0, 1, 2, 255, 256, 4095, 4096, 4097, 0x1001, 0x8001, 0xFFFF]))
        }
        Damage::ArrivalsOver => {
            let many = random.pick(&[4097, 4097, 4098, 4200]);
            let (number, time) = (draft.numbers.last().copied(), draft.times.last().copied());
            draft.numbers.resize(many, number.unwrap_or(1));
            if !random.once_in(3) {
                draft.times.resize(many, time.unwrap_or(0));
            }
        }
        Damage::ArrivalCount => {
            draft.counts[2] = Some(random.pick(&[0, 1, 2, 255, 256, 4095, 4096, 4097, 0x1001, 0x8001, 0xFFFF]))
        }
        Damage::Number if arrivals > 0 => {
            let sent = draft.sizes.len() as u32;
            draft.numbers[place(random)] = number_outside(random, sent);
        }
        Damage::TimeBack if draft.times.len() > 1 => {
            let at = random.between(1, draft.times.len() - 1);
            draft.times[at] = time_before(random, greatest_before(draft, at));
        }
        Damage::NumberAndTime if arrivals > 1 && draft.times.len() > 1 => {
            let at = random.between(1, draft.times.len() - 1);
            let near = (at + random.pick(&[1, 1, 0, 2])).saturating_sub(1).min(arrivals - 1);
            draft.times[at] = time_before(random, greatest_before(draft, at));
            draft.numbers[near] = number_outside(random, draft.sizes.len() as u32);
        }
        Damage::TimesLonger => {
            let many = if random.once_in(4) { 4097 } else { draft.times.len() + random.between(1, 3) };
            let time = draft.times.last().copied().unwrap_or(0);
            draft.times.resize(many, time);
        }
        Damage::TimesShorter => {
            let many = random.below(draft.times.len());
            draft.times.truncate(many);
        }
        Damage::Noise => {
            let many = random.below(40);
            *draft =
                Draft { tail: (0..many).map(|_| random.draw() as u8 >> random.below(8)).collect(), ..Draft::default() };
            draft.cut = Some(many);
            draft.tail.resize(many + 6, 0);
            draft.tail.rotate_right(6);
            draft.counts = [0, 1, 2].map(|_| Some(random.below(8) as u16));
        }
        Damage::Number | Damage::TimeBack | Damage::NumberAndTime => {}
    }
}

/// A sound sample of K packets in an order, with at most 4,096 arrivals.
pub fn sound(random: &mut Random, order: Order, sent: usize) -> Draft {
    let label = random.pick(&[0, 0, 0, 1, 5, 20, 63, 64]);
    let same = random.pick(&[0, 1, 100, u16::MAX]);
    let equal = random.once_in(4);
    let mut numbers = arranged(random, order, 1, sent as u32);
    match random.below(12) {
        0 => numbers.truncate(random.between(0, 3)),
        1 => numbers.truncate(random.between(0, numbers.len())),
        2 => {
            for _ in 0..random.between(1, 30) {
                let number = random.between_32(1, sent as u32);
                numbers.insert(random.between(0, numbers.len()), number);
            }
        }
        3 if sent > 300 || random.once_in(20) => numbers.resize(MOST_ARRIVALS, 1),
        _ => {}
    }
    numbers.truncate(MOST_ARRIVALS);
    Draft {
        label: (0..label).map(|_| shown_octet(random)).collect(),
        sizes: (0..sent).map(|_| if equal { same } else { random.draw() as u16 }).collect(),
        times: clock_times(random, numbers.len()),
        numbers,
        ..Draft::default()
    }
}

/// One sample with everything that is asked of it.
#[derive(Clone, Debug)]
pub struct SampleCase {
    pub order: Order,
    pub damages: Vec<Damage>,
    pub draft: Draft,
    pub file: Vec<u8>,
    /// Lengths of the reader's three lists.
    pub room: [usize; 3],
    /// Octets lent to the writer.
    pub out: usize,
    /// Octets lent to the listing.
    pub listing: usize,
    pub records: Vec<u32>,
    pub degrees: Vec<u32>,
}

/// A length around the one needed: enough more often than not.
fn room(random: &mut Random, needed: usize) -> usize {
    match random.below(16) {
        0 => needed.saturating_sub(1),
        1 => random.below(needed + 1),
        2 => 0,
        3..9 => needed,
        _ => needed + random.between(1, 9),
    }
}

pub fn sample_case(seed: u64, index: u64) -> SampleCase {
    let random = &mut Random::new(seed, index);
    let order = random.pick(&ORDERS);
    let sent = sent_count(random);
    let mut draft = sound(random, order, sent);
    let many = random.pick(&[0, 0, 0, 0, 0, 0, 1, 1, 1, 1, 1, 2, 2, 3]);
    let damages: Vec<Damage> = (0..many).map(|_| random.pick(&DAMAGES)).collect();
    for &kind in &damages {
        damage(random, &mut draft, kind);
    }
    let file = draft.file();
    let arrivals = draft.numbers.len();
    let lists = [draft.sizes.len(), arrivals, arrivals];
    // Either room enough for all three lists, or each list with its own room.
    let room_of = |random: &mut Random, needed: usize| room(random, needed);
    let room = if random.once_in(2) { lists.map(|n| n + random.below(4)) } else { lists.map(|n| room_of(random, n)) };
    let length = 6 + draft.label.len() + 2 * lists[0] + 12 * lists[1];
    let out = room_of(random, length);
    // Room for any listing, or about as much as this one has.
    let near = room_of(random, report(&file).len());
    let listing = random.pick(&[LISTING_ROOM, LISTING_ROOM + 5, LISTING_ROOM - 1, 0, near, near]);
    SampleCase {
        order,
        damages,
        room,
        out,
        listing,
        records: records(random, arrivals as u32),
        degrees: degrees(random),
        draft,
        file,
    }
}

/// The records to ask for: all of a short sample, else the ends and some between.
fn records(random: &mut Random, arrivals: u32) -> Vec<u32> {
    let mut records = vec![0, arrivals + 1, random.pick(&[u32::MAX, 4097, 65_536, 65_537, 0x8000_0001])];
    if arrivals <= 12 {
        records.extend(1..=arrivals);
    } else {
        records.extend([1, arrivals]);
        records.extend((0..4).map(|_| random.between_32(1, arrivals)));
    }
    records
}

fn degrees(random: &mut Random) -> Vec<u32> {
    let mut degrees = vec![0, 1, 2, 3, 100, 101, u32::MAX, 257];
    degrees.push(random.between_32(1, 100));
    degrees
}

/// A sample for measuring: K and A are both `many`, sizes vary, times rise by 10.
pub fn measured(order: Order, many: usize) -> Draft {
    assert!(matches!(order, Order::InOrder | Order::Shuffled | Order::Reversed | Order::Halves));
    let random = &mut Random::new(4737, many as u64);
    Draft {
        label: vec![b'x'; MOST_LABEL],
        sizes: (0..many).map(|_| random.draw() as u16).collect(),
        numbers: arranged(random, order, 1, many as u32),
        times: (1..=many as u64).map(|record| 10 * record).collect(),
        ..Draft::default()
    }
}

/// The longest sample there is has this many octets.
pub fn longest() -> Vec<u8> {
    let file = measured(Order::InOrder, MOST_SENT).file();
    assert_eq!(file.len(), LONGEST_FILE);
    file
}

// Arrival lists for a receiver.

#[derive(Clone, Debug)]
pub struct ArrivalList {
    pub sent: u32,
    pub arrivals: Vec<(u32, u64)>,
}

pub fn arrival_list(seed: u64, index: u64) -> ArrivalList {
    let random = &mut Random::new(seed ^ 0xA5A5, index);
    let sent = match random.below(100) {
        0..25 => random.between(1, 8),
        25..50 => random.between(5, 130),
        50..75 => random.between(100, 400),
        75..90 => random.between(300, 1500),
        _ => random.pick(&[4095, 4096, 4096, 4096]),
    } as u32;
    let order = random.pick(&[
        Order::Lossy,
        Order::Mild,
        Order::Duplicates,
        Order::Bursts,
        Order::Shuffled,
        Order::Reversed,
        Order::Skips,
        Order::Skips,
        Order::Skips,
        Order::Arbitrary,
        Order::Mixed,
        Order::Mixed,
    ]);
    let mut numbers = arranged(random, order, 1, sent);
    if random.once_in(12) {
        // Enough copies that the receiver is full before the end.
        let many = 4096 + random.between(1, 40);
        while numbers.len() < many {
            let more = random.pick(&ORDERS);
            numbers.extend(arranged(random, more, 1, sent));
        }
        numbers.truncate(many);
    }
    let times = clock_times(random, numbers.len());
    let one_in = random.pick(&[5, 20, 100, usize::MAX]);
    let mut arrivals = Vec::with_capacity(numbers.len());
    let mut greatest = 0;
    for (number, time) in numbers.into_iter().zip(times) {
        if random.once_in(one_in) {
            arrivals.push(match random.below(4) {
                0 => (number_outside(random, sent), time),
                1 => (number_outside(random, sent), time_before(random, greatest)),
                2 => (number, time_before(random, greatest)),
                _ => (number, time),
            });
        }
        arrivals.push((number, time));
        greatest = greatest.max(time);
    }
    ArrivalList { sent, arrivals }
}

// Receiver states.

#[derive(Clone, Copy, PartialEq, Eq, Debug)]
pub enum State {
    /// Every condition holds; most such states no run reaches.
    Fit,
    /// One of the thirteen conditions, counted from 0 in the order of the scope, does not hold and all others do.
    Unfit(u8),
    /// Two or three of them do not hold.
    UnfitMore,
    /// All hold, but unused places have values that kept ones may not have.
    UnusedOdd,
}

#[derive(Clone, Debug)]
pub struct StateCase {
    pub kind: State,
    pub receiver: Receiver,
    pub number: u32,
    pub time: u64,
}

/// Between the two, at an end more often than elsewhere.
fn ends(random: &mut Random, low: u32, high: u32) -> u32 {
    match random.below(4) {
        0 => low,
        1 => high,
        _ => random.between_32(low, high),
    }
}

/// A state that is fit and otherwise arbitrary. With `spare`, no bound is met, so that one can be passed alone.
fn fit_state(random: &mut Random, spare: bool) -> Receiver {
    let mut r = Receiver::fresh(1).receiver;
    r.sent = match random.below(4) {
        0 => random.between_32(1, 8),
        1 => random.between_32(8, 200),
        2 => 4096,
        _ => random.between_32(1, 4096),
    };
    let k = if spare { r.sent.clamp(3, 4000) } else { r.sent };
    r.sent = k;
    r.first_arrivals = if spare { random.between_32(1, k - 1) } else { ends(random, 0, k) };
    let l = r.first_arrivals;
    r.duplicates = if spare { random.between_32(0, 4090 - l) } else { ends(random, 0, 4096 - l) };
    r.in_order = ends(random, 0, l);
    r.open_run = ends(random, 0, r.in_order);
    r.closed_runs = ends(random, 0, l);
    r.squares = ends(random, 0, 16_777_216);
    r.next_expected = ends(random, 1, k + 1);
    r.greatest_time = random.pick(&[0, 1, 1000, 1001, u64::MAX, u64::MAX - 1, 1 << 40]);
    if spare {
        r.greatest_time = r.greatest_time.clamp(1, u64::MAX - 1);
    }
    r.jumps.dropped = match random.below(3) {
        0 => 0,
        _ => ends(random, 0, k),
    };
    r.jumps.kept = if l == 0 { 0 } else { random.pick(&[0, 1, 2, 63, 64, 64, 5, 33]) };
    let kept = if spare { r.jumps.kept.max(1) } else { r.jumps.kept };
    r.jumps.kept = kept;
    let rising = random.once_in(2);
    fill_jumps(random, &mut r, rising);
    let density = random.below(4);
    for word in &mut r.marks {
        *word = match density {
            0 => 0,
            1 => random.draw(),
            2 => random.draw() & random.draw() & random.draw(),
            _ => random.draw() | random.draw(),
        };
    }
    r
}

/// Kept places within their bounds, unused ones arbitrary.
fn fill_jumps(random: &mut Random, r: &mut Receiver, rising: bool) {
    let kept = r.jumps.kept as usize;
    for place in 0..Receiver::WINDOW {
        let used = place < kept;
        r.jumps.positions[place] = if used { ends(random, 1, r.first_arrivals) as u16 } else { random.draw() as u16 };
        r.jumps.numbers[place] = if used { ends(random, 1, r.sent) as u16 } else { random.draw() as u16 };
        r.jumps.times[place] = match random.below(5) {
            _ if !used => random.draw(),
            0 => r.greatest_time,
            1 => 0,
            2 => r.greatest_time.saturating_sub(clock_step(random)),
            _ => random.below(r.greatest_time as usize) as u64,
        };
    }
    if rising {
        r.jumps.positions[..kept].sort_unstable();
        r.jumps.numbers[..kept].sort_unstable();
        r.jumps.times[..kept].sort_unstable();
    }
}

/// Breaks one condition and no other of a state made with `spare`.
fn break_one(random: &mut Random, r: &mut Receiver, way: u8) {
    let place = random.below(r.jumps.kept as usize);
    let (k, l) = (r.sent, r.first_arrivals);
    let over = |random: &mut Random, most: u32| {
        random.pick(&[most.saturating_add(1), most.saturating_add(1), most.saturating_add(2), u32::MAX])
    };
    match way {
        0 if random.once_in(2) => {
            *r = Receiver::fresh(1).receiver;
            r.sent = 0;
        }
        0 => r.sent = over(random, 4096),
        1 => {
            r.first_arrivals = if random.once_in(3) { 4096 } else { k + 1 };
            r.duplicates = r.duplicates.min(4096 - r.first_arrivals);
        }
        2 => r.duplicates = over(random, 4096 - l),
        3 => r.in_order = over(random, l),
        4 => r.open_run = over(random, r.in_order),
        5 => r.closed_runs = over(random, l),
        6 => r.squares = over(random, 16_777_216),
        7 => r.next_expected = if random.once_in(2) { 0 } else { over(random, k + 1) },
        8 => {
            r.jumps.kept = 64;
            fill_jumps(random, r, false);
            r.jumps.kept = over(random, 64);
        }
        9 => r.jumps.positions[place] = random.pick(&[0, l as u16 + 1, u16::MAX]),
        10 => r.jumps.numbers[place] = random.pick(&[0, k as u16 + 1, u16::MAX]),
        11 => r.jumps.times[place] = random.pick(&[r.greatest_time + 1, u64::MAX]),
        _ => r.jumps.dropped = random.pick(&[k + 1, k + 1, u32::from(u16::MAX), k + 0x1_0000, u32::MAX]),
    }
}

pub fn state_case(seed: u64, index: u64) -> StateCase {
    let random = &mut Random::new(seed ^ 0x5A5A, index);
    let kind = match random.below(10) {
        0..5 => State::Fit,
        5 => State::UnusedOdd,
        6 => State::UnfitMore,
        _ => State::Unfit(random.below(13) as u8),
    };
    let mut receiver = fit_state(random, kind != State::Fit);
    match kind {
        State::Fit => {}
        State::Unfit(way) => break_one(random, &mut receiver, way),
        State::UnfitMore => {
            for _ in 0..random.between(2, 3) {
                let way = random.pick(&[2, 3, 4, 5, 6, 7, 12]);
                break_one(random, &mut receiver, way);
            }
        }
        State::UnusedOdd => {
            for place in receiver.jumps.kept as usize..Receiver::WINDOW {
                receiver.jumps.positions[place] = random.pick(&[0, u16::MAX]);
                receiver.jumps.numbers[place] = random.pick(&[0, u16::MAX]);
                receiver.jumps.times[place] = u64::MAX;
            }
        }
    }
    let number = next_number(random, &receiver);
    let time = match random.below(8) {
        0..3 => receiver.greatest_time.saturating_sub(clock_step(random)),
        3 => receiver.greatest_time,
        4 => random.draw(),
        5 => u64::MAX,
        _ => receiver.greatest_time.saturating_add(clock_step(random)),
    };
    StateCase { kind, receiver, number, time }
}

/// A number of interest to a state: inside and outside 1 to K, at the dropped one and the kept ones, below NextExp.
fn next_number(random: &mut Random, r: &Receiver) -> u32 {
    let k = r.sent.clamp(1, 4096);
    match random.below(10) {
        0 => number_outside(random, k),
        1 => r.next_expected,
        2 => r.next_expected.wrapping_sub(1),
        3 => r.jumps.dropped.wrapping_add(random.between_32(0, 2)).wrapping_sub(1),
        4 => u32::from(random.pick(&r.jumps.numbers)),
        5 => u32::from(random.pick(&r.jumps.numbers)).wrapping_sub(1),
        6 => random.pick(&[1, k]),
        _ => random.between_32(1, k),
    }
}
