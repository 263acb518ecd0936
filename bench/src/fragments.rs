//! Fragments: the archive's call, a plain Rust implementation of RFC 4737, Appendix B beside it, and arrivals to compare the two
//! on.

use std::hint::black_box;

use crate::archive::{c, given, lent, narrow};
use crate::compare::Seen;
use crate::generate::{clock_step, number_outside, Random};
use crate::reference::{ARRIVAL_COUNT, LISTS_DIFFER, MOST_ARRIVALS, MOST_BACK, MOST_SENT, NUMBER, OUTPUT_SHORT};
use crate::reference::{SENT_COUNT, TIME};
use crate::time::{calls, measure};

const FRAGMENT_UNFIT: u32 = 17;
const END_MOST: u32 = 65_535;

const IN_ORDER: u8 = 0;
const REORDERED: u8 = 1;
const COPY: u8 = 3;

/// The arrivals: numbers, times, lengths in octets, more-fragments flags and fragment offsets.
#[derive(Clone, Debug, Default)]
struct Lists {
    numbers: Vec<u32>,
    times: Vec<u64>,
    lengths: Vec<u16>,
    mores: Vec<u8>,
    offsets: Vec<u16>,
}

/// What is filled: the flags, and which arrivals are usable.
#[derive(Clone, PartialEq, Eq, Debug)]
struct Lent {
    flags: Vec<u8>,
    usable: Vec<u8>,
}

// The library's call.

fn by_library(sent: u32, l: &Lists, out: &mut Lent) -> u32 {
    let ((n, numbers), (t, times), (z, lengths)) = (given(&l.numbers), given(&l.times), given(&l.lengths));
    let ((m, mores), (o, offsets)) = (given(&l.mores), given(&l.offsets));
    let ((f, flags), (u, usable)) = (lent(&mut out.flags), lent(&mut out.usable));
    narrow(unsafe {
        c::krakobran_fragment_order(sent, n, numbers, t, times, z, lengths, m, mores, o, offsets, f, flags, u, usable)
    })
}

// The reference.

/// An arrival. More are to come after it, or it is its packet's last; a whole packet is a last one at offset 0.
#[derive(Clone, Copy)]
struct Piece {
    number: u32,
    time: u64,
    length: u16,
    last: bool,
    offset: u16,
}

impl Piece {
    fn whole(&self) -> bool {
        self.last && self.offset == 0
    }

    /// The places of its octets in its packet: the first, and the one after the last.
    fn octets(&self) -> (u32, u32) {
        let start = 8 * u32::from(self.offset);
        (start, start + u32::from(self.length))
    }

    fn unfit(&self) -> bool {
        let cut = !self.last && self.length % 8 != 0;
        !self.whole() && (self.length == 0 || cut || self.octets().1 > END_MOST)
    }
}

fn pieces(l: &Lists) -> Vec<Piece> {
    (0..l.numbers.len())
        .map(|i| Piece {
            number: l.numbers[i],
            time: l.times[i],
            length: l.lengths[i],
            last: l.mores[i] == 0,
            offset: l.offsets[i],
        })
        .collect()
}

/// The refusal that is due first, before room is looked at.
fn judge(sent: u32, l: &Lists) -> Result<Vec<Piece>, u32> {
    if sent == 0 || sent as usize > MOST_SENT {
        return Err(SENT_COUNT);
    }
    let many = l.numbers.len();
    if many > MOST_ARRIVALS {
        return Err(ARRIVAL_COUNT);
    }
    if [l.times.len(), l.lengths.len(), l.mores.len(), l.offsets.len()] != [many; 4] {
        return Err(LISTS_DIFFER);
    }
    let all = pieces(l);
    let mut greatest = 0u64;
    for piece in &all {
        if piece.number == 0 || piece.number > sent {
            return Err(NUMBER);
        }
        if piece.unfit() {
            return Err(FRAGMENT_UNFIT);
        }
        if greatest.saturating_sub(piece.time) > MOST_BACK {
            return Err(TIME);
        }
        greatest = greatest.max(piece.time);
    }
    Ok(all)
}

/// The three cases of B.3, and what is expected after an arrival that is in order. `note` is told the case of each reordered one.
fn flags(all: &[Piece], copies: &[bool], mut note: impl FnMut(&'static str)) -> Vec<u8> {
    let (mut next, mut packet, mut fragment) = (1, 0, 0);
    let mut flag = |p: &Piece, copy: bool| {
        if copy {
            return COPY;
        }
        let offset = u32::from(p.offset);
        let case = if p.number < next {
            "fragments: reordered, case 1"
        } else if p.number < packet {
            "fragments: reordered, case 2"
        } else if p.number == packet && offset < fragment {
            "fragments: reordered, case 3"
        } else {
            (next, packet, fragment) = if p.last { (p.number + 1, 0, 0) } else { (next, p.number, offset + 1) };
            return IN_ORDER;
        };
        note(case);
        REORDERED
    };
    all.iter().zip(copies).map(|(p, &copy)| flag(p, copy)).collect()
}

/// The arrivals by number, offset, length and place, each in one number: a place has 12 bits, an offset and a length 16 each.
fn sorted(all: &[Piece]) -> Vec<u64> {
    let key = |(place, p): (usize, &Piece)| {
        let packet = u64::from(p.number) << 32;
        (packet | u64::from(p.offset) << 16 | u64::from(p.length)) << 12 | place as u64
    };
    let mut keys: Vec<u64> = all.iter().enumerate().map(key).collect();
    keys.sort_unstable();
    keys
}

/// Which arrivals are copies, and by number the packets of which every octet from 0 to the end of a last one has arrived. Of equal
/// arrivals, which stand side by side, all but the first are copies; of whole packets the number alone decides.
fn copies_and_complete(sent: u32, all: &[Piece]) -> (Vec<bool>, Vec<bool>) {
    let (mut copies, mut complete) = (vec![false; all.len()], vec![false; sent as usize + 1]);
    let place = |key: u64| (key % 4096) as usize;
    for packet in sorted(all).chunk_by(|a, b| a >> 44 == b >> 44) {
        let mut reach = 0;
        let mut least = u32::MAX;
        for &key in packet {
            let p = &all[place(key)];
            let (start, end) = p.octets();
            if start <= reach {
                reach = reach.max(end);
            }
            if p.last {
                least = least.min(end);
            }
        }
        complete[(packet[0] >> 44) as usize] = least <= reach;
        for pair in packet.windows(2) {
            copies[place(pair[1])] = pair[0] >> 12 == pair[1] >> 12;
        }
    }
    let mut wholes = vec![false; sent as usize + 1];
    for (p, copy) in all.iter().zip(&mut copies) {
        if p.whole() {
            *copy |= wholes[p.number as usize];
            wholes[p.number as usize] = true;
        }
    }
    (copies, complete)
}

fn by_reference(sent: u32, l: &Lists, out: &mut Lent, mut note: impl FnMut(&'static str)) -> u32 {
    let all = match judge(sent, l) {
        Ok(all) => all,
        Err(refusal) => return refusal,
    };
    if out.flags.len() < all.len() || out.usable.len() < all.len() {
        return OUTPUT_SHORT;
    }
    let (copies, complete) = copies_and_complete(sent, &all);
    out.flags[..all.len()].copy_from_slice(&flags(&all, &copies, &mut note));
    for (place, (p, copy)) in out.usable.iter_mut().zip(all.iter().zip(&copies)) {
        *place = u8::from(!copy && complete[p.number as usize]);
        note(if *place == 1 { "fragments: usable" } else { "fragments: not usable" });
    }
    0
}

// Arrivals.

/// Packets cut on the way: some whole, the others in fragments of equal length and a last one, in the order in which they are sent.
fn sent_pieces(random: &mut Random, sent: u32, most: usize) -> Vec<Piece> {
    let one_in = random.pick(&[1, 2, 5]);
    let mut all = Vec::new();
    for number in 1..=sent {
        let parts = if random.once_in(one_in) { random.between(1, most) } else { 1 };
        let units = random.pick(&[1, 1, 2, 185]);
        let last = random.pick(&[1, 7, 8, 20]);
        for part in 0..parts {
            let more = part + 1 < parts;
            all.push(Piece {
                number,
                time: 0,
                length: if more { 8 * units } else { last },
                last: !more,
                offset: units.saturating_mul(part as u16),
            });
        }
    }
    all
}

/// They arrive in some order, some lost, some twice, at times that rise and step a little.
fn arrive(random: &mut Random, mut all: Vec<Piece>) -> Vec<Piece> {
    let lost = random.pick(&[usize::MAX, usize::MAX, 20, 3]);
    all.retain(|_| !random.once_in(lost));
    match random.below(5) {
        0 => {}
        1 => all.reverse(),
        2 => random.shuffle(&mut all),
        _ => {
            for at in 0..all.len() {
                let to = (at + random.below(4)).min(all.len() - 1);
                all[at..=to].rotate_left(1);
            }
        }
    }
    let twice = random.pick(&[usize::MAX, 10, 2]);
    for at in (0..all.len()).rev() {
        if random.once_in(twice) {
            let (to, mut again) = (random.between(at + 1, all.len()), all[at]);
            if again.whole() && random.once_in(2) {
                again.length = random.draw() as u16;
            }
            again.last ^= random.once_in(8);
            all.insert(to, again);
        }
    }
    all.truncate(MOST_ARRIVALS);
    let mut time = random.pick(&[0, 5000, u64::MAX - 9_000_000]);
    for piece in &mut all {
        time += random.below(30) as u64;
        piece.time = time.saturating_sub(if random.once_in(3) { clock_step(random).min(1000) } else { 0 });
    }
    all
}

/// A change that a refusal may name, or none.
fn damage(random: &mut Random, sent: u32, all: &mut [Piece]) {
    if all.is_empty() {
        return;
    }
    let at = random.below(all.len());
    let greatest = all[..at].iter().map(|p| p.time).max().unwrap_or(0);
    let p = &mut all[at];
    match random.below(9) {
        0 => p.number = number_outside(random, sent),
        1 => p.time = greatest.saturating_sub(random.pick(&[1000, 1001, 1002])),
        2 => p.length = random.pick(&[0, 1, 7, 9, 12, 65_528, 65_535]),
        3 => (p.last, p.length) = (false, random.pick(&[0, 4, 8, 12, 65_528])),
        4 => p.offset = random.pick(&[0, 1, 8190, 8191, 8192, u16::MAX]),
        5 => (p.last, p.offset, p.length) = (true, 8191, random.pick(&[6, 7, 8])),
        6 => (p.last, p.offset, p.length) = (true, 0, 0),
        7 => {
            p.length = 0;
            p.number = number_outside(random, sent);
            p.time = greatest.saturating_sub(1001);
        }
        _ => {
            (p.last, p.length) = (false, 4);
            p.time = greatest.saturating_sub(1001);
        }
    }
}

fn lists(random: &mut Random, all: &[Piece]) -> Lists {
    let more = |random: &mut Random| random.pick(&[1, 1, 2, 255]);
    Lists {
        numbers: all.iter().map(|p| p.number).collect(),
        times: all.iter().map(|p| p.time).collect(),
        lengths: all.iter().map(|p| p.length).collect(),
        mores: all.iter().map(|p| if p.last { 0 } else { more(random) }).collect(),
        offsets: all.iter().map(|p| p.offset).collect(),
    }
}

/// One list longer or shorter than the others.
fn unequal(random: &mut Random, l: &mut Lists) {
    let many = if random.once_in(2) { l.numbers.len() + 1 } else { random.below(l.numbers.len()) };
    match random.below(5) {
        0 => l.numbers.resize(many, 1),
        1 => l.times.resize(many, u64::MAX),
        2 => l.lengths.resize(many, 8),
        3 => l.mores.resize(many, 0),
        _ => l.offsets.resize(many, 0),
    }
}

/// How many packets are sent, and how many fragments one has at most: a few, or enough for 4,096 arrivals, rarely one packet of
/// them all.
fn size(random: &mut Random) -> (u32, usize) {
    match random.below(1000) {
        0 => (1, 4096),
        1..5 => (4096, 3),
        5..40 => (random.between(100, 1500) as u32, random.between(1, 6)),
        40..500 => (random.between(1, 4) as u32, random.between(1, 12)),
        _ => (random.between(1, 30) as u32, random.between(1, 5)),
    }
}

// The comparison.

/// The library against the reference on arrivals made from a seed.
pub fn compare(seed: u64, lists: u64, seen: &mut Seen) -> Result<(), String> {
    for index in 0..lists {
        let random = &mut Random::new(seed ^ 0x6672_6167, index);
        one(random, seen).map_err(|text| format!("fragments {index} of seed {seed}: {text}"))?;
    }
    Ok(())
}

fn one(random: &mut Random, seen: &mut Seen) -> Result<(), String> {
    let (sent, most) = size(random);
    let whole = sent_pieces(random, sent, most);
    let mut all = arrive(random, whole);
    for _ in 0..random.pick(&[0, 0, 0, 1, 1, 2]) {
        damage(random, sent, &mut all);
    }
    let mut l = lists(random, &all);
    if random.once_in(25) {
        unequal(random, &mut l);
    }
    if random.once_in(500) {
        let many = random.pick(&[4097, 4098, 5000]);
        l.numbers.resize(many, 1);
    }
    let sent = if random.once_in(30) { random.pick(&[0, 4096, 4097, u32::MAX]) } else { sent };
    let many = l.numbers.len();
    let room = |random: &mut Random| if random.once_in(12) { random.below(many + 1) } else { many + random.below(3) };
    let mut left = Lent { flags: vec![99; room(random)], usable: vec![88; room(random)] };
    let mut right = left.clone();
    let a = by_library(sent, &l, &mut left);
    let b = by_reference(sent, &l, &mut right, |kind| seen.kind(kind));
    seen.call("fragments", a);
    if (a, &left) != (b, &right) {
        return Err(format!("K {sent} {l:?}\n left {a} {left:?}\nright {b} {right:?}\n"));
    }
    if a == 0 && many == MOST_ARRIVALS {
        seen.kind("fragments: 4,096 arrivals");
    }
    Ok(())
}

// The measurement.

/// Whole packets in order and sent twice; packets of four fragments together and of two apart; and all fragments of one packet in
/// order, the last one first, and shuffled.
fn measured(many: usize) -> [(&'static str, u32, Lists); 7] {
    let part = |number: usize, part: usize, parts: usize| Piece {
        number: number as u32,
        time: 0,
        length: 8,
        last: part + 1 == parts,
        offset: part as u16,
    };
    let of = |all: Vec<Piece>| lists(&mut Random::new(1, 1), &all);
    let half = many / 2;
    let one: Vec<Piece> = (0..many).map(|i| part(1, i, many)).collect();
    let mut shuffled = one.clone();
    Random::new(2, 2).shuffle(&mut shuffled);
    [
        ("whole packets", many as u32, of((0..many).map(|i| part(i + 1, 0, 1)).collect())),
        ("sent twice", half as u32, of((0..many).map(|i| part(i % half + 1, 0, 1)).collect())),
        ("four each", many as u32 / 4, of((0..many).map(|i| part(i / 4 + 1, i % 4, 4)).collect())),
        ("two each, apart", half as u32, of((0..many).map(|i| part(i % half + 1, i / half, 2)).collect())),
        ("one in order", 1, of(one.clone())),
        ("one reversed", 1, of(one.into_iter().rev().collect())),
        ("one shuffled", 1, of(shuffled)),
    ]
}

/// Nanoseconds of a call.
pub fn time(amounts: &[usize]) {
    println!("{:22} {:>5} {:>11} {:>11} {:>6}", "fragments", "A", "library", "reference", "ratio");
    for &many in amounts {
        for (name, sent, l) in measured(many) {
            let mut lent = [(); 2].map(|()| Lent { flags: vec![0; many], usable: vec![0; many] });
            let [a, b] = lent.each_mut();
            let [library, reference] = measure([
                calls(|| by_library(sent, black_box(&l), a)),
                calls(|| by_reference(sent, black_box(&l), b, |_| {})),
            ]);
            let ratio = library / reference;
            println!("{name:22} {many:5} {library:11.0} {reference:11.0} {ratio:6.2}");
        }
    }
}
