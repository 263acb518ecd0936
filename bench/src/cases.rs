//! The cases of the scope, run on the reference; then the reference against the definitions on generated inputs; then
//! each wrong reading of the definitions, which the same inputs must find out.

use std::fmt::Debug;
use std::marker::PhantomData;

use crate::boundary::{ByAnswers, Meter, Reference};
use crate::compare::{self, Buffers, Seen};
use crate::definition::{unfit_ways, Account, Definition, Mistake};
use crate::diff::{self, Amounts};
use crate::generate::{self, sample_case, state_case, Draft, Order, Random, State};
use crate::reference::*;

const SEED: u64 = 4737;

#[derive(Default)]
struct Run {
    passed: u32,
    failed: u32,
}

impl Run {
    fn check(&mut self, name: &str, holds: bool) {
        if holds {
            self.passed += 1;
        } else {
            self.failed += 1;
            println!("FAILED {name}");
        }
    }

    fn equal<T: PartialEq + Debug>(&mut self, name: &str, found: T, wanted: T) {
        if found != wanted {
            println!("{name}: found {found:?}, wanted {wanted:?}");
        }
        self.check(name, found == wanted);
    }
}

/// Runs all; true if nothing failed.
pub fn run(amounts: &Amounts) -> bool {
    let mut run = Run::default();
    example(&mut run);
    table(&mut run);
    windows(&mut run);
    directions(&mut run);
    limits(&mut run);
    refusal_order(&mut run);
    writer(&mut run);
    receiver(&mut run);
    generators(&mut run);
    println!("cases of the scope: {} passed, {} failed", run.passed, run.failed);
    generated(&mut run, amounts);
    mistakes(&mut run);
    println!("{} passed, {} failed", run.passed, run.failed);
    run.failed == 0
}

/// A sample as the cases have it: K the greatest number, sizes 100, no label, record r at 10 r.
fn sample(numbers: &[u32]) -> Draft {
    let sent = numbers.iter().copied().max().unwrap_or(1).min(4097) as usize;
    Draft {
        sizes: vec![100; sent],
        numbers: numbers.to_vec(),
        times: (1..=numbers.len() as u64).map(|record| 10 * record).collect(),
        ..Draft::default()
    }
}

fn file(numbers: &[u32]) -> Vec<u8> {
    sample(numbers).file()
}

fn listed(file: &[u8]) -> String {
    String::from_utf8(report(file)).unwrap()
}

fn late(position: u32, extent: u32, after: u64, byte_offset: u32, largest_n: u32) -> Answer {
    Answer::Reordered { position, extent, late_time: LateTime::After(after), byte_offset, largest_n }
}

fn in_order(position: u32, jump: u32) -> Answer {
    Answer::InOrder { position, jump }
}

fn answers(file: &[u8]) -> Vec<Answer> {
    (1..=check(file).unwrap().arrivals.len() as u32).map(|record| answer(file, record).answer).collect()
}

fn counts_of(numbers: [u32; 6]) -> Counts {
    let [first_arrivals, reordered, duplicates, closed_runs, squares, open_run] = numbers;
    Counts { refusal: 0, first_arrivals, reordered, duplicates, closed_runs, squares, open_run }
}

fn gaps(file: &[u8]) -> Vec<(u32, u32)> {
    (1..=check(file).unwrap().arrivals.len() as u32)
        .filter_map(|record| gap(file, record).gap.map(|gap| (record, gap)))
        .collect()
}

/// P1: the report's sample, to the octet.
fn example(run: &mut Run) {
    let mut p1 = sample(&[1, 2, 4, 5, 3]);
    p1.times = vec![10, 20, 40, 50, 70];
    let file = p1.file();
    run.equal("P1 octets", file.len(), 76);
    let wanted =
        "sent 5 arrivals 5\n1 1 in 1 0\n2 2 in 2 0\n3 4 in 3 1\n4 5 in 4 0\n5 3 late 5 2 30 200 2\nend 5 1 0 1 16 0\n";
    run.equal("P1 listing", listed(&file).as_str(), wanted);
    run.equal("P1 counts", counts(&file), counts_of([5, 1, 0, 1, 16, 0]));
    run.equal("refused input", listed(&file[..75]).as_str(), "refused 1\n");
    for (octets, room, refusal, length) in [(76, 101, 0, 101), (76, 100, 8, 0), (75, 101, 1, 0), (75, 0, 1, 0)] {
        let mut out = vec![7; room];
        run.equal("listing", listing(&file[..octets], &mut out), Written { refusal, length });
        run.check("listing's output", refusal == 0 || out.iter().all(|&octet| octet == 7));
    }
}

fn table(run: &mut Run) {
    let mut p2 = sample(&[1, 2, 3, 7, 8, 9, 10, 4, 5, 6, 11]);
    p2.times = vec![68, 88, 108, 188, 208, 228, 248, 250, 252, 256, 268];
    let p2 = p2.file();
    let wanted = [late(8, 4, 62, 400, 4), late(9, 5, 64, 400, 0), late(10, 6, 68, 400, 0)];
    run.equal("P2 packets 4, 5, 6", &answers(&p2)[7..10], &wanted[..]);
    run.equal("P2 counts", counts(&p2), counts_of([11, 3, 0, 3, 49, 1]));

    let p3 = file(&[1, 2, 3, 6, 7, 4, 5, 8, 9, 10, 12, 13, 11, 14, 15, 16]);
    let a = answers(&p3);
    let wanted = [late(6, 2, 20, 200, 2), late(7, 3, 30, 200, 0), late(13, 2, 20, 200, 2)];
    run.equal("P3 packets 4, 5, 11", [a[5], a[6], a[12]], wanted);
    run.equal("P3 gaps", gaps(&p3), vec![(11, 7)]);
    run.equal("P3 counts", counts(&p3), counts_of([16, 3, 0, 3, 50, 3]));

    let p4 = file(&[1, 2, 3, 7, 8, 9, 4, 5, 6]);
    let wanted = [late(7, 3, 30, 300, 3), late(8, 4, 40, 300, 0), late(9, 5, 50, 300, 0)];
    run.equal("P4 packets 4, 5, 6", &answers(&p4)[6..], &wanted[..]);

    let p5 = file(&[1, 10, 5]);
    run.equal("P5", answers(&p5), vec![in_order(1, 0), in_order(2, 8), late(3, 1, 10, 100, 1)]);

    let p6 = file(&[1, 2, 2, 3]);
    run.equal("P6 record 3", answers(&p6)[2], Answer::Duplicate { first_record: 2 });
    run.equal("P6 counts", counts(&p6), counts_of([3, 0, 1, 0, 0, 3]));

    let p7 = file(&[1, 3, 6, 5, 2]);
    let wanted = vec![in_order(1, 0), in_order(2, 1), in_order(3, 2), late(4, 1, 10, 100, 1), late(5, 3, 30, 300, 3)];
    run.equal("P7", answers(&p7), wanted);
    run.equal("P7 gaps", gaps(&p7), vec![]);
    let mut places = [0; 101];
    (places[1], places[3]) = (1, 1);
    run.equal("P7 tally", tally(&p7), Tally { refusal: 0, places });
    let figures = ratios(&p7).figures.unwrap();
    run.equal("P7 ratios", [figures.reordered, figures.degree_1, figures.degree_3], [0.4, 0.4, 0.2]);

    let p8 = file(&[]);
    run.equal("P8 counts", counts(&p8), Counts::default());
    run.check("P8 ratios", ratios(&p8).refusal == 0 && ratios(&p8).figures.is_none());
    run.check("P8 degree", degree(&p8, 1).refusal == 0 && degree(&p8, 1).ratio.is_none());
    run.equal("P8 record", answer(&p8, 1).refusal, OUTSIDE);
    run.equal("P8 listing", listed(&p8).as_str(), "sent 1 arrivals 0\nend 0 0 0 0 0 0\n");

    run.equal("P9", answers(&file(&[3])), vec![in_order(1, 2)]);

    let p10 = file(&[2, 1, 4, 6, 5, 3]);
    run.equal("P10 gaps", gaps(&p10), vec![(3, 2)]);
    run.equal("P10 counts", counts(&p10), counts_of([6, 3, 0, 3, 5, 0]));

    let rfc_7_1 = answers(&file(&[1, 2, 3, 5, 6, 7, 8, 4, 9, 10]));
    run.equal("RFC 7.1", rfc_7_1[7], late(8, 4, 40, 400, 4));
    let rfc_7_2 = answers(&file(&[1, 2, 3, 4, 7, 5, 6, 8, 9, 10]));
    run.equal("RFC 7.2", [rfc_7_2[5], rfc_7_2[6]], [late(6, 1, 10, 100, 1), late(7, 2, 20, 100, 0)]);
}

/// Feeds numbers at 10, 20, .. to a fresh receiver for K and to the account; the last answer.
fn fed(run: &mut Run, name: &str, sent: u32, numbers: &[u32]) -> Answered {
    let mut receiver = Receiver::fresh(sent).receiver;
    let mut account = Account::new(sent);
    let mut last = Answered { refusal: 0, answer: Step::Duplicate };
    for (record, &number) in (1..).zip(numbers) {
        last = receiver.step_mut(number, 10 * record);
        run.check(name, last == account.arrive(number, 10 * record));
    }
    last
}

fn windows(run: &mut Run) {
    let evens = |high: u32, last: u32| (2..=high).step_by(2).chain([last]).collect::<Vec<u32>>();
    let accepted = |answer| Answered { refusal: 0, answer };
    let last = fed(run, "window to 128, then 1", 130, &evens(128, 1));
    run.equal("window to 128, then 1", last, accepted(Step::Exact { extent: 64, late_time: LateTime::After(640) }));
    let last = fed(run, "window to 130, then 1", 130, &evens(130, 1));
    run.equal("window to 130, then 1", last, accepted(Step::Beyond { extent: 64, late_time: LateTime::After(640) }));
    let last = fed(run, "window to 130, then 3", 130, &evens(130, 3));
    run.equal("window to 130, then 3", last, accepted(Step::Exact { extent: 64, late_time: LateTime::After(640) }));
    let truth = answers(&file(&evens(130, 1)))[65];
    run.check(
        "the true extent is 65",
        matches!(truth, Answer::Reordered { extent: 65, late_time: LateTime::After(650), .. }),
    );
}

/// A late packet after and before its discontinuity, of a file and of a receiver; then a copy that raises the greatest time.
fn directions(run: &mut Run) {
    let refused = Answered { refusal: TIME, answer: Step::InOrder { jump: 0 } };
    let times = [
        (2001, Ok(LateTime::After(1))),
        (2000, Ok(LateTime::After(0))),
        (1999, Ok(LateTime::Before(1))),
        (1000, Ok(LateTime::Before(1000))),
        (999, Err(TIME)),
    ];
    for (time, wanted) in times {
        let file = Draft { times: vec![2000, time], ..sample(&[2, 1]) }.file();
        let found = answer(&file, 2);
        let mut r = Receiver::fresh(2).receiver;
        r.step_mut(2, 2000);
        let stepped = r.step_mut(1, time);
        let Ok(late_time) = wanted else {
            run.equal("time too early", (found.refusal, stepped), (TIME, refused));
            continue;
        };
        let wanted = Answer::Reordered { position: 2, extent: 1, late_time, byte_offset: 100, largest_n: 1 };
        run.equal("direction of a record", found.answer, wanted);
        run.equal("direction of a step", stepped.answer, Step::Exact { extent: 1, late_time });
        run.equal("greatest time", r.greatest_time, time.max(2000));
        let minus = if matches!(late_time, LateTime::Before(_)) { "-" } else { "" };
        let line = format!("2 1 late 2 1 {minus}{} 100 1\n", time.abs_diff(2000));
        run.check("direction in a listing", listed(&file).contains(&line));
    }
    let mut r = Receiver::fresh(2).receiver;
    r.step_mut(2, 1500);
    run.equal("a copy", r.step_mut(2, 2000).answer, Step::Duplicate);
    run.equal("too early for the copy", r.step_mut(1, 999), refused);
    run.equal("not for it", r.step_mut(1, 1000).answer, Step::Exact { extent: 1, late_time: LateTime::Before(500) });
}

fn with_label(octets: usize) -> Vec<u8> {
    Draft { label: vec![b'a'; octets], ..sample(&[1, 2, 3]) }.file()
}

/// K packets sent, and these arrivals.
fn with_sent(sent: usize, numbers: &[u32]) -> Vec<u8> {
    Draft { sizes: vec![100; sent], ..sample(numbers) }.file()
}

fn refusal(file: &[u8]) -> u32 {
    check(file).err().unwrap_or(0)
}

fn limits(run: &mut Run) {
    for (octets, wanted) in [(0, 0), (1, 0), (64, 0), (65, LABEL_COUNT)] {
        let file = with_label(octets);
        run.equal("label octets", refusal(&file), wanted);
        let shown = Reference.label(&file);
        let place = if wanted == 0 { (2, octets) } else { (0, 0) };
        run.equal("label shown", (shown.start, shown.length), place);
    }
    for (sent, wanted) in [(0, SENT_COUNT), (1, 0), (4096, 0), (4097, SENT_COUNT)] {
        run.equal("K", refusal(&with_sent(sent, &[])), wanted);
        run.equal("K of a receiver", Receiver::fresh(sent as u32).refusal, wanted);
    }
    for (many, wanted) in [(0, 0), (4096, 0), (4097, ARRIVAL_COUNT)] {
        run.equal("A", refusal(&with_sent(1, &vec![1; many])), wanted);
    }
    for (number, wanted) in [(0, NUMBER), (1, 0), (7, 0), (8, NUMBER), (65_537, NUMBER), (u32::MAX, NUMBER)] {
        run.equal("number", refusal(&with_sent(7, &[number])), wanted);
    }
    for (second, wanted) in [(2000, 0), (1000, 0), (999, TIME), (2001, 0), (u64::MAX, 0), (0, TIME)] {
        let file = Draft { times: vec![2000, second], ..sample(&[1, 2]) }.file();
        run.equal("time", refusal(&file), wanted);
    }
    for (third, wanted) in [(1000, 0), (999, TIME)] {
        let file = Draft { times: vec![2000, 1500, third], ..sample(&[1, 2, 3]) }.file();
        run.equal("time after 2000 and 1500", refusal(&file), wanted);
        let file = Draft { times: vec![1500, 2000, third], ..sample(&[1, 1, 2]) }.file();
        run.equal("time after 1500 and a copy's 2000", refusal(&file), wanted);
    }
    let whole = file(&[1, 2, 4, 5, 3]);
    for (n, wanted) in [(0, OUTSIDE), (1, 0), (100, 0), (101, OUTSIDE), (257, OUTSIDE)] {
        run.equal("n", degree(&whole, n).refusal, wanted);
        run.equal("n after the file", degree(&whole[1..], n).refusal, refusal(&whole[1..]));
    }
    for (record, wanted) in [(0, OUTSIDE), (1, 0), (5, 0), (6, OUTSIDE), (65_537, OUTSIDE)] {
        run.equal("record", answer(&whole, record).refusal, wanted);
        run.equal("record of a gap", gap(&whole, record).refusal, wanted);
    }
    run.equal("one octet too many", refusal(&[&whole[..], &[0]].concat()), FILE_LONG);
    for end in 0..whole.len() {
        run.equal("cut", refusal(&whole[..end]), FILE_SHORT);
    }
    let longest = generate::longest();
    run.equal("longest", (longest.len(), refusal(&longest)), (57_414, 0));

    // The greatest byte offset, and the octets of the longest listings stay within the room.
    let mut most = sample(&(2..=4096).chain([1]).collect::<Vec<u32>>());
    most.sizes.fill(u16::MAX);
    run.equal("greatest byte offset", answers(&most.file())[4095], late(4096, 4095, 40_950, 268_365_825, 4095));
    let mut most = sample(&(1..=4096).rev().collect::<Vec<u32>>());
    most.sizes.fill(u16::MAX);
    most.times = [0].into_iter().chain([u64::MAX; 4095]).collect();
    run.check("longest listings", listed(&most.file()).len() <= LISTING_ROOM);

    // Of a longer input the first 57,415 octets decide.
    for index in 0..400 {
        let mut long = sample_case(SEED, index).file;
        long.resize(LONGEST_FILE + 1 + index as usize % 3, index as u8);
        run.equal("long input", refusal(&long), refusal(&long[..LONGEST_FILE + 1]));
        run.check("long input", matches!(refusal(&long), 2..=5 | 13));
    }
}

fn refusal_order(run: &mut Run) {
    run.equal("empty file", refusal(&[]), 1);
    run.equal("half a count", refusal(&[0]), 1);
    run.equal("count of 65 and no more", refusal(&[0, 65]), 3);
    run.equal("count of 64 and no more", refusal(&[0, 64]), 1);
    for (octet, wanted) in [(0x1F, 13), (0x20, 4), (0x7E, 4), (0x7F, 13), (0, 13), (0xFF, 13)] {
        run.equal("label octet before K", refusal(&[0, 1, octet, 0, 0]), wanted);
        run.equal("the first of three", refusal(&[0, 3, octet, 0x41, 0x41, 0, 0]), wanted);
        run.equal("the second of three", refusal(&[0, 3, 0x41, octet, 0x41, 0, 0]), wanted);
        run.equal("the last of three", refusal(&[0, 3, 0x41, 0x41, octet, 0, 0]), wanted);
    }
    run.equal("label octet and no K", refusal(&[0, 1, 0x1F]), 13);
    run.equal("label octet of two, and one there", refusal(&[0, 2, 0x1F]), 1);
    run.equal("label octet of 65", refusal(&[0, 65, 0x1F]), 3);
    run.equal("no K", refusal(&[0, 0]), 1);
    run.equal("K of 0 and no more", refusal(&[0, 0, 0, 0]), 4);
    run.equal("K of 4,097 and no more", refusal(&[0, 0, 0x10, 1]), 4);
    run.equal("K of 4,096 and no more", refusal(&[0, 0, 0x10, 0]), 1);
    run.equal("A of 4,097 and no more", refusal(&[0, 0, 0, 1, 0, 0, 0x10, 1]), 5);
    run.equal("A of 4,096 and no more", refusal(&[0, 0, 0, 1, 0, 0, 0x10, 0]), 1);
    run.equal("no A", refusal(&[0, 0, 0, 1, 0, 0]), 1);

    let bad = |numbers: &[u32], times: &[u64], tail: usize| {
        let draft = Draft { sizes: vec![1; 3], times: times.to_vec(), tail: vec![0; tail], ..sample(numbers) };
        refusal(&draft.file())
    };
    run.equal("2 before 6 and 7", bad(&[4, 1], &[2000, 999], 1), 2);
    run.equal("6 before 7 of one record", bad(&[1, 4], &[2000, 999], 0), 6);
    run.equal("7 of a record before 6 of a later one", bad(&[1, 2, 4], &[2000, 999, 2000], 0), 7);
    run.equal("6 of a record before 7 of a later one", bad(&[1, 4, 2], &[2000, 2001, 999], 0), 6);
    run.equal("7 against a copy", bad(&[1, 1, 2], &[1500, 2000, 999], 0), 7);
    run.equal("7 against the greatest", bad(&[1, 2, 3], &[2000, 1500, 999], 0), 7);

    // 8 comes last, and leaves all lists as they were.
    let whole = file(&[1, 2, 3]);
    for room in [[2, 3, 3], [3, 2, 3], [3, 3, 2], [3, 3, 3], [5, 6, 7]] {
        let (mut sizes, mut numbers, mut times) = (vec![7; room[0]], vec![7; room[1]], vec![7; room[2]]);
        let found = read(&whole, &mut sizes, &mut numbers, &mut times);
        if room.iter().any(|&room| room < 3) {
            run.equal("short list", found, Read { refusal: 8, ..Read::default() });
            run.check("short list", sizes.iter().all(|&v| v == 7) && numbers.iter().all(|&v| v == 7));
            run.check("short list", times.iter().all(|&v| v == 7));
        } else {
            run.equal("lists", found, Read { refusal: 0, label: 0, sent: 3, arrivals: 3 });
            run.check("lists", sizes[..3] == [100; 3] && numbers[..3] == [1, 2, 3] && times[..3] == [10, 20, 30]);
            run.check("past the lists", sizes[3..].iter().all(|&v| v == 7) && times[3..].iter().all(|&v| v == 7));
        }
    }
}

fn writer(run: &mut Run) {
    let most = vec![1; 4097];
    let mut out = [7; 64];
    let mut refused = |label: &[u8], sizes: &[u16], numbers: &[u32], times: &[u64], room: usize, wanted: u32| {
        let found = write(label, sizes, numbers, times, &mut out[..room]);
        run.equal("writer", found, Written { refusal: wanted, length: 0 });
        run.check("writer's output", out == [7; 64]);
    };
    refused(&[0; 65], &[], &most, &[], 0, 3);
    refused(b" \x7F", &[], &most, &[], 0, 13);
    refused(b"\x1F~", &[0; 4097], &most, &[], 0, 13);
    refused(b" ~", &[], &most, &[], 0, 4);
    refused(&[], &[], &most, &[], 0, 4);
    refused(&[], &[0; 4097], &most, &[], 0, 4);
    refused(&[], &[0], &most, &[], 0, 5);
    refused(&[], &[0], &[2], &[0; 4097], 0, 12);
    refused(&[], &[0], &[2, 1], &[1], 0, 12);
    refused(&[], &[0], &[1, 2], &[1001, 0], 0, 6);
    refused(&[], &[0], &[1, 1, 2], &[1001, 0, 0], 0, 7);
    refused(&[], &[0], &[1, 1, 1], &[2000, 1500, 999], 0, 7);
    refused(&[], &[0], &[1], &[1], 19, 8);
    let found = write(b"9", &[258], &[1], &[u64::MAX - 1], &mut out);
    run.equal("written", found, Written { refusal: 0, length: 21 });
    let wanted = [0, 1, b'9', 0, 1, 1, 2, 0, 1, 0, 0, 0, 1, 255, 255, 255, 255, 255, 255, 255, 254];
    run.equal("written octets", &out[..21], &wanted[..]);
    run.check("octets after", out[21..] == [7; 43]);
}

fn receiver(run: &mut Run) {
    let refused = |refusal| Answered { refusal, answer: Step::InOrder { jump: 0 } };
    run.equal("fresh for 0", Receiver::fresh(0), Fresh { refusal: 4, receiver: Receiver::fresh(1).receiver });
    run.equal("fresh for 4,097", Receiver::fresh(4097).receiver, Receiver::fresh(1).receiver);

    let mut r = Receiver::fresh(3).receiver;
    run.equal(
        "6 before 7",
        {
            r.greatest_time = 2000;
            r.step_mut(4, 999)
        },
        refused(6),
    );
    run.equal("7", r.step_mut(3, 999), refused(7));
    r.duplicates = 4096;
    run.equal("11 before 6 and 7", r.step_mut(4, 999), refused(11));
    r.duplicates = 4097;
    run.equal("unfit before all", r.step_mut(4, 999), refused(10));

    // The second case of 10, and only for an unmarked number below NextExp.
    let mut r = Receiver::fresh(10).receiver;
    r.next_expected = 6;
    let before = r.clone();
    run.equal("no kept jump", r.step_mut(3, 0), refused(10));
    run.equal(
        "7 before it",
        {
            r.greatest_time = 1001;
            r.step_mut(3, 0)
        },
        refused(7),
    );
    r = before.clone();
    r.mark(3);
    run.equal("a copy", r.step_mut(3, 0), Answered { refusal: 0, answer: Step::Duplicate });
    r = before;
    (r.first_arrivals, r.jumps.kept, r.jumps.dropped) = (1, 1, 4);
    (r.jumps.positions[0], r.jumps.numbers[0]) = (1, 3);
    run.equal("below the dropped one, none greater kept", r.step_mut(3, 0), refused(10));
    let beyond = Answered { refusal: 0, answer: Step::Beyond { extent: 1, late_time: LateTime::After(9) } };
    r.jumps.numbers[0] = 4;
    run.equal("below the dropped one", r.step_mut(3, 9), beyond);
    r.jumps.numbers[0] = 5;
    let exact = Answered { refusal: 0, answer: Step::Exact { extent: 2, late_time: LateTime::After(9) } };
    run.equal("the dropped number itself", r.step_mut(4, 9), exact);

    // A fit state that no run reaches may leave an unfit one.
    let mut r = Receiver::fresh(2).receiver;
    (r.first_arrivals, r.next_expected) = (2, 1);
    run.equal("L = K, unmarked", r.step_mut(1, 0), Answered { refusal: 0, answer: Step::InOrder { jump: 0 } });
    run.check("L over K", r.first_arrivals == 3 && r.unfit() && r.step_mut(1, 0) == refused(10));

    // 4,096 accepted, copies among them.
    let mut r = Receiver::fresh(2).receiver;
    for _ in 0..4096 {
        run.check("accepted", r.step_mut(1, 0).refusal == 0);
    }
    run.equal("the next", (r.step_mut(1, 0), r.first_arrivals, r.duplicates), (refused(11), 1, 4095));
}

/// States are unfit in the one way they are made for.
fn generators(run: &mut Run) {
    let mut ways = [0; 13];
    for index in 0..20_000 {
        let case = state_case(SEED, index);
        let found = unfit_ways(&case.receiver);
        let many = found.iter().filter(|&&way| way).count();
        let right = match case.kind {
            State::Fit | State::UnusedOdd => many == 0,
            State::Unfit(way) => many == 1 && found[way as usize],
            State::UnfitMore => many >= 1,
        };
        if let State::Unfit(way) = case.kind {
            ways[way as usize] += 1;
        }
        if !right || (many > 0) != case.receiver.unfit() {
            println!("state {index} {:?} {found:?}", case.kind);
            run.check("state as meant", false);
        }
    }
    run.check("each of the thirteen", ways.iter().all(|&many| many > 50));
    for order in [Order::InOrder, Order::Shuffled, Order::Reversed] {
        run.equal("measured sample", refusal(&generate::measured(order, 4096).file()), 0);
    }
    let again = |index| sample_case(SEED, index).file;
    run.check("the same again", (0..50).all(|index| again(index) == again(index)));
    let random = &mut Random::new(1, 1);
    run.check("below", (1..1000).all(|most| random.below(most) < most));
}

fn generated(run: &mut Run, amounts: &Amounts) {
    let mut seen = Seen::default();
    let found = diff::all(&Reference, &Definition::right(), SEED, amounts, &mut seen);
    run.equal("reference and definitions", found, Ok(()));
    print!("{}", seen.table());
    println!("{} samples, {} receiver arrivals, {} calls compared", amounts.samples, seen.arrivals, seen.calls);
    let engines: [&dyn Meter; 3] =
        [&ByAnswers::<Scan>(PhantomData), &ByAnswers::<Lanes>(PhantomData), &ByAnswers::<Swift>(PhantomData)];
    for engine in engines {
        let amounts = Amounts { samples: amounts.samples, lists: 0, states: 0 };
        run.equal("engines", diff::all(&Reference, engine, SEED, &amounts, &mut Seen::default()), Ok(()));
    }
    if amounts.samples >= 2000 && amounts.lists >= 200 && amounts.states >= 5000 {
        covered(run, &seen);
    }
}

/// Every refusal of every call and every kind of answer came.
fn covered(run: &mut Run, seen: &Seen) {
    let wanted: [(&str, &[u32]); 14] = [
        ("check", &[0, 1, 2, 3, 4, 5, 6, 7, 13]),
        ("read", &[0, 1, 2, 3, 4, 5, 6, 7, 8, 13]),
        ("write", &[0, 3, 4, 5, 6, 7, 8, 12, 13]),
        ("refusal_of_lists", &[0, 4, 5, 6, 7, 12]),
        ("answer", &[0, 1, 2, 3, 4, 5, 6, 7, 9, 13]),
        ("gap", &[0, 1, 2, 3, 4, 5, 6, 7, 9, 13]),
        ("counts", &[0, 1, 2, 3, 4, 5, 6, 7, 13]),
        ("tally", &[0, 1, 2, 3, 4, 5, 6, 7, 13]),
        ("n_reordered", &[0, 1, 2, 3, 4, 5, 6, 7, 9, 13]),
        ("degree", &[0, 1, 2, 3, 4, 5, 6, 7, 9, 13]),
        ("ratios", &[0, 1, 2, 3, 4, 5, 6, 7, 13]),
        ("listing", &[0, 1, 2, 3, 4, 5, 6, 7, 8, 13]),
        ("fresh", &[0, 4]),
        ("step", &[0, 6, 7, 10, 11]),
    ];
    for (call, refusals) in wanted {
        let found: Vec<u32> = seen.refusals.keys().filter(|key| key.0 == call).map(|key| key.1).collect();
        run.equal(call, found, refusals.to_vec());
    }
    run.equal("kinds of answers", seen.kinds.len(), 32);
}

/// Each wrong reading differs from the reference on some generated input.
fn mistakes(run: &mut Run) {
    let mut buffers = Buffers::default();
    let mut latest = (0, None);
    for mistake in Mistake::all() {
        let wrong = Definition::wrong(mistake);
        let found = (0..6000).find(|&index| {
            let seen = &mut Seen::default();
            let case = sample_case(SEED, index);
            let short = case.file.len() < 9000;
            compare::state(&Reference, &wrong, &state_case(SEED, index), seen).is_err()
                || short && compare::sample(&Reference, &wrong, &case, &mut buffers, seen).is_err()
                || compare::fresh(&Reference, &wrong, &state_case(SEED, index).receiver, index as u32 * 7, seen)
                    .is_err()
        });
        run.check(&format!("{mistake:?} found out"), found.is_some());
        if found > Some(latest.0) {
            latest = (found.unwrap(), Some(mistake));
        }
    }
    println!("{} wrong readings tried; the hardest found by input {}: {:?}", Mistake::all().len(), latest.0, latest.1);
}
