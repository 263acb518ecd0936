//! The measurements: what a call costs, library beside reference, in one run.

use std::hint::black_box;

use crate::boundary::{Meter, Reference, LIBRARY, LIBRARY_NAME};
use crate::generate::{measured, Order};
use crate::reference::*;
use crate::{
    checker, disorder, fragments, gaps, meter, needs, records, rows, shortnumbers, summary, sweep, tables, text,
};

const AMOUNTS: [usize; 3] = [256, 1024, 4096];
const ORDERS: [Order; 3] = [Order::InOrder, Order::Shuffled, Order::Reversed];
const ROUNDS: usize = 15;
/// What a round should last, in nanoseconds.
const ROUND: f64 = 2e6;

/// The processor time of this thread in nanoseconds: what other programs take meanwhile is not in it.
fn now() -> f64 {
    #[repr(C)]
    struct Timespec {
        seconds: i64,
        nanoseconds: i64,
    }
    unsafe extern "C" {
        fn clock_gettime(clock: i32, time: *mut Timespec) -> i32;
    }
    const THREAD_CPU_TIME: i32 = 3;
    let mut time = Timespec { seconds: 0, nanoseconds: 0 };
    // The C library writes both fields.
    let failed = unsafe { clock_gettime(THREAD_CPU_TIME, &mut time) };
    assert_eq!(failed, 0);
    time.seconds as f64 * 1e9 + time.nanoseconds as f64
}

/// Calls something so many times.
pub type Calls<'a> = Box<dyn FnMut(usize) + 'a>;

pub fn calls<'a, T>(mut call: impl FnMut() -> T + 'a) -> Calls<'a> {
    Box::new(move |times| {
        for _ in 0..times {
            black_box(call());
        }
    })
}

fn timed(calls: &mut Calls, times: usize) -> f64 {
    let start = now();
    calls(times);
    (now() - start) / times as f64
}

/// Nanoseconds of one call of each, the least of all rounds. The rounds take turns, so that a busy machine meets all.
pub fn measure<const N: usize>(mut columns: [Calls; N]) -> [f64; N] {
    let times = columns.each_mut().map(|calls| {
        timed(calls, 1);
        (ROUND / timed(calls, 3)).clamp(1.0, 1e6) as usize
    });
    let mut least = [f64::INFINITY; N];
    for _ in 0..ROUNDS {
        for column in 0..N {
            least[column] = least[column].min(timed(&mut columns[column], times[column]));
        }
    }
    least
}

/// The tables in their order, each by its name.
const TABLES: [(&str, fn()); 18] = [
    ("listing", || each(listings, "listing", ["lanes", "swift"])),
    ("figures", || each(figures, "figure", ["by answers", "swift"])),
    ("degrees", degrees),
    ("others", || each(others, "other call", ["", ""])),
    ("text", || text::time(&AMOUNTS)),
    ("records", || records::time(&AMOUNTS)),
    ("checker", || checker::time(&ORDERS, &AMOUNTS)),
    ("sweep", || sweep::time(&ORDERS, &AMOUNTS)),
    ("rows", || rows::time(&ORDERS, &AMOUNTS)),
    ("gaps", || gaps::time(&ORDERS, &AMOUNTS)),
    ("needs", || needs::time(&ORDERS, &AMOUNTS)),
    ("summary", || summary::time(&ORDERS, &AMOUNTS)),
    ("tables", || tables::time(&ORDERS, &AMOUNTS)),
    ("disorder", || disorder::time(&ORDERS, &AMOUNTS)),
    ("fragments", || fragments::time(&AMOUNTS)),
    ("steps", receiver_steps),
    ("short", || shortnumbers::time(&AMOUNTS)),
    ("meter", || meter::time(&AMOUNTS)),
];

/// Prints the tables that are asked for by their names, or all. Whether there is a table of each name.
pub fn run(asked: &[String]) -> bool {
    if !asked.iter().all(|name| TABLES.iter().any(|table| table.0 == name)) {
        return false;
    }
    println!("library: {LIBRARY_NAME}; nanoseconds of a call, and library / reference");
    for (name, table) in TABLES {
        if asked.is_empty() || asked.iter().any(|word| word == name) {
            println!();
            table();
        }
    }
    true
}

/// The rows of each order and amount, below their names; where there are more columns, the ratio is to the least.
fn each(rows: fn(Order, usize), call: &str, more: [&str; 2]) {
    let [c, d] = more;
    let names = format!("{call:22} {:>5} {:>11} {:>11} {:>6} {c:>11} {d:>11}", "A", "library", "reference", "ratio");
    println!("{}", names.trim_end());
    for order in ORDERS {
        for many in AMOUNTS {
            rows(order, many);
        }
    }
}

fn listings(order: Order, many: usize) {
    let file = measured(order, many).file();
    let f = &file[..];
    let outs = &mut [(); 4].map(|()| vec![0; LISTING_ROOM]);
    let [a, b, c, d] = outs.each_mut();
    let [library, reference, lanes, swift] = measure([
        calls(|| LIBRARY.listing(black_box(f), a)),
        calls(|| listing(black_box(f), b)),
        calls(|| listing_by::<Lanes>(black_box(f), c)),
        calls(|| listing_by::<Swift>(black_box(f), d)),
    ]);
    let ratio = library / reference.min(lanes).min(swift);
    let name = format!("{order:?}");
    println!("{name:22} {many:5} {library:11.0} {reference:11.0} {ratio:6.2} {lanes:11.0} {swift:11.0}");
}

/// Figures that the reference makes by narrow scans, and as folds over whole answers.
fn figures(order: Order, many: usize) {
    let file = measured(order, many).file();
    let f = &file[..];
    let rows: [(&str, [f64; 4]); 3] = [
        (
            "tally",
            measure([
                calls(|| LIBRARY.tally(black_box(f))),
                calls(|| tally(black_box(f))),
                calls(|| tally_of_answers::<Scan>(black_box(f))),
                calls(|| tally_of_answers::<Swift>(black_box(f))),
            ]),
        ),
        (
            "degree",
            measure([
                calls(|| LIBRARY.degree(black_box(f), 3)),
                calls(|| degree(black_box(f), 3)),
                calls(|| degree_of_answers::<Scan>(black_box(f), 3)),
                calls(|| degree_of_answers::<Swift>(black_box(f), 3)),
            ]),
        ),
        (
            "ratios",
            measure([
                calls(|| LIBRARY.ratios(black_box(f))),
                calls(|| ratios(black_box(f))),
                calls(|| ratios_of_answers::<Scan>(black_box(f))),
                calls(|| ratios_of_answers::<Swift>(black_box(f))),
            ]),
        ),
    ];
    for (call, [library, reference, answers, swift]) in rows {
        let (name, ratio) = (format!("{call} {order:?}"), library / reference.min(answers).min(swift));
        println!("{name:22} {many:5} {library:11.0} {reference:11.0} {ratio:6.2} {answers:11.0} {swift:11.0}");
    }
}

/// A row of library and reference.
pub fn row(name: &str, many: usize, [library, reference]: [f64; 2]) {
    println!("{name:30} {many:5} {library:11.0} {reference:11.0} {:6.2}", library / reference);
}

/// How many packets are n-reordered, in each order and with halves exchanged.
fn degrees() {
    println!("{:30} {:>5} {:>11} {:>11} {:>6}", "n-reordered", "A", "library", "reference", "ratio");
    for order in ORDERS.into_iter().chain([Order::Halves]) {
        for n in [3, 100] {
            for many in AMOUNTS {
                let file = measured(order, many).file();
                let f = &file[..];
                let all =
                    measure([calls(|| LIBRARY.n_reordered(black_box(f), n)), calls(|| n_reordered(black_box(f), n))]);
                row(&format!("n = {n} {order:?}"), many, all);
            }
        }
    }
}

fn others(order: Order, many: usize) {
    let draft = measured(order, many);
    let file = draft.file();
    let f = &file[..];
    let last = many as u32;
    let mut lists = [(); 2].map(|()| (vec![0; many], vec![0; many], vec![0; many]));
    let [l, r] = lists.each_mut();
    let mut outs = [(); 2].map(|()| vec![0; file.len()]);
    let [lo, ro] = outs.each_mut();
    let d = &draft;
    let rows: [(&str, [f64; 2]); 6] = [
        (
            "read",
            measure([
                calls(|| LIBRARY.read(black_box(f), &mut l.0, &mut l.1, &mut l.2)),
                calls(|| read(black_box(f), &mut r.0, &mut r.1, &mut r.2)),
            ]),
        ),
        (
            "write",
            measure([
                calls(|| LIBRARY.write(black_box(&d.label), &d.sizes, &d.numbers, &d.times, lo)),
                calls(|| write(black_box(&d.label), &d.sizes, &d.numbers, &d.times, ro)),
            ]),
        ),
        (
            "label",
            measure([calls(|| LIBRARY.label(black_box(f))), calls(|| label(black_box(f)).map(|label| label.len()))]),
        ),
        (
            "answer, last record",
            measure([calls(|| LIBRARY.answer(black_box(f), last)), calls(|| answer(black_box(f), last))]),
        ),
        ("counts", measure([calls(|| LIBRARY.counts(black_box(f))), calls(|| counts(black_box(f)))])),
        ("gap, last record", measure([calls(|| LIBRARY.gap(black_box(f), last)), calls(|| gap(black_box(f), last))])),
    ];
    for (call, [library, reference]) in rows {
        let (name, ratio) = (format!("{call} {order:?}"), library / reference);
        println!("{name:22} {many:5} {library:11.0} {reference:11.0} {ratio:6.2}");
    }
}

// The receiver.

fn receiver_steps() {
    println!("{:22} {:>5} {:>11} {:>11} {:>6}", "step, each", "A", "library", "reference", "ratio");
    for kind in KINDS {
        for many in AMOUNTS {
            let list = steps(kind, many);
            let all = measure([calls(|| LIBRARY.feed(&list)), calls(|| Reference.feed(&list))]);
            let [a, b] = all.map(|whole| whole / many as f64);
            println!("{:22} {many:5} {a:11.1} {b:11.1} {:6.2}", name(kind), a / b);
        }
    }
}

/// Arrivals to feed: all in order; or each second packet, so that each is a jump and the window is full after 64, and
/// then those left out, each late.
#[derive(Clone, Copy, PartialEq, Eq, Debug)]
pub enum Kind {
    InOrder,
    Window,
}

pub const KINDS: [Kind; 2] = [Kind::InOrder, Kind::Window];

pub fn name(kind: Kind) -> &'static str {
    match kind {
        Kind::InOrder => "in order",
        Kind::Window => "window full",
    }
}

/// A list of so many arrivals, for K = 4,096.
pub fn steps(kind: Kind, many: usize) -> Vec<(u32, u64)> {
    let many = many as u32;
    let numbers: Vec<u32> = match kind {
        Kind::InOrder => (1..=many).collect(),
        Kind::Window => (2..=many).step_by(2).chain((1..=many).step_by(2)).collect(),
    };
    numbers.into_iter().zip(1..).map(|(number, record)| (number, 10 * record)).collect()
}
