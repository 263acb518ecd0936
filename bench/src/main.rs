//! Self-check, differential test and benchmark.

use std::hint::black_box;
use std::io::{Read, Write};
use std::process::ExitCode;

use bench::archive;
use bench::boundary::{Meter, Reference, LIBRARY};
use bench::cases;
use bench::diff::{self, Amounts};
use bench::reference;
use bench::time::{self, Kind};

const USAGE: &str = "\
bench cases [samples [lists [states]]]         self-check of the reference
bench diff [samples [lists [states [seed]]]]   library against reference, call by call
bench time [TABLE..]                           library and reference measured: all tables, or listing, figures, degrees, others, text,
                                               records, checker, sweep, rows, gaps, needs, summary, tables, disorder, fragments, steps,
                                               short, meter
bench steps in-order|window library|reference TIMES
                                               feeds 4,096 arrivals so many times, for counting instructions
bench layout                                   sizes and offsets of the structs that the library is called with
bench report                                   the report of the sample on standard input, by the reference
";

fn main() -> ExitCode {
    let arguments: Vec<String> = std::env::args().skip(1).collect();
    let word = |place: usize| arguments.get(place).map_or("", String::as_str);
    let amount = |place: usize, usual: u64| word(place).parse().unwrap_or(usual);
    let amounts = |samples, lists, states| Amounts {
        samples: amount(1, samples),
        lists: amount(2, lists),
        states: amount(3, states),
    };
    let passed = match word(0) {
        "cases" => cases::run(&amounts(5000, 400, 50_000)),
        "diff" => diff::run(amount(4, 1), &amounts(100_000, 2000, 300_000)),
        "time" => time::run(&arguments[1..]) || usage(),
        "steps" => steps(word(1), word(2), amount(3, 1)),
        "layout" => {
            archive::layout();
            true
        }
        "report" => report(),
        _ => usage(),
    };
    if passed {
        ExitCode::SUCCESS
    } else {
        ExitCode::FAILURE
    }
}

fn usage() -> bool {
    eprint!("{USAGE}");
    false
}

fn steps(kind: &str, meter: &str, times: u64) -> bool {
    let kind = match kind {
        "in-order" => Kind::InOrder,
        "window" => Kind::Window,
        _ => return usage(),
    };
    let list = time::steps(kind, 4096);
    for _ in 0..times {
        match meter {
            "library" => black_box(LIBRARY.feed(&list)),
            "reference" => black_box(Reference.feed(&list)),
            _ => return usage(),
        };
    }
    true
}

/// A read error counts as the end of the input.
fn report() -> bool {
    let mut file = Vec::new();
    let _ = std::io::stdin().lock().read_to_end(&mut file);
    std::io::stdout().lock().write_all(&reference::report(&file)).is_ok()
}
