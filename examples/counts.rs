//! From Rust: `counts FILE` prints the counts of a sample file. The declarations below are those of include/krakobran.h, of the
//! calls that are needed here; `rustc -L target -l static=krakobran examples/counts.rs` compiles it.

use std::process::ExitCode;

/// krakobran_counts_figures.
#[repr(C)]
#[derive(Default)]
struct Counts {
    arrived: u64,
    reordered: u64,
    duplicates: u64,
    inorder: u64,
    closed: u64,
    squares: u64,
    current: u64,
}

extern "C" {
    fn krakobran_counts(file: *const u8, octets: u64, counts: *mut Counts) -> u64;
}

/// The counts of a sample file, or its refusal.
fn counts(file: &[u8]) -> Result<Counts, u64> {
    let mut counts = Counts::default();
    // The pointers are those of references, so aligned and not NULL, and the two do not overlap.
    match unsafe { krakobran_counts(file.as_ptr(), file.len() as u64, &mut counts) } {
        0 => Ok(counts),
        refusal => Err(refusal),
    }
}

fn main() -> ExitCode {
    let path = std::env::args().nth(1).expect("a file");
    let file = std::fs::read(path).expect("a file that can be read");
    match counts(&file) {
        Ok(c) => {
            println!("L {}, reordered {}, duplicates {}, in order {}", c.arrived, c.reordered, c.duplicates, c.inorder);
            println!("closed runs {}, sum of squares {}, open run {}", c.closed, c.squares, c.current);
            ExitCode::SUCCESS
        }
        Err(refusal) => {
            eprintln!("refused {refusal}");
            ExitCode::FAILURE
        }
    }
}
