//! The differential test: two meters on many generated inputs, up to the first difference.

use crate::boundary::{Meter, Reference, LIBRARY, LIBRARY_NAME};
use crate::compare::{self, Buffers, Seen};
use crate::generate::{arrival_list, sample_case, state_case};
use crate::{
    checker, disorder, follow, fragments, gaps, meter, needs, records, rows, shortlog, shortnumbers, summary, sweep,
    tables, text, words, worse,
};

/// How many generated inputs a run takes.
pub struct Amounts {
    pub samples: u64,
    pub lists: u64,
    pub states: u64,
}

/// Compares all; the text of the first difference names the input, which the seed and its index make again.
pub fn all(left: &dyn Meter, right: &dyn Meter, seed: u64, amounts: &Amounts, seen: &mut Seen) -> Result<(), String> {
    let mut buffers = Buffers::default();
    for index in 0..amounts.samples {
        compare::sample(left, right, &sample_case(seed, index), &mut buffers, seen)
            .map_err(|text| format!("sample {index} of seed {seed}: {text}"))?;
    }
    for index in 0..amounts.lists {
        compare::arrivals(left, right, &arrival_list(seed, index), seen)
            .map_err(|text| format!("arrival list {index} of seed {seed}: {text}"))?;
    }
    for index in 0..amounts.states {
        compare::state(left, right, &state_case(seed, index), seen)
            .map_err(|text| format!("state {index} of seed {seed}: {text}"))?;
    }
    for (sent, index) in (0..=4098).chain([65_536, 65_537, u32::MAX]).zip(0..) {
        compare::fresh(left, right, &state_case(seed, index).receiver, sent, seen)?;
    }
    Ok(())
}

/// The library against the reference; true if they never differ.
pub fn run(seed: u64, amounts: &Amounts) -> bool {
    println!("library: {LIBRARY_NAME}");
    let mut seen = Seen::default();
    let found = all(&LIBRARY, &Reference, seed, amounts, &mut seen)
        .and_then(|()| text::compare(seed, amounts.samples, &mut seen))
        .and_then(|()| shortlog::compare(seed, amounts.samples, &mut seen))
        .and_then(|()| records::compare(seed, amounts.samples, &mut seen))
        .and_then(|()| sweep::compare(seed, amounts.samples, &mut seen))
        .and_then(|()| rows::compare(seed, amounts.samples, &mut seen))
        .and_then(|()| gaps::compare(seed, amounts.samples, &mut seen))
        .and_then(|()| needs::compare(seed, amounts.samples, &mut seen))
        .and_then(|()| summary::compare(seed, amounts.samples, &mut seen))
        .and_then(|()| tables::compare(seed, amounts.samples, &mut seen))
        .and_then(|()| words::compare(&mut seen))
        .and_then(|()| worse::compare(seed, amounts.samples, &mut seen))
        .and_then(|()| checker::compare(seed, amounts.samples, &mut seen))
        .and_then(|()| disorder::compare(seed, amounts.samples, &mut seen))
        .and_then(|()| shortnumbers::compare(seed, amounts.samples, amounts.lists, amounts.states, &mut seen))
        .and_then(|()| fragments::compare(seed, amounts.samples, &mut seen))
        .and_then(|()| follow::compare(seed, amounts.lists, amounts.states, &mut seen))
        .and_then(|()| meter::compare(seed, amounts.lists, amounts.states, &mut seen));
    print!("{}", seen.table());
    println!(
        "{} samples and as many text logs and OWAMP records, {} receiver arrivals, {} calls compared",
        amounts.samples, seen.arrivals, seen.calls
    );
    match found {
        Ok(()) => println!("0 differences"),
        Err(ref text) => println!("difference (left library, right reference): {text}"),
    }
    found.is_ok()
}
