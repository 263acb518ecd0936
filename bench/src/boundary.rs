//! The boundary: every public call, once. What is compared and measured is called through it, so that a linked
//! library takes its place here and nowhere else.

use std::hint::black_box;

use crate::archive::Archive;
use crate::reference::{
    self, Answered, Counts, Degree, DegreeCounts, Gap, Ratios, Read, Receiver, RecordAnswer, Tally, Written,
};

/// The refusal of a file, and where the label stands in it.
#[derive(Clone, Copy, PartialEq, Eq, Debug)]
pub struct Place {
    pub refusal: u32,
    pub start: usize,
    pub length: usize,
}

pub trait Meter {
    fn check(&self, file: &[u8]) -> Read;
    fn read(&self, file: &[u8], sizes: &mut [u16], numbers: &mut [u32], times: &mut [u64]) -> Read;
    fn label(&self, file: &[u8]) -> Place;
    fn write(&self, label: &[u8], sizes: &[u16], numbers: &[u32], times: &[u64], out: &mut [u8]) -> Written;
    /// The refusal of K and lists: the writer's, of no label and with room for any file.
    fn refusal_of_lists(&self, sent: u64, numbers: &[u32], times: &[u64]) -> u32 {
        let sizes = vec![0; sent as usize];
        self.write(&[], &sizes, numbers, times, &mut vec![0; reference::LONGEST_FILE]).refusal
    }
    fn answer(&self, file: &[u8], record: u32) -> RecordAnswer;
    fn counts(&self, file: &[u8]) -> Counts;
    fn tally(&self, file: &[u8]) -> Tally;
    fn gap(&self, file: &[u8], record: u32) -> Gap;
    fn n_reordered(&self, file: &[u8], n: u32) -> DegreeCounts;
    fn degree(&self, file: &[u8], n: u32) -> Degree;
    fn ratios(&self, file: &[u8]) -> Ratios;
    fn listing(&self, file: &[u8], out: &mut [u8]) -> Written;
    /// Starts the lent receiver for K packets; refused, it is left as it was.
    fn fresh(&self, receiver: &mut Receiver, sent: u32) -> u32;
    /// Leaves the new state in the lent receiver.
    fn step(&self, receiver: &mut Receiver, number: u32, time: u64) -> Answered;

    /// Feeds a list to a fresh receiver for K = 4,096 and returns its L. For measuring: a library whose receiver has another
    /// layout than `Receiver` feeds its own here, so that no conversion is measured.
    fn feed(&self, list: &[(u32, u64)]) -> u32 {
        let mut receiver = Receiver::fresh(Receiver::PACKETS as u32).receiver;
        for &(number, time) in list {
            black_box(self.step(&mut receiver, number, time));
        }
        receiver.first_arrivals
    }
}

/// The library under test.
pub type Library = Archive;
pub const LIBRARY: Library = Archive;
pub const LIBRARY_NAME: &str = "libkrakobran.a";

/// The place of a part of a file, told by its address.
pub fn place_of(refusal: u32, part: &[u8], file: &[u8]) -> Place {
    Place { refusal, start: part.as_ptr() as usize - file.as_ptr() as usize, length: part.len() }
}

/// The implementation in `reference`.
pub struct Reference;

impl Meter for Reference {
    #[inline(always)]
    fn check(&self, file: &[u8]) -> Read {
        reference::found(file)
    }
    #[inline(always)]
    fn read(&self, file: &[u8], sizes: &mut [u16], numbers: &mut [u32], times: &mut [u64]) -> Read {
        reference::read(file, sizes, numbers, times)
    }
    #[inline(always)]
    fn label(&self, file: &[u8]) -> Place {
        let label = reference::label(file);
        place_of(label.err().unwrap_or(0), label.unwrap_or(&file[..0]), file)
    }
    #[inline(always)]
    fn write(&self, label: &[u8], sizes: &[u16], numbers: &[u32], times: &[u64], out: &mut [u8]) -> Written {
        reference::write(label, sizes, numbers, times, out)
    }
    #[inline(always)]
    fn answer(&self, file: &[u8], record: u32) -> RecordAnswer {
        reference::answer(file, record)
    }
    #[inline(always)]
    fn counts(&self, file: &[u8]) -> Counts {
        reference::counts(file)
    }
    #[inline(always)]
    fn tally(&self, file: &[u8]) -> Tally {
        reference::tally(file)
    }
    #[inline(always)]
    fn gap(&self, file: &[u8], record: u32) -> Gap {
        reference::gap(file, record)
    }
    #[inline(always)]
    fn n_reordered(&self, file: &[u8], n: u32) -> DegreeCounts {
        reference::n_reordered(file, n)
    }
    #[inline(always)]
    fn degree(&self, file: &[u8], n: u32) -> Degree {
        reference::degree(file, n)
    }
    #[inline(always)]
    fn ratios(&self, file: &[u8]) -> Ratios {
        reference::ratios(file)
    }
    #[inline(always)]
    fn listing(&self, file: &[u8], out: &mut [u8]) -> Written {
        reference::listing(file, out)
    }
    #[inline(always)]
    fn fresh(&self, receiver: &mut Receiver, sent: u32) -> u32 {
        receiver.restart(sent)
    }
    #[inline(always)]
    fn step(&self, receiver: &mut Receiver, number: u32, time: u64) -> Answered {
        receiver.step_mut(number, time)
    }
}

/// The reference's other engine `E`, with figures as folds over whole answers.
pub struct ByAnswers<E>(pub std::marker::PhantomData<E>);

impl<E: reference::Engine> Meter for ByAnswers<E> {
    fn check(&self, file: &[u8]) -> Read {
        reference::found(file)
    }
    fn read(&self, file: &[u8], sizes: &mut [u16], numbers: &mut [u32], times: &mut [u64]) -> Read {
        reference::read(file, sizes, numbers, times)
    }
    fn label(&self, file: &[u8]) -> Place {
        Reference.label(file)
    }
    fn write(&self, label: &[u8], sizes: &[u16], numbers: &[u32], times: &[u64], out: &mut [u8]) -> Written {
        reference::write(label, sizes, numbers, times, out)
    }
    fn answer(&self, file: &[u8], record: u32) -> RecordAnswer {
        reference::answer(file, record)
    }
    fn counts(&self, file: &[u8]) -> Counts {
        reference::counts(file)
    }
    fn tally(&self, file: &[u8]) -> Tally {
        reference::tally_of_answers::<E>(file)
    }
    fn gap(&self, file: &[u8], record: u32) -> Gap {
        reference::gap(file, record)
    }
    fn n_reordered(&self, file: &[u8], n: u32) -> DegreeCounts {
        reference::n_reordered_of_answers::<E>(file, n)
    }
    fn degree(&self, file: &[u8], n: u32) -> Degree {
        reference::degree_of_answers::<E>(file, n)
    }
    fn ratios(&self, file: &[u8]) -> Ratios {
        reference::ratios_of_answers::<E>(file)
    }
    fn listing(&self, file: &[u8], out: &mut [u8]) -> Written {
        reference::listing_by::<E>(file, out)
    }
    fn fresh(&self, receiver: &mut Receiver, sent: u32) -> u32 {
        receiver.restart(sent)
    }
    fn step(&self, receiver: &mut Receiver, number: u32, time: u64) -> Answered {
        receiver.step_mut(number, time)
    }
}
