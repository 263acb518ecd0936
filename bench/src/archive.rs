//! The library under test: the archive's functions and structs, declared as include/krakobran.h declares them, and a meter
//! that calls them. Nothing is measured or decided here but the conversion of layouts.

use std::hint::black_box;

use crate::boundary::{Meter, Place};
use crate::receiver::Jumps;
use crate::reference::{
    Answer, Answered, Counts, Degree, DegreeCounts, Figures, Gap, LateTime, Ratios, Read, Receiver, RecordAnswer, Step,
    Tally, Written,
};

const IN_ORDER: u64 = 0;
const REORDERED_AFTER: u64 = 1;
const REORDERED_BEFORE: u64 = 2;
const DUPLICATE: u64 = 3;
const BEYOND_AFTER: u64 = 4;
const BEYOND_BEFORE: u64 = 5;

/// The archive's structs and functions.
pub mod c {
    use crate::reference::Receiver;

    /// What a figure holds before a call that sets it.
    pub const LENT: u64 = 0xA7A7_A7A7_A7A7_A7A7;

    /// Answers: structs of figures that the caller lends.
    macro_rules! figures {
        ($($name:ident: $($field:ident)*;)*) => {$(
            #[repr(C)]
            #[derive(Clone, Copy, PartialEq, Eq, Debug)]
            pub struct $name {
                $(pub $field: u64,)*
            }

            impl $name {
                pub const LENT: $name = $name { $($field: LENT),* };
            }
        )*};
    }
    figures! {
        Layout: label sent arrivals;
        Part: start length;
        Arrival: number time;
        Row: kind position jump extent late offset largest first;
        Counts: arrived reordered duplicates inorder closed squares current;
        Gap: known positions;
        DegreeCounts: reordered arrived;
        Degree: known bits;
        Ratios: known reordered degree1 degree3;
        Worse: link start length;
        Needs: packets octets time;
        Accommodated: accommodated arrived;
        Verdict: agrees line;
        Noted: kind jump extent late;
    }

    /// How many sizes of a buffer are tried at once.
    pub const STEPS: usize = 128;

    #[repr(C)]
    #[derive(Clone, Copy, PartialEq, Eq, Debug)]
    pub struct Steps {
        pub arrived: u64,
        pub greatest: u64,
        pub counts: [u64; STEPS],
    }

    impl Steps {
        pub const LENT: Steps = Steps { arrived: LENT, greatest: LENT, counts: [LENT; STEPS] };
    }

    #[repr(C)]
    #[derive(Clone, Copy, PartialEq, Eq, Debug)]
    pub struct Runs {
        pub closed: u32,
        pub squares: u32,
        pub current: u32,
    }

    #[repr(C)]
    #[derive(Clone, Copy, PartialEq, Eq, Debug)]
    pub struct Stream {
        pub sent: u32,
        pub arrived: u32,
        pub duplicates: u32,
        pub inorder: u32,
        pub next: u32,
        pub kept: u32,
        pub greatest: u64,
        pub runs: Runs,
        pub dropped: u32,
    }

    #[repr(C)]
    #[derive(Clone, Copy, PartialEq, Eq, Debug)]
    pub struct Places {
        pub positions: [u16; Receiver::WINDOW],
        pub numbers: [u16; Receiver::WINDOW],
        pub times: [u64; Receiver::WINDOW],
    }

    #[repr(C)]
    #[derive(Clone, Copy, PartialEq, Eq, Debug)]
    pub struct State {
        pub stream: Stream,
        pub marks: [u64; Receiver::PACKETS / 64],
        pub places: Places,
    }

    #[repr(C)]
    #[derive(Clone, Copy, PartialEq, Eq, Debug)]
    pub struct StreamState {
        pub stream: Stream,
        pub marks: [u64; Receiver::PACKETS / 64],
    }

    #[repr(C)]
    #[derive(Clone, Copy, PartialEq, Eq, Debug)]
    pub struct Meter {
        pub first: StreamState,
        pub second: StreamState,
        pub places: Places,
    }

    #[rustfmt::skip]
    extern "C" {
        pub fn krakobran_sample_check(file: *const u8, octets: u64, layout: *mut Layout) -> u64;
        pub fn krakobran_sample_read(
            file: *const u8, octets: u64, sizes: *mut u16, size_places: u64, numbers: *mut u32, number_places: u64,
            times: *mut u64, time_places: u64, layout: *mut Layout,
        ) -> u64;
        pub fn krakobran_sample_label(file: *const u8, octets: u64, part: *mut Part) -> u64;
        pub fn krakobran_sample_write(
            label: *const u8, label_octets: u64, sizes: *const u16, sent: u64, numbers: *const u32, number_count: u64,
            times: *const u64, time_count: u64, out: *mut u8, room: u64, length: *mut u64,
        ) -> u64;
        pub fn krakobran_lists_check(
            sent: u64, numbers: *const u32, number_count: u64, times: *const u64, time_count: u64,
        ) -> u64;
        pub fn krakobran_log_import(
            log: *const u8, octets: u64, sent: u32, numbers: *mut u32, number_places: u64, times: *mut u64,
            time_places: u64, arrivals: *mut u64,
        ) -> u64;
        pub fn krakobran_log_refused_line(log: *const u8, octets: u64, sent: u32, line: *mut u64);
        pub fn krakobran_log_read_line(line: *const u8, octets: u64, arrival: *mut Arrival) -> u64;
        pub fn krakobran_log_line_fault(line: *const u8, octets: u64) -> u64;
        pub fn krakobran_text_line(text: *const u8, octets: u64, n: u64, part: *mut Part);
        pub fn krakobran_log_import_8(
            log: *const u8, octets: u64, sent: u32, numbers: *mut u32, number_places: u64, times: *mut u64,
            time_places: u64, arrivals: *mut u64,
        ) -> u64;
        pub fn krakobran_log_import_10(
            log: *const u8, octets: u64, sent: u32, numbers: *mut u32, number_places: u64, times: *mut u64,
            time_places: u64, arrivals: *mut u64,
        ) -> u64;
        pub fn krakobran_log_refused_line_8(log: *const u8, octets: u64, sent: u32, line: *mut u64);
        pub fn krakobran_log_refused_line_10(log: *const u8, octets: u64, sent: u32, line: *mut u64);
        pub fn krakobran_log_write(
            sent: u32, numbers: *const u32, number_count: u64, times: *const u64, time_count: u64, out: *mut u8,
            room: u64, length: *mut u64,
        ) -> u64;
        pub fn krakobran_owamp_import(
            records: *const u8, octets: u64, sent: u32, numbers: *mut u32, number_places: u64, times: *mut u64,
            time_places: u64, arrivals: *mut u64,
        ) -> u64;
        pub fn krakobran_owamp_write(file: *const u8, octets: u64, out: *mut u8, room: u64, length: *mut u64) -> u64;
        pub fn krakobran_answer(file: *const u8, octets: u64, record: u32, row: *mut Row) -> u64;
        pub fn krakobran_rows(file: *const u8, octets: u64, rows: *mut Row, numbers: u64) -> u64;
        pub fn krakobran_rows_from(file: *const u8, octets: u64, from: u32, rows: *mut Row, numbers: u64) -> u64;
        pub fn krakobran_counts(file: *const u8, octets: u64, counts: *mut Counts) -> u64;
        pub fn krakobran_tally(file: *const u8, octets: u64, tally: *mut u32) -> u64;
        pub fn krakobran_gap(file: *const u8, octets: u64, record: u32, gap: *mut Gap) -> u64;
        pub fn krakobran_gaps(file: *const u8, octets: u64, gaps: *mut u32, places: u64) -> u64;
        pub fn krakobran_n_reordered(file: *const u8, octets: u64, n: u32, counts: *mut DegreeCounts) -> u64;
        pub fn krakobran_degree(file: *const u8, octets: u64, n: u32, degree: *mut Degree) -> u64;
        pub fn krakobran_ratios(file: *const u8, octets: u64, ratios: *mut Ratios) -> u64;
        pub fn krakobran_disorder(file: *const u8, octets: u64, total: *mut u64) -> u64;
        pub fn krakobran_sweep(
            file: *const u8, octets: u64, table: *mut u16, table_places: u64, kinds: *mut u8, kind_places: u64,
            positions: *mut u32, position_places: u64, extents: *mut u32, extent_places: u64, lates: *mut u64,
            late_places: u64,
        ) -> u64;
        pub fn krakobran_worse(
            first: *const u8, first_octets: u64, second: *const u8, second_octets: u64, worse: *mut Worse,
        ) -> u64;
        pub fn krakobran_greatest_needs(file: *const u8, octets: u64, needs: *mut Needs) -> u64;
        pub fn krakobran_accommodated(
            file: *const u8, octets: u64, measure: u32, size: u64, counts: *mut Accommodated,
        ) -> u64;
        pub fn krakobran_accommodated_steps(
            file: *const u8, octets: u64, measure: u32, low: u64, shift: u32, steps: *mut Steps,
        ) -> u64;
        pub fn krakobran_least_size(
            file: *const u8, octets: u64, measure: u32, part: u32, whole: u32, size: *mut u64,
        ) -> u64;
        pub fn krakobran_report_write(file: *const u8, octets: u64, out: *mut u8, room: u64, length: *mut u64) -> u64;
        pub fn krakobran_report_check(
            file: *const u8, octets: u64, report: *const u8, report_octets: u64, verdict: *mut Verdict,
        ) -> u64;
        pub fn krakobran_summary_write(file: *const u8, octets: u64, out: *mut u8, room: u64, length: *mut u64) -> u64;
        pub fn krakobran_summary_json(file: *const u8, octets: u64, out: *mut u8, room: u64, length: *mut u64) -> u64;
        pub fn krakobran_summary_all(file: *const u8, octets: u64, out: *mut u8, room: u64, length: *mut u64) -> u64;
        pub fn krakobran_label_json(label: *const u8, octets: u64, out: *mut u8, room: u64, length: *mut u64) -> u64;
        pub fn krakobran_table_csv(
            file: *const u8, octets: u64, part: u32, out: *mut u8, room: u64, length: *mut u64,
        ) -> u64;
        pub fn krakobran_table_json(
            file: *const u8, octets: u64, part: u32, out: *mut u8, room: u64, length: *mut u64,
        ) -> u64;
        pub fn krakobran_fragment_order(
            sent: u32, numbers: *const u32, number_count: u64, times: *const u64, time_count: u64, lengths: *const u16,
            length_count: u64, mores: *const u8, more_count: u64, offsets: *const u16, offset_count: u64,
            flags: *mut u8, flag_places: u64, usable: *mut u8, usable_places: u64,
        ) -> u64;
        pub fn krakobran_full_numbers_8(
            sent: u32, shorts: *const u16, short_count: u64, times: *const u64, time_count: u64, numbers: *mut u32,
            number_places: u64,
        ) -> u64;
        pub fn krakobran_full_numbers_10(
            sent: u32, shorts: *const u16, short_count: u64, times: *const u64, time_count: u64, numbers: *mut u32,
            number_places: u64,
        ) -> u64;
        pub fn krakobran_receiver_fresh(receiver: *mut State, sent: u32) -> u64;
        pub fn krakobran_receiver_step(receiver: *mut State, number: u32, time: u64, noted: *mut Noted) -> u64;
        pub fn krakobran_follow_line(
            line: *const u8, octets: u64, refusal: u64, noted: *const Noted, out: *mut u8, room: u64, length: *mut u64,
        ) -> u64;
        pub fn krakobran_follow_counts(
            arrived: u32, inorder: u32, duplicates: u32, closed: u32, current: u32, out: *mut u8, room: u64,
            length: *mut u64,
        ) -> u64;
        pub fn krakobran_receiver_step_8(receiver: *mut State, number: u16, time: u64, noted: *mut Noted) -> u64;
        pub fn krakobran_receiver_step_10(receiver: *mut State, number: u16, time: u64, noted: *mut Noted) -> u64;
        pub fn krakobran_version() -> u64;
        pub fn krakobran_refusal_words(refusal: u64, out: *mut u8, room: u64, length: *mut u64) -> u64;
        pub fn krakobran_meter_new(meter: *mut Meter);
        pub fn krakobran_meter_start(meter: *mut Meter, stream: u32, sent: u32) -> u64;
        pub fn krakobran_meter_step(meter: *mut Meter, stream: u32, number: u32, time: u64, noted: *mut Noted) -> u64;
    }
}

/// The pointer to a list as a caller in C may have it, NULL where there are no places, and the number of its places.
#[inline(always)]
pub fn given<T>(list: &[T]) -> (*const T, u64) {
    (if list.is_empty() { std::ptr::null() } else { list.as_ptr() }, list.len() as u64)
}

/// The same of a list that is written to.
#[inline(always)]
pub fn lent<T>(list: &mut [T]) -> (*mut T, u64) {
    (if list.is_empty() { std::ptr::null_mut() } else { list.as_mut_ptr() }, list.len() as u64)
}

/// A refusal or a figure that has 32 bits in the papers.
#[inline(always)]
pub fn narrow(figure: u64) -> u32 {
    u32::try_from(figure).unwrap_or_else(|_| panic!("{figure:#x} has over 32 bits"))
}

/// What a call that fills one figure returns: the refusal, and the figure.
#[inline(always)]
pub fn one_figure(call: impl FnOnce(*mut u64) -> u64) -> (u32, u32) {
    let mut figure = c::LENT;
    let refusal = call(&mut figure);
    (narrow(refusal), narrow(figure))
}

/// The archive's state of a receiver.
pub fn to_archive(r: &Receiver) -> c::State {
    c::State {
        stream: c::Stream {
            sent: r.sent,
            arrived: r.first_arrivals,
            duplicates: r.duplicates,
            inorder: r.in_order,
            next: r.next_expected,
            kept: r.jumps.kept,
            greatest: r.greatest_time,
            runs: c::Runs { closed: r.closed_runs, squares: r.squares, current: r.open_run },
            dropped: r.jumps.dropped,
        },
        marks: r.marks,
        places: c::Places { positions: r.jumps.positions, numbers: r.jumps.numbers, times: r.jumps.times },
    }
}

/// The receiver of an archive's state.
pub fn from_archive(state: &c::State) -> Receiver {
    let (s, places) = (&state.stream, &state.places);
    Receiver {
        marks: state.marks,
        jumps: Jumps {
            times: places.times,
            positions: places.positions,
            numbers: places.numbers,
            kept: s.kept,
            dropped: s.dropped,
        },
        greatest_time: s.greatest,
        sent: s.sent,
        first_arrivals: s.arrived,
        duplicates: s.duplicates,
        in_order: s.inorder,
        next_expected: s.next,
        open_run: s.runs.current,
        closed_runs: s.runs.closed,
        squares: s.runs.squares,
    }
}

/// The archive's state of a fresh receiver for K = 4,096. For measuring.
pub fn fresh_state() -> c::State {
    let mut state = to_archive(&Receiver::fresh(1).receiver);
    // SAFETY: what is lent is a whole receiver.
    assert_eq!(unsafe { c::krakobran_receiver_fresh(&mut state, Receiver::PACKETS as u32) }, 0);
    state
}

/// A late time by its direction and its amount.
fn late_time(after: bool, amount: u64) -> LateTime {
    if after {
        LateTime::After(amount)
    } else {
        LateTime::Before(amount)
    }
}

/// What is noted, by the number of its case; figures that the case does not have are 0.
pub fn noted(n: c::Noted) -> Step {
    match n {
        c::Noted { kind: DUPLICATE, jump: 0, extent: 0, late: 0 } => Step::Duplicate,
        c::Noted { kind: IN_ORDER, jump, extent: 0, late: 0 } => Step::InOrder { jump: narrow(jump) },
        c::Noted { kind: kind @ (REORDERED_AFTER | REORDERED_BEFORE), jump: 0, extent, late } => {
            Step::Exact { extent: narrow(extent), late_time: late_time(kind == REORDERED_AFTER, late) }
        }
        c::Noted { kind: kind @ (BEYOND_AFTER | BEYOND_BEFORE), jump: 0, extent, late } => {
            Step::Beyond { extent: narrow(extent), late_time: late_time(kind == BEYOND_AFTER, late) }
        }
        c::Noted { kind, jump, extent, late } => panic!("noted {kind} {jump} {extent} {late}"),
    }
}

/// What a step over a lent state answers.
#[inline(always)]
pub fn stepped(call: impl FnOnce(*mut c::Noted) -> u64) -> Answered {
    let mut n = c::Noted::LENT;
    let refusal = call(&mut n);
    Answered { refusal: narrow(refusal), answer: noted(n) }
}

/// The answer for a record, by the number of its case.
pub fn answered(row: &c::Row) -> Answer {
    match *row {
        c::Row { kind: DUPLICATE, position: 0, jump: 0, extent: 0, late: 0, offset: 0, largest: 0, first } => {
            Answer::Duplicate { first_record: narrow(first) }
        }
        c::Row { kind: IN_ORDER, position, jump, extent: 0, late: 0, offset: 0, largest: 0, first: 0 } => {
            Answer::InOrder { position: narrow(position), jump: narrow(jump) }
        }
        c::Row {
            kind: kind @ (REORDERED_AFTER | REORDERED_BEFORE),
            position,
            jump: 0,
            extent,
            late,
            offset,
            largest,
            first: 0,
        } => Answer::Reordered {
            position: narrow(position),
            extent: narrow(extent),
            late_time: late_time(kind == REORDERED_AFTER, late),
            byte_offset: narrow(offset),
            largest_n: narrow(largest),
        },
        row => panic!("{row:?}"),
    }
}

/// What is known, with what stands in its place else checked to be 0.
fn known<T>(flag: u64, zeros: bool, value: T) -> Option<T> {
    match flag {
        0 if zeros => None,
        1 => Some(value),
        _ => panic!("known {flag}, zeros {zeros}"),
    }
}

/// What is found in a file.
fn found(call: impl FnOnce(*mut c::Layout) -> u64) -> Read {
    let mut l = c::Layout::LENT;
    let refusal = call(&mut l);
    Read { refusal: narrow(refusal), label: narrow(l.label), sent: narrow(l.sent), arrivals: narrow(l.arrivals) }
}

/// What was written.
fn written(call: impl FnOnce(*mut u64) -> u64) -> Written {
    let (refusal, length) = one_figure(call);
    Written { refusal, length }
}

/// The archive.
pub struct Archive;

// SAFETY, here and in the other files: each list is passed with the number of its places, and each lent struct is whole.
impl Meter for Archive {
    #[inline(always)]
    fn check(&self, file: &[u8]) -> Read {
        let (f, octets) = given(file);
        found(|l| unsafe { c::krakobran_sample_check(f, octets, l) })
    }
    #[inline(always)]
    fn read(&self, file: &[u8], sizes: &mut [u16], numbers: &mut [u32], times: &mut [u64]) -> Read {
        let ((f, octets), (s, size_places)) = (given(file), lent(sizes));
        let ((n, number_places), (t, time_places)) = (lent(numbers), lent(times));
        found(|l| unsafe { c::krakobran_sample_read(f, octets, s, size_places, n, number_places, t, time_places, l) })
    }
    #[inline(always)]
    fn label(&self, file: &[u8]) -> Place {
        let (f, octets) = given(file);
        let mut part = c::Part::LENT;
        let refusal = unsafe { c::krakobran_sample_label(f, octets, &mut part) };
        Place { refusal: narrow(refusal), start: part.start as usize, length: part.length as usize }
    }
    #[inline(always)]
    fn write(&self, label: &[u8], sizes: &[u16], numbers: &[u32], times: &[u64], out: &mut [u8]) -> Written {
        let ((l, octets), (s, sent), (n, number_count)) = (given(label), given(sizes), given(numbers));
        let ((t, time_count), (o, room)) = (given(times), lent(out));
        written(|w| unsafe {
            c::krakobran_sample_write(l, octets, s, sent, n, number_count, t, time_count, o, room, w)
        })
    }
    fn refusal_of_lists(&self, sent: u64, numbers: &[u32], times: &[u64]) -> u32 {
        let ((n, number_count), (t, time_count)) = (given(numbers), given(times));
        narrow(unsafe { c::krakobran_lists_check(sent, n, number_count, t, time_count) })
    }
    #[inline(always)]
    fn answer(&self, file: &[u8], record: u32) -> RecordAnswer {
        let (f, octets) = given(file);
        let mut row = c::Row::LENT;
        let refusal = unsafe { c::krakobran_answer(f, octets, record, &mut row) };
        RecordAnswer { refusal: narrow(refusal), answer: answered(&row) }
    }
    #[inline(always)]
    fn counts(&self, file: &[u8]) -> Counts {
        let (f, octets) = given(file);
        let mut r = c::Counts::LENT;
        let refusal = unsafe { c::krakobran_counts(f, octets, &mut r) };
        assert_eq!(r.arrived, r.inorder + r.reordered);
        Counts {
            refusal: narrow(refusal),
            first_arrivals: narrow(r.arrived),
            reordered: narrow(r.reordered),
            duplicates: narrow(r.duplicates),
            closed_runs: narrow(r.closed),
            squares: narrow(r.squares),
            open_run: narrow(r.current),
        }
    }
    #[inline(always)]
    fn tally(&self, file: &[u8]) -> Tally {
        let (f, octets) = given(file);
        let mut places = [c::LENT as u32; 101];
        let refusal = unsafe { c::krakobran_tally(f, octets, places.as_mut_ptr()) };
        Tally { refusal: narrow(refusal), places }
    }
    #[inline(always)]
    fn gap(&self, file: &[u8], record: u32) -> Gap {
        let (f, octets) = given(file);
        let mut g = c::Gap::LENT;
        let refusal = unsafe { c::krakobran_gap(f, octets, record, &mut g) };
        Gap { refusal: narrow(refusal), gap: known(g.known, g.positions == 0, narrow(g.positions)) }
    }
    #[inline(always)]
    fn n_reordered(&self, file: &[u8], n: u32) -> DegreeCounts {
        let (f, octets) = given(file);
        let mut d = c::DegreeCounts::LENT;
        let refusal = unsafe { c::krakobran_n_reordered(f, octets, n, &mut d) };
        DegreeCounts { refusal: narrow(refusal), reordered: narrow(d.reordered), first_arrivals: narrow(d.arrived) }
    }
    #[inline(always)]
    fn degree(&self, file: &[u8], n: u32) -> Degree {
        let (f, octets) = given(file);
        let mut d = c::Degree::LENT;
        let refusal = unsafe { c::krakobran_degree(f, octets, n, &mut d) };
        Degree { refusal: narrow(refusal), ratio: known(d.known, d.bits == 0, f64::from_bits(d.bits)) }
    }
    #[inline(always)]
    fn ratios(&self, file: &[u8]) -> Ratios {
        let (f, octets) = given(file);
        let mut r = c::Ratios::LENT;
        let refusal = unsafe { c::krakobran_ratios(f, octets, &mut r) };
        let bits = [r.reordered, r.degree1, r.degree3];
        let [reordered, degree_1, degree_3] = bits.map(f64::from_bits);
        Ratios {
            refusal: narrow(refusal),
            figures: known(r.known, bits == [0; 3], Figures { reordered, degree_1, degree_3 }),
        }
    }
    #[inline(always)]
    fn listing(&self, file: &[u8], out: &mut [u8]) -> Written {
        let ((f, octets), (o, room)) = (given(file), lent(out));
        written(|w| unsafe { c::krakobran_report_write(f, octets, o, room, w) })
    }
    #[inline(always)]
    fn fresh(&self, receiver: &mut Receiver, sent: u32) -> u32 {
        let mut state = to_archive(receiver);
        let refusal = unsafe { c::krakobran_receiver_fresh(&mut state, sent) };
        *receiver = from_archive(&state);
        narrow(refusal)
    }
    #[inline(always)]
    fn step(&self, receiver: &mut Receiver, number: u32, time: u64) -> Answered {
        let mut state = to_archive(receiver);
        let answered = stepped(|n| unsafe { c::krakobran_receiver_step(&mut state, number, time, n) });
        *receiver = from_archive(&state);
        answered
    }

    fn feed(&self, list: &[(u32, u64)]) -> u32 {
        let mut state = fresh_state();
        let mut noted = c::Noted::LENT;
        for &(number, time) in list {
            let refusal = unsafe { c::krakobran_receiver_step(&mut state, number, time, &mut noted) };
            black_box((refusal, &noted));
        }
        state.stream.arrived
    }
}

/// The size of each struct, and offset and size of each field, as examples/layout.c prints them.
pub fn layout() {
    use std::mem::{offset_of, size_of};
    fn size_at<S, F>(_: fn(&S) -> &F) -> usize {
        size_of::<F>()
    }
    macro_rules! table {
        ($($name:literal $type:ty: $($field:ident)*;)*) => {$(
            println!("{} {}", $name, size_of::<$type>());
            $(println!(
                "{}.{} {} {}", $name, stringify!($field), offset_of!($type, $field), size_at(|s: &$type| &s.$field)
            );)*
        )*};
    }
    table! {
        "layout" c::Layout: label sent arrivals;
        "part" c::Part: start length;
        "arrival" c::Arrival: number time;
        "row" c::Row: kind position jump extent late offset largest first;
        "counts_figures" c::Counts: arrived reordered duplicates inorder closed squares current;
        "gap_figures" c::Gap: known positions;
        "degree_counts" c::DegreeCounts: reordered arrived;
        "degree_figures" c::Degree: known bits;
        "ratios_figures" c::Ratios: known reordered degree1 degree3;
        "worse_link" c::Worse: link start length;
        "needs" c::Needs: packets octets time;
        "accommodated_counts" c::Accommodated: accommodated arrived;
        "steps" c::Steps: arrived greatest counts;
        "verdict" c::Verdict: agrees line;
        "noted" c::Noted: kind jump extent late;
        "runs" c::Runs: closed squares current;
        "stream" c::Stream: sent arrived duplicates inorder next kept greatest runs dropped;
        "places" c::Places: positions numbers times;
        "receiver" c::State: stream marks places;
        "stream_state" c::StreamState: stream marks;
        "meter" c::Meter: first second places;
    }
}
