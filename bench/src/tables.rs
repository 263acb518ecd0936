//! Every record with named fields, as CSV and as JSON: the archive's calls, a part each, and a plain Rust implementation beside
//! them, which makes the whole table in one pass.

use std::hint::black_box;

use crate::archive::{c, given, lent, one_figure};
use crate::compare::Seen;
use crate::generate::{measured, sample_case, Order, Random};
use crate::reference::{check, counts, each_answer, number_and_time, Answer, LateTime, Sample, Swift, Text, Written};
use crate::summary::{label_member, same, written};
use crate::time::{calls, measure, row};

/// Parts of a table: its start, 16 blocks of records and its end.
const PARTS: usize = 18;
const BLOCK: usize = 256;
/// Octets that suffice for any part.
const ROOM: usize = 131_072;

const RECORD: [&str; 11] = [
    "record",
    "number",
    "time_us",
    "kind",
    "position",
    "jump_size",
    "extent",
    "late_us",
    "byte_offset",
    "largest_n",
    "first_copy",
];
const COUNTS: [&str; 8] =
    ["sent", "arrivals", "arrived", "reordered", "copies", "closed_runs", "sum_of_squares", "open_run"];

/// What the table is written as.
#[derive(Clone, Copy)]
enum Form {
    Csv,
    Json,
}

// The library's calls.

fn by_library(form: Form, file: &[u8], part: u32, out: &mut [u8]) -> Written {
    let call = match form {
        Form::Csv => c::krakobran_table_csv,
        Form::Json => c::krakobran_table_json,
    };
    let ((f, octets), (o, room)) = (given(file), lent(out));
    let (refusal, length) = one_figure(|w| unsafe { call(f, octets, part, o, room, w) });
    Written { refusal, length }
}

/// All parts, one after the other; how many octets they have.
fn whole_by_library(form: Form, file: &[u8], out: &mut [u8]) -> usize {
    (0..PARTS as u32).fold(0, |at, part| at + by_library(form, file, part, &mut out[at..at + ROOM]).length as usize)
}

// The reference.

/// The value of a field; a record does not have every one.
#[derive(Clone, Copy)]
enum Value {
    None,
    Word(&'static str),
    Number(u64),
    Late(LateTime),
}

/// The values of a record.
#[inline(always)]
fn values(record: u32, number: u32, time: u64, answer: Answer) -> [Value; RECORD.len()] {
    let [mut position, mut jump, mut extent, mut late] = [Value::None; 4];
    let [mut offset, mut largest, mut first] = [Value::None; 3];
    let number_of = |n: u32| Value::Number(u64::from(n));
    let kind = match answer {
        Answer::Duplicate { first_record } => {
            first = number_of(first_record);
            "copy"
        }
        Answer::InOrder { position: at, jump: size } => {
            (position, jump) = (number_of(at), number_of(size));
            "in_order"
        }
        Answer::Reordered { position: at, extent: e, late_time, byte_offset, largest_n } => {
            (position, extent, late) = (number_of(at), number_of(e), Value::Late(late_time));
            (offset, largest) = (number_of(byte_offset), number_of(largest_n));
            "reordered"
        }
    };
    let (record, number) = (number_of(record), number_of(number));
    let kind = Value::Word(kind);
    [record, number, Value::Number(time), kind, position, jump, extent, late, offset, largest, first]
}

/// A number and the octet after it, with a minus for a late time before its discontinuity.
#[inline(always)]
fn put_late(text: &mut Text, late: LateTime, after: u8) {
    let amount = match late {
        LateTime::After(amount) => amount,
        LateTime::Before(amount) => {
            text.word(b"-");
            amount
        }
    };
    text.number(amount, after);
}

/// A value of CSV and the octet after it.
#[inline(always)]
fn put_value(text: &mut Text, value: Value, after: u8) {
    match value {
        Value::None => text.word(&[after]),
        Value::Word(word) => {
            text.word(word.as_bytes());
            text.word(&[after]);
        }
        Value::Number(number) => text.number(number, after),
        Value::Late(late) => put_late(text, late, after),
    }
}

/// The fields of a line of CSV that a record has, each with a comma after it.
#[inline(always)]
fn put_fields(text: &mut Text, record: [Value; RECORD.len()]) {
    for value in record {
        put_value(text, value, b',');
    }
}

/// The names of fields as JSON has them before a value.
fn keys<const N: usize>(names: [&str; N]) -> [String; N] {
    names.map(|name| format!("\"{name}\":"))
}

/// An object of JSON, with the fields that have a value.
#[inline(always)]
fn put_object(text: &mut Text, keys: &[String], values: &[Value]) {
    text.word(b"{");
    for (key, &value) in keys.iter().zip(values) {
        if let Value::None = value {
            continue;
        }
        text.word(key.as_bytes());
        match value {
            Value::Word(word) => {
                text.word(b"\"");
                text.word(word.as_bytes());
                text.word(b"\",");
            }
            value => put_value(text, value, b','),
        }
    }
    text.length -= 1;
    text.word(b"}");
}

/// Writes the table of a sample where there is room for any; the offset of each part, and of the end.
fn table(form: Form, file: &[u8], sample: &Sample, out: &mut [u8]) -> [usize; PARTS + 1] {
    let text = &mut Text { out, length: 0 };
    match form {
        Form::Csv => {
            text.word([&RECORD[..], &COUNTS].concat().join(",").as_bytes());
            text.word(b"\n");
        }
        Form::Json => {
            text.word(&label_member(sample.label));
            text.word(b",\"records\":[\n");
        }
    }
    let record_keys = keys(RECORD);
    let mut starts = [0; PARTS + 1];
    starts[1] = text.length;
    each_answer::<Swift>(sample, |record, number, answer| {
        let index = record as usize - 1;
        if index % BLOCK == 0 {
            starts[1 + index / BLOCK] = text.length;
        }
        let time = number_and_time(&sample.arrivals[index]).1;
        let values = values(record, number, time, answer);
        match form {
            Form::Csv => {
                put_fields(text, values);
                text.word(b",,,,,,,\n");
            }
            Form::Json => {
                if record > 1 {
                    text.word(b",\n");
                }
                put_object(text, &record_keys, &values);
            }
        }
    });
    starts[1 + sample.arrivals.len().div_ceil(BLOCK)..].fill(text.length);
    let count = counts(file);
    let (sent, arrivals) = (sample.sizes.len() as u32, sample.arrivals.len() as u32);
    let (arrived, reordered, copies) = (count.first_arrivals, count.reordered, count.duplicates);
    let counts = [sent, arrivals, arrived, reordered, copies, count.closed_runs, count.squares, count.open_run]
        .map(|n| Value::Number(u64::from(n)));
    match form {
        Form::Csv => {
            let mut record = [Value::None; RECORD.len()];
            record[3] = Value::Word("counts");
            put_fields(text, record);
            for value in counts {
                put_value(text, value, b',');
            }
            text.length -= 1;
            text.word(b"\n");
        }
        Form::Json => {
            text.word(b"\n],\"counts\":");
            put_object(text, &keys(COUNTS), &counts);
            text.word(b"}\n");
        }
    }
    starts[PARTS] = text.length;
    starts
}

// The comparison.

/// The library against the reference on samples made from a seed: of every eighth all parts, of the others some, with more and less
/// room than they need.
pub fn compare(seed: u64, samples: u64, seen: &mut Seen) -> Result<(), String> {
    let mut whole = vec![0; PARTS * ROOM];
    for index in 0..samples {
        let random = &mut Random::new(seed ^ 0x74_6162, index);
        let file = sample_case(seed, index).file;
        for (form, name) in [(Form::Csv, "table as CSV"), (Form::Json, "table as JSON")] {
            let starts = check(&file).map(|sample| table(form, &file, &sample, &mut whole));
            let parts: Vec<u32> = if index % 8 == 0 {
                (0..=PARTS as u32).collect()
            } else {
                vec![random.below(PARTS) as u32, random.pick(&[0, 1, 2, 17, 18, 19, 256, u32::MAX])]
            };
            for part in parts {
                let text = starts.map(|starts| match starts.get(part as usize..part as usize + 2) {
                    Some(&[start, end]) => &whole[start..end],
                    _ => &[],
                });
                let needed = text.map_or(0, <[u8]>::len);
                let room = match random.below(8) {
                    0 => random.below(needed + 1),
                    1 => (needed + random.below(3)).saturating_sub(1),
                    2 => ROOM,
                    _ => needed + random.below(100),
                };
                same(name, room, seen, |out| by_library(form, &file, part, out), |out| written(text, out))
                    .map_err(|text| format!("part {part} of sample {index} of seed {seed}: {text}"))?;
            }
        }
    }
    Ok(())
}

// The measurement.

/// Nanoseconds of all parts, and of the whole table by the reference.
pub fn time(orders: &[Order], amounts: &[usize]) {
    println!("{:30} {:>5} {:>11} {:>11} {:>6}", "table, all parts", "A", "library", "reference", "ratio");
    for &order in orders {
        for &many in amounts {
            let file = measured(order, many).file();
            let f = &file[..];
            let mut outs = [(); 2].map(|()| vec![0; PARTS * ROOM]);
            for (form, name) in [(Form::Csv, "CSV"), (Form::Json, "JSON")] {
                let [l, r] = outs.each_mut();
                let all = measure([
                    calls(|| whole_by_library(form, black_box(f), l)),
                    calls(|| check(black_box(f)).map(|sample| table(form, f, &sample, r)[PARTS])),
                ]);
                row(&format!("{name} {order:?}"), many, all);
            }
        }
    }
}
