//! The summary of a sample, as text, as JSON and with all figures, and a label in JSON: the archive's calls, and a plain Rust
//! implementation beside them.

use std::fmt::Write;
use std::hint::black_box;

use crate::archive::{c, given, lent, one_figure};
use crate::compare::Seen;
use crate::generate::{measured, sample_case, Order, Random};
use crate::needs::{least_sizes, MEASURES};
use crate::reference::{
    check, counts, each_answer, n_reordered, number_and_time, Answer, Sample, Swift, Written, LABEL_COUNT, MOST_LABEL,
    OUTPUT_SHORT,
};
use crate::time::{calls, measure, row};
use crate::{disorder, gaps};

/// Octets that suffice for any summary; for one with all figures; for a label in JSON.
const ROOM: usize = 2048;
const ALL_ROOM: usize = 200_704;
const LABEL_ROOM: usize = 139;
const SHARES: [(&str, u32); 5] = [("50 %", 50), ("90 %", 90), ("95 %", 95), ("99 %", 99), ("all", 100)];

// The library's call.

/// What the summary is written as.
#[derive(Clone, Copy)]
enum Form {
    Text,
    Json,
    All,
}

impl Form {
    fn room(self) -> usize {
        match self {
            Form::Text | Form::Json => ROOM,
            Form::All => ALL_ROOM,
        }
    }
}

fn by_library(form: Form, file: &[u8], out: &mut [u8]) -> Written {
    let call = match form {
        Form::Text => c::krakobran_summary_write,
        Form::Json => c::krakobran_summary_json,
        Form::All => c::krakobran_summary_all,
    };
    let ((f, octets), (o, room)) = (given(file), lent(out));
    let (refusal, length) = one_figure(|w| unsafe { call(f, octets, o, room, w) });
    Written { refusal, length }
}

fn label_by_library(label: &[u8], out: &mut [u8]) -> Written {
    let ((l, octets), (o, room)) = (given(label), lent(out));
    let (refusal, length) = one_figure(|w| unsafe { c::krakobran_label_json(l, octets, o, room, w) });
    Written { refusal, length }
}

// The reference.

/// A share in percent with one decimal, half a tenth rounded up.
fn percent(part: u32, whole: u32) -> String {
    let Some(tenths) = (2000 * part + whole).checked_div(2 * whole) else {
        return "-".into();
    };
    format!("{}.{}", tenths / 10, tenths % 10)
}

/// Whether a time is below the one before it.
fn steps_back(sample: &Sample) -> bool {
    let times: Vec<u64> = sample.arrivals.iter().map(|arrival| number_and_time(arrival).1).collect();
    times.windows(2).any(|pair| pair[1] < pair[0])
}

fn text(file: &[u8]) -> Result<String, u32> {
    let sample = check(file)?;
    let count = counts(file);
    let (sent, arrived, copies) = (sample.sizes.len(), count.first_arrivals, count.duplicates);
    let mut text = format!("{sent} packets sent, {arrived} arrived, {copies} copies besides\n\n");
    text += "A receiver that puts the packets back in order needs, for this share of those that arrived:\n\n";
    text += "    share    waiting time    packets held    octets held\n";
    let [packets, octets, times] = MEASURES.map(|measure| least_sizes(&sample, measure, SHARES.map(|share| share.1)));
    for (at, (name, _)) in SHARES.into_iter().enumerate() {
        let (ms, micros) = (times[at] / 1000, times[at] % 1000);
        let _ = writeln!(text, "{name:>9} {ms:8}.{micros:03} ms{:16}{:15}", packets[at], octets[at]);
    }
    text += "\nPackets held is an extent, which can be more than a receiver has to hold. ";
    text += "Packets that never arrived are not counted.\n";
    if (arrived as usize) < sent {
        text += "Packets were lost in this sample; packets and octets held are told for samples without loss, ";
        text += "and a receiver can hold more.\n";
    }
    if steps_back(&sample) {
        text += "The clock steps back in this sample; the waiting times hold only for clocks that do not.\n";
    }
    let [one, three] = [1, 3].map(|n| n_reordered(file, n).reordered);
    for (name, part) in [("\nReordered (late)", count.reordered), ("1-reordered", one), ("3-reordered", three)] {
        let _ = writeln!(text, "{name}: {part} of {arrived}, {} %", percent(part, arrived));
    }
    let _ = writeln!(text, "Total of disorder: {} pairs in the wrong order", disorder::total(file));
    Ok(text)
}

/// The summary, and the figures of the whole sample that it leaves out.
fn all(file: &[u8]) -> Result<String, u32> {
    let mut text = text(file)?;
    let sample = check(file)?;
    let (mut extents, mut degrees) = ([0; 101], [0; 11]);
    each_answer::<Swift>(&sample, |_, _, answer| {
        if let Answer::Reordered { extent, largest_n, .. } = answer {
            extents[if extent <= 100 { extent as usize } else { 0 }] += 1;
            degrees[largest_n.min(10) as usize] += 1;
        }
    });
    text += "\nExtents, and how many packets have each:\n";
    for (extent, packets) in extents.into_iter().enumerate().skip(1).filter(|&(_, packets)| packets > 0) {
        let _ = writeln!(text, "    {extent}: {packets}");
    }
    let _ = writeln!(text, "    over 100: {}", extents[0]);
    text += "\nn, and how many packets are n-reordered:\n";
    for n in 1..=10 {
        let _ = writeln!(text, "    {n}: {}", degrees[n..].iter().sum::<u32>());
    }
    text += "\nRecords that have a gap, and the gap in positions:\n";
    let mut positions = vec![0; sample.arrivals.len()];
    gaps::fill(&sample, &mut positions);
    for (record, gap) in (1..).zip(positions).filter(|&(_, gap)| gap > 0) {
        let _ = writeln!(text, "    {record}: {gap}");
    }
    let count = counts(file);
    let _ = write!(text, "\nRuns in order: {} ended, the sum of their squares {}", count.closed_runs, count.squares);
    let _ = writeln!(text, ", packets in the open one {}", count.open_run);
    Ok(text)
}

/// The start of an object of JSON with a label, in which a quote and a backslash have a backslash before them.
pub fn label_member(label: &[u8]) -> Vec<u8> {
    let mut text = br#"{"label":""#.to_vec();
    for &octet in label {
        if octet == b'"' || octet == b'\\' {
            text.push(b'\\');
        }
        text.push(octet);
    }
    text.push(b'"');
    text
}

/// The same figures as one object of JSON.
fn json(file: &[u8]) -> Result<String, u32> {
    let sample = check(file)?;
    let count = counts(file);
    let (sent, arrived, copies) = (sample.sizes.len(), count.first_arrivals, count.duplicates);
    let label = String::from_utf8_lossy(&label_member(sample.label)).into_owned();
    let [packets, octets, times] = MEASURES.map(|measure| least_sizes(&sample, measure, SHARES.map(|share| share.1)));
    let sizes: Vec<String> = SHARES
        .into_iter()
        .enumerate()
        .map(|(at, (_, share))| {
            format!(
                r#"{{"share_percent":{share},"waiting_time_us":{},"packets_held":{},"octets_held":{}}}"#,
                times[at], packets[at], octets[at]
            )
        })
        .collect();
    let mut text =
        format!(r#"{label},"sent":{sent},"arrived":{arrived},"copies":{copies},"least_sizes":[{}]"#, sizes.join(","));
    let (lost, back) = ((arrived as usize) < sent, steps_back(&sample));
    let _ = write!(text, r#","packets_lost":{lost},"clock_steps_back":{back}"#);
    let [one, three] = [1, 3].map(|n| n_reordered(file, n).reordered);
    for (name, part) in [("reordered", count.reordered), ("reordered_1", one), ("reordered_3", three)] {
        let share = if arrived == 0 { "null".into() } else { percent(part, arrived) };
        let _ = write!(text, r#","{name}":{{"packets":{part},"of":{arrived},"percent":{share}}}"#);
    }
    let _ = writeln!(text, r#","disorder_pairs":{}}}"#, disorder::total(file));
    Ok(text)
}

fn by_reference(form: Form, file: &[u8], out: &mut [u8]) -> Written {
    let text = match form {
        Form::Text => text(file),
        Form::Json => json(file),
        Form::All => all(file),
    };
    written(text.as_ref().map(String::as_bytes).map_err(|&refusal| refusal), out)
}

/// Puts a text at the start of what is lent, if it is not refused and has room.
pub fn written(text: Result<&[u8], u32>, out: &mut [u8]) -> Written {
    match text {
        Err(refusal) => Written { refusal, length: 0 },
        Ok(text) if text.len() > out.len() => Written { refusal: OUTPUT_SHORT, length: 0 },
        Ok(text) => {
            out[..text.len()].copy_from_slice(text);
            Written { refusal: 0, length: text.len() as u32 }
        }
    }
}

fn label_by_reference(label: &[u8], out: &mut [u8]) -> Written {
    let text = label_member(label);
    written(if label.len() > MOST_LABEL { Err(LABEL_COUNT) } else { Ok(&text) }, out)
}

// The comparison.

/// The library against the reference on samples made from a seed, with more and less room than they need.
pub fn compare(seed: u64, samples: u64, seen: &mut Seen) -> Result<(), String> {
    for index in 0..samples {
        let random = &mut Random::new(seed ^ 0x73_756d, index);
        let file = sample_case(seed, index).file;
        for (form, name) in
            [(Form::Text, "summary"), (Form::Json, "summary as JSON"), (Form::All, "summary with all figures")]
        {
            let room = if random.once_in(8) { random.below(1000) } else { form.room() };
            same(name, room, seen, |out| by_library(form, &file, out), |out| by_reference(form, &file, out))
                .map_err(|text| format!("sample {index} of seed {seed}: {text}"))?;
        }
        if random.once_in(2) {
            let whole = all(&file).map_or(0, |text| text.len());
            let room = (whole + random.below(3)).saturating_sub(1);
            same(
                "summary with all figures",
                room,
                seen,
                |out| by_library(Form::All, &file, out),
                |out| by_reference(Form::All, &file, out),
            )
            .map_err(|text| format!("sample {index} of seed {seed}: {text}"))?;
        }
        let octets = random.pick(&[b"\"\\ a~\0\x7F\xFF", b"\"\\\"\\\"\\\"\\", b"kilning!"]);
        let many = if random.once_in(4) { random.pick(&[0, 63, 64, 65, 300]) } else { random.below(66) };
        let label: Vec<u8> = (0..many).map(|_| random.pick(octets)).collect();
        let room = if random.once_in(2) { random.below(LABEL_ROOM + 1) } else { LABEL_ROOM };
        same("label as JSON", room, seen, |out| label_by_library(&label, out), |out| label_by_reference(&label, out))
            .map_err(|text| format!("label {label:?}: {text}"))?;
    }
    Ok(())
}

/// One call by both, each with so much room.
pub fn same(
    name: &'static str,
    room: usize,
    seen: &mut Seen,
    library: impl FnOnce(&mut [u8]) -> Written,
    reference: impl FnOnce(&mut [u8]) -> Written,
) -> Result<(), String> {
    let mut left = vec![0xA7; room];
    let mut right = left.clone();
    let (a, b) = (library(&mut left), reference(&mut right));
    seen.call(name, a.refusal);
    if (a, &left) == (b, &right) {
        return Ok(());
    }
    let [left, right] = [left, right].map(|octets| String::from_utf8_lossy(&octets).into_owned());
    Err(format!("{name} in {room} octets:\n left {a:?}\n{left}\nright {b:?}\n{right}\n"))
}

// The measurement.

/// Nanoseconds of a call.
pub fn time(orders: &[Order], amounts: &[usize]) {
    println!("{:30} {:>5} {:>11} {:>11} {:>6}", "summary", "A", "library", "reference", "ratio");
    for &order in orders {
        for &many in amounts {
            let file = measured(order, many).file();
            let f = &file[..];
            let mut outs = [(); 2].map(|()| vec![0; ALL_ROOM]);
            for (form, name) in [(Form::Text, ""), (Form::All, "with all figures, ")] {
                let [l, r] = outs.each_mut();
                let all = measure([
                    calls(|| by_library(form, black_box(f), &mut l[..form.room()])),
                    calls(|| by_reference(form, black_box(f), &mut r[..form.room()])),
                ]);
                row(&format!("{name}{order:?}"), many, all);
            }
        }
    }
}
