#!/usr/bin/env python3
"""Tries bindings/python/krakobran.py against the shared object of this checkout, every call of it: the cases P1 to P11 of
crates/rfc4737/specs/Cases.antt with the figures that stand there, the report's example and the summary's, the tables of the other crates'
Cases.antt, what the command prints, and a refusal of each number. It holds the binding to the header too: the same calls, numbers and
words. A line for each case; status 1 if one fails."""

import json
import os
import pathlib
import re
import subprocess
import sys

ROOT = pathlib.Path(__file__).resolve().parent.parent
os.environ["KRAKOBRAN_LIBRARY"] = os.environ.get("LIBRARY") or str(ROOT / "target/libkrakobran.so")
sys.path.insert(0, str(ROOT / "bindings/python"))
sys.dont_write_bytecode = True

import krakobran  # noqa: E402
from krakobran import Fault, Kind, Measure, Noted, Refused, Row, Sample  # noqa: E402

run = failed = 0


def same(name, found, expected):
    """Says whether what is found is what is expected."""
    global run, failed
    run += 1
    if found == expected:
        print(f"passed {name}")
    else:
        failed += 1
        print(f"FAILED {name}: {found!r}, and not {expected!r}"[:400])


def refused(name, number, call, line=None):
    """Says whether a call is refused by this number, with this line."""
    try:
        found = call()
    except Refused as refusal:
        found = refusal.number, refusal.line
    same(name, found, (number, line))


# ---- the cases P1 to P11


def jump(position, size):
    """A row in order."""
    return Row(Kind.IN_ORDER, position, size, 0, 0, 0, 0, 0)


def late(position, extent, time, offset, largest):
    """A reordered row, its late time negative if it is stamped before its discontinuity."""
    kind = Kind.REORDERED_AFTER if time >= 0 else Kind.REORDERED_BEFORE
    return Row(kind, position, 0, extent, abs(time), offset, largest, 0)


def copy(first):
    """A duplicate's row."""
    return Row(Kind.DUPLICATE, 0, 0, 0, 0, 0, 0, first)


# Sent packets, numbers, times (None for 10 times the record), rows, gaps by record, tally by extent, counts, ratios as counts, disorder
CASES = {
    "P1": (5, [1, 2, 4, 5, 3], [10, 20, 40, 50, 70],
           [jump(1, 0), jump(2, 0), jump(3, 1), jump(4, 0), late(5, 2, 30, 200, 2)],
           {}, {2: 1}, (5, 1, 0, 4, 1, 16, 0), (1, 1, 0), 2),
    "P2": (11, [1, 2, 3, 7, 8, 9, 10, 4, 5, 6, 11], [68, 88, 108, 188, 208, 228, 248, 250, 252, 256, 268],
           [jump(1, 0), jump(2, 0), jump(3, 0), jump(4, 3), jump(5, 0), jump(6, 0), jump(7, 0), late(8, 4, 62, 400, 4),
            late(9, 5, 64, 400, 0), late(10, 6, 68, 400, 0), jump(11, 0)],
           {}, {4: 1, 5: 1, 6: 1}, (11, 3, 0, 8, 3, 49, 1), (3, 1, 1), 12),
    "P3": (16, [1, 2, 3, 6, 7, 4, 5, 8, 9, 10, 12, 13, 11, 14, 15, 16], None,
           [jump(1, 0), jump(2, 0), jump(3, 0), jump(4, 2), jump(5, 0), late(6, 2, 20, 200, 2), late(7, 3, 30, 200, 0), jump(8, 0),
            jump(9, 0), jump(10, 0), jump(11, 1), jump(12, 0), late(13, 2, 20, 200, 2), jump(14, 0), jump(15, 0), jump(16, 0)],
           {11: 7}, {2: 2, 3: 1}, (16, 3, 0, 13, 3, 50, 3), (3, 2, 0), 6),
    "P4": (9, [1, 2, 3, 7, 8, 9, 4, 5, 6], None,
           [jump(1, 0), jump(2, 0), jump(3, 0), jump(4, 3), jump(5, 0), jump(6, 0), late(7, 3, 30, 300, 3), late(8, 4, 40, 300, 0),
            late(9, 5, 50, 300, 0)],
           {}, {3: 1, 4: 1, 5: 1}, (9, 3, 0, 6, 3, 36, 0), (3, 1, 1), 9),
    "P5": (10, [1, 10, 5], None, [jump(1, 0), jump(2, 8), late(3, 1, 10, 100, 1)],
           {}, {1: 1}, (3, 1, 0, 2, 1, 4, 0), (1, 1, 0), 1),
    "P6": (3, [1, 2, 2, 3], None, [jump(1, 0), jump(2, 0), copy(2), jump(3, 0)], {}, {}, (3, 0, 1, 3, 0, 0, 3), (0, 0, 0), 0),
    "P7": (6, [1, 3, 6, 5, 2], None, [jump(1, 0), jump(2, 1), jump(3, 2), late(4, 1, 10, 100, 1), late(5, 3, 30, 300, 3)],
           {}, {1: 1, 3: 1}, (5, 2, 0, 3, 2, 9, 0), (2, 2, 1), 4),
    "P8": (1, [], None, [], {}, {}, (0, 0, 0, 0, 0, 0, 0), None, 0),
    "P9": (3, [3], None, [jump(1, 2)], {}, {}, (1, 0, 0, 1, 0, 0, 1), (0, 0, 0), 0),
    "P10": (6, [2, 1, 4, 6, 5, 3], None,
            [jump(1, 1), late(2, 1, 10, 100, 1), jump(3, 1), jump(4, 1), late(5, 1, 10, 100, 1), late(6, 3, 30, 300, 3)],
            {3: 2}, {1: 2, 3: 1}, (6, 3, 0, 3, 3, 5, 0), (3, 3, 1), 5),
    "P11": (6, [2, 1, 4, 3, 6, 5], [2000, 1000, 2000, 2000, 2000, 1999],
            [jump(1, 1), late(2, 1, -1000, 100, 1), jump(3, 1), late(4, 1, 0, 100, 1), jump(5, 1), late(6, 1, -1, 100, 1)],
            {3: 2, 5: 2}, {1: 3}, (6, 3, 0, 3, 3, 3, 0), (3, 3, 0), 3),
}  # fmt: skip


def report_of(sent, numbers, rows, counts):
    """The report, by its lines' form."""
    lines = [f"sent {sent} arrivals {len(numbers)}"]
    for record, (number, row) in enumerate(zip(numbers, rows), 1):
        sign = "-" if row.kind == Kind.REORDERED_BEFORE else ""
        said = {Kind.IN_ORDER: f"in {row.position} {row.jump}", Kind.DUPLICATE: f"copy {row.first}"}.get(
            row.kind, f"late {row.position} {row.extent} {sign}{row.late} {row.offset} {row.largest}"
        )
        lines.append(f"{record} {number} {said}")
    arrived, reordered, duplicates, _, closed, squares, current = counts
    return "\n".join(lines + [f"end {arrived} {reordered} {duplicates} {closed} {squares} {current}\n"])


FIELDS = "record number time_us kind position jump_size extent late_us byte_offset largest_n first_copy".split()
COUNT_FIELDS = "sent arrivals arrived reordered copies closed_runs sum_of_squares open_run".split()


def fields(record, number, time, row):
    """The named fields of a record."""
    late_us = -row.late if row.kind == Kind.REORDERED_BEFORE else row.late
    figures = {
        Kind.IN_ORDER: ("in_order", {"position": row.position, "jump_size": row.jump}),
        Kind.DUPLICATE: ("copy", {"first_copy": row.first}),
    }.get(row.kind, ("reordered", {"position": row.position, "extent": row.extent, "late_us": late_us, "byte_offset": row.offset,
                                   "largest_n": row.largest}))  # fmt: skip
    return {"record": record, "number": number, "time_us": time, "kind": figures[0], **figures[1]}


def csv_line(values):
    """A line of the table, of the fields that have a value."""
    return ",".join(str(values.get(name, "")) for name in FIELDS + COUNT_FIELDS) + "\n"


def try_tables(name, sample, rows, counts):
    """Every record with named fields."""
    arrivals = zip(range(1, len(rows) + 1), sample.lists().numbers, sample.lists().times, rows)
    records = [fields(*arrival) for arrival in arrivals]
    arrived, reordered, duplicates, _, *runs = counts
    of_counts = dict(zip(COUNT_FIELDS, [sample.layout.sent, len(rows), arrived, reordered, duplicates, *runs]))
    lines = [csv_line(record) for record in records]
    same(f"{name}: table_csv", sample.table_csv(),
         "".join([",".join(FIELDS + COUNT_FIELDS) + "\n", *lines, csv_line({"kind": "counts", **of_counts})]))  # fmt: skip
    text = sample.table_json()
    same(f"{name}: table_json", json.loads(text), {"label": name, "records": records, "counts": of_counts})
    same(f"{name}: table_json, a line for each record", text.count("\n"), len(rows) + 2 + (not rows))
    same(f"{name}: table_json begins with label_json", text.startswith(krakobran.label_json(name) + ',"records":[\n'), True)


def all_figures(sample, rows, gaps, tally, counts):
    """The figures that a summary leaves out, as text."""
    lines = ["", "Extents, and how many packets have each:"]
    lines += [f"    {extent}: {packets}" for extent, packets in sorted(tally.items())] + ["    over 100: 0"]
    lines += ["", "n, and how many packets are n-reordered:"]
    lines += [f"    {n}: {sum(row.largest >= n for row in rows)}" for n in range(1, 11)]
    lines += ["", "Records that have a gap, and the gap in positions:"] + [f"    {record}: {gap}" for record, gap in sorted(gaps.items())]
    closed, squares, current = counts[4:]
    lines += ["", f"Runs in order: {closed} ended, the sum of their squares {squares}, packets in the open one {current}", ""]
    return sample.summary() + "\n".join(lines)


def need(measure, row):
    """What a record needs of a buffer."""
    time = row.late if row.kind == Kind.REORDERED_AFTER else 0
    return {Measure.PACKETS: row.extent, Measure.OCTETS: row.offset, Measure.TIME: time}[measure]


def try_case(name, sent, numbers, times, rows, gaps, tally, counts, ratios, disorder):
    """Every figure of a case."""
    times = times or [10 * (i + 1) for i in range(len(numbers))]
    sample = Sample.of(name, [100] * sent, numbers, times)
    records = range(1, len(numbers) + 1)
    arrived = counts[0]
    same(f"{name}: label, layout, lists", (sample.label, sample.layout, sample.lists()),
         (name, (len(name), sent, len(numbers)), ([100] * sent, numbers, times)))  # fmt: skip
    same(f"{name}: records", sample.records(), rows)
    for start, most in ((0, 2), (1, len(rows)), (len(rows), 3), (len(rows) + 1, 1)):
        same(f"{name}: records from {start} on", sample.records_from(start, most), rows[start : start + most])
    same(f"{name}: answer", [sample.answer(record) for record in records], rows)
    same(f"{name}: sweep", sample.sweep(), [(row.kind, row.position, row.extent, row.late) for row in rows])
    same(f"{name}: gap", [sample.gap(record) for record in records], [gaps.get(record) for record in records])
    same(f"{name}: gaps", sample.gaps(), [gaps.get(record) for record in records])
    same(f"{name}: tally", sample.tally(), [tally.get(extent, 0) for extent in range(101)])
    same(f"{name}: counts", sample.counts(), counts)
    same(f"{name}: ratios", sample.ratios(), ratios and tuple(part / arrived for part in ratios))
    for n in (1, 2, 3, 100):
        some = sum(row.largest >= n for row in rows)
        same(f"{name}: n_reordered {n}", sample.n_reordered(n), (some, arrived))
        same(f"{name}: degree {n}", sample.degree(n), some / arrived if arrived else None)
    same(f"{name}: disorder", sample.disorder(), disorder)
    try_needs(name, sample, rows, arrived)
    try_tables(name, sample, rows, counts)
    same(f"{name}: summary_all", sample.summary_all(), all_figures(sample, rows, gaps, tally, counts))
    same(f"{name}: report", sample.report(), report_of(sent, numbers, rows, counts))
    same(f"{name}: check", sample.check(sample.report()), (True, 0))
    same(f"{name}: check, a line less", sample.check(sample.report()[: -len("end 0 0 0 0 0 0\n")])[0], False)
    try_receiver(name, sent, numbers, times, rows, counts)


def try_needs(name, sample, rows, arrived):
    """What a receiver that restores order needs, over every size and share."""
    firsts = [row for row in rows if row.kind != Kind.DUPLICATE]
    same(f"{name}: needs", sample.needs(), tuple(max([need(m, row) for row in firsts], default=0) for m in Measure))
    for measure in Measure:
        needs = [need(measure, row) for row in firsts]
        sizes = sorted(set(needs) | {0, 1, 2**64 - 1})
        same(f"{name}: accommodated, {measure.name}", [sample.accommodated(measure, size) for size in sizes],
             [(sum(n <= size for n in needs), arrived) for size in sizes])  # fmt: skip
        for low, shift in ((0, 0), (1, 1), (max(needs, default=0), 0), (0, 57), (3, 64), (2**64 - 1, 2**32 - 1)):
            same(f"{name}: accommodated_steps, {measure.name}, from {low} by 2^{shift}", sample.accommodated_steps(measure, low, shift),
                 (arrived, max(needs, default=0), [sum(n <= low + (j << min(shift, 64)) for n in needs) for j in range(128)]))  # fmt: skip
        shares = [(1, 2), (9, 10), (95, 100), (7, 7)]
        same(f"{name}: least_size, {measure.name}", [sample.least_size(measure, *share) for share in shares],
             [min(s for s in sizes if part * arrived <= whole * sum(n <= s for n in needs)) for part, whole in shares])  # fmt: skip


def try_receiver(name, sent, numbers, times, rows, counts):
    """A receiver notes what the rows say, by whole numbers and by short ones, and so do both streams of a meter."""
    receiver, meter = krakobran.Receiver(sent), krakobran.Meter()
    meter.start(1, sent)
    meter.start(2, sent)
    expected = [Noted(row.kind, row.jump, row.extent, row.late) for row in rows]
    same(f"{name}: Receiver.step", [receiver.step(*arrival) for arrival in zip(numbers, times)], expected)
    stream = receiver.stream
    same(f"{name}: Receiver.stream", (stream.arrived, stream.duplicates, stream.inorder, stream.closed, stream.squares, stream.current),
         (counts[0], *counts[2:]))  # fmt: skip
    for step in ("step_8", "step_10"):
        fresh = krakobran.Receiver(sent)
        same(f"{name}: Receiver.{step}", [getattr(fresh, step)(*arrival) for arrival in zip(numbers, times)], expected)
        same(f"{name}: Receiver.{step}, the state after it", fresh.save(), receiver.save())
    for i in (1, 2):
        same(f"{name}: Meter.step, stream {i}", [meter.step(i, *arrival) for arrival in zip(numbers, times)], expected)
        same(f"{name}: Meter.stream {i}", meter.stream(i), stream)


for case, figures in CASES.items():
    try_case(case, *figures)

# ---- the report's example and the summary's, as files

example = Sample.open(ROOT / "crates/cmd_report/stdin")
same("the example: report", example.report(), (ROOT / "crates/cmd_report/stdout").read_text())
same("the example: check, a wrong line", example.check(example.report().replace("in 3 1", "in 3 0")), (False, 4))
same("the example: worse", krakobran.worse(example, Sample.of("roof", [100, 100], [2, 1], [0, 0])), (2, "roof"))
same("the example: worse, the other way", krakobran.worse(example, Sample.of("", [100], [], [])), (1, ""))
link = Sample.open(ROOT / "crates/cmd_summary/stdin")
same("the link: summary", link.summary(), (ROOT / "crates/cmd_summary/stdout").read_text())
of_link = json.loads(link.summary_json())
same("the link: summary as JSON",
     [(size["waiting_time_us"], size["packets_held"], size["octets_held"]) for size in of_link["least_sizes"]],
     [tuple(link.least_size(measure, share, 100) for measure in (Measure.TIME, Measure.PACKETS, Measure.OCTETS))
      for share in (50, 90, 95, 99, 100)])  # fmt: skip
tabled = Sample.open(ROOT / "crates/cmd_table/stdin")
same("the table: as JSON", tabled.table_json(), (ROOT / "crates/cmd_table/stdout").read_text())


def printed(sample, program, argument):
    """What a program of the command prints of a sample."""
    words = [str(ROOT / "target/bin" / program), argument]
    return subprocess.run(words, input=sample.octets, stdout=subprocess.PIPE, check=False).stdout.decode("ascii")


for name, sample in (("example", example), ("link", link), ("table", tabled)):
    same(f"the {name}: table_csv, as the command prints it", sample.table_csv(), printed(sample, "cmd_table", "csv"))
    same(f"the {name}: table_json, as the command prints it", sample.table_json(), printed(sample, "cmd_table", "json"))
    same(f"the {name}: summary_all, as the command prints it", sample.summary_all(), printed(sample, "cmd_summary", "all"))
log = (ROOT / "examples/supplier.log").read_bytes()
same("the link: from_log", Sample.from_log(log, 290, 100).octets, link.octets)
same("the link: log, read again", krakobran.import_log(link.log(), 290), link.lists()[1:])
same("the link: owamp, read again", krakobran.import_owamp(link.owamp(), 290)[0],
     [number for _, number in sorted(zip(link.lists().times, link.lists().numbers), key=lambda arrival: arrival[0])])  # fmt: skip
same("the link: from_owamp", Sample.from_owamp(example.owamp(), 5, 100, "x").report(), example.report())
link.save(ROOT / "target/link.sample")
same("the link: save and open", Sample.open(ROOT / "target/link.sample").octets, link.octets)
os.remove(ROOT / "target/link.sample")

# ---- lists

same("owamp", Sample.of("", [9, 9, 9], [3], [1500000]).owamp(), bytes([0, 0, 0, 2, 0, 1, 0, 1] + 8 * [0] + [0, 0, 0, 2, 128, 0, 0, 0, 255]))
records = b"".join(n.to_bytes(4, "big") + bytes([9] * 12) + time.to_bytes(8, "big") + b"\t" for n, time in ((1, 3 << 31), (7, 0), (0, 1 << 30)))
same("import_owamp: one and a half seconds, a lost packet, and a quarter of a second", krakobran.import_owamp(records, 2), ([1, 2], [0, 1250000]))
same("write_log", krakobran.write_log(4096, [4096, 1], [2**64 - 1, 2**64 - 1]), b"4096;18446744073709551,615\n1;18446744073709551,615\n")
same("import_log", krakobran.import_log("1;4,5\n2;4.5\n3;45\n", 3), ([1, 2, 3], [4500, 4500, 45000]))
same("refused_line", [krakobran.refused_line(text, 2) for text in (b"", b"1;1\n", b"1;1\n3;1\nx\n")], [0, 0, 2])
same("check_lists", krakobran.check_lists(2, [1, 2], [0, 0]), None)
same("read_line", [krakobran.read_line(line) for line in (b"7;4,05\n", "0;0\n")], [(7, 4050), (0, 0)])
FAULTS = {
    b"\xef\xbb\xbf1;5\n": Fault.BYTE_ORDER_MARK, b"\n": Fault.EMPTY_LINE, b"number;time\n": Fault.NO_DIGIT, b"": Fault.NO_DIGIT,
    b"1;5\r\n": Fault.CARRIAGE_RETURN, b"\r\n": Fault.CARRIAGE_RETURN, b"1;5": Fault.NO_LINE_FEED, b"4294967296;5\n": Fault.NUMBER_OVER,
    b"1;5,0000\n": Fault.MANY_DECIMALS, b"1;5,000\n": Fault.NONE, b"1;18446744073709551,616\n": Fault.NONE, b"1;\n": Fault.OTHER,
    b"1;5,\n": Fault.OTHER, b"1 5\n": Fault.OTHER,
}  # fmt: skip
same("line_fault", {line: krakobran.line_fault(line) for line in FAULTS}, FAULTS)
same("text_line", [krakobran.text_line("ä\n\nlast", n) for n in (0, 1, 2, 3, 2**64 - 1)], ["ä\n".encode(), b"\n", b"last", b"", b""])
same("text_line, no text", krakobran.text_line(b"", 0), b"")
same("text_line, the refused line", krakobran.text_line(b"1;1\nx\n", krakobran.refused_line(b"1;1\nx\n", 1) - 1), b"x\n")
same("label_json", [krakobran.label_json(label) for label in ("", b"roof", 'a "b" \\', "Käfer", '"' * 64)],
     ['{"label":""', '{"label":"roof"', '{"label":"a \\"b\\" \\\\"', '{"label":"Käfer"', '{"label":"' + '\\"' * 64 + '"'])  # fmt: skip
short_8, short_10 = b"100;1\n200;2\n255;3\n0;4\n3;5\n254;6\n", "500;1\n1000;2\n1023;3\n0;4\n5;5\n1020;6\n"
at = [1000, 2000, 3000, 4000, 5000, 6000]
same("import_log, 8 bits", krakobran.import_log(short_8, 259, 8), ([100, 200, 255, 256, 259, 254], at))
same("import_log, 10 bits", krakobran.import_log(short_10, 1029, 10), ([500, 1000, 1023, 1024, 1029, 1020], at))
short_sample = Sample.from_log(short_8, 259, 100, "radio", bits=8)
same("from_log, 8 bits", short_sample.lists()[1:], ([100, 200, 255, 256, 259, 254], at))
same("from_log, 8 bits and a label", (short_sample.label, short_sample.layout.sent), ("radio", 259))
refused("refused 6, the line of a log of 8 bits", 6, lambda: Sample.from_log(b"1;1\n256;2\n", 259, 100, bits=8), 2)
same("refused_line, 8 and 10 bits", (krakobran.refused_line(short_8, 258, 8), krakobran.refused_line(short_10, 1028, 10)), (5, 5))
same("full_numbers_8", krakobran.full_numbers_8(346, [100, 200, 255, 0, 3, 254, 90], [0] * 7), [100, 200, 255, 256, 259, 254, 346])
same("full_numbers_10", krakobran.full_numbers_10(1029, [500, 1000, 5, 1020], [0] * 4), [500, 1000, 1029, 1020])
same("fragment_order", krakobran.fragment_order(3, [1, 1, 1, 1, 3, 2], [0] * 6, [8, 8, 8, 5, 5, 5], [1, 1, 1, 0, 0, 0], [0, 2, 1, 3, 0, 0]),
     ([0, 0, 1, 0, 0, 1], [True] * 6))  # fmt: skip
same("fragment_order, a hole", krakobran.fragment_order(2, [1, 1, 2], [0] * 3, [8, 8, 3], [1, 0, 0], [0, 2, 0]),
     ([0, 0, 0], [False, False, True]))  # fmt: skip

# ---- receivers and meters


def fed(evens):
    """A receiver for 130 packets that was fed even numbers, record r at 10 times r."""
    receiver = krakobran.Receiver(130)
    for r in range(1, evens + 1):
        receiver.step(2 * r, 10 * r)
    return receiver


same("the window: exact, 64", fed(64).step(1, 650), (Kind.REORDERED_AFTER, 0, 64, 640))
same("the window: beyond", fed(65).step(1, 660), (Kind.BEYOND_AFTER, 0, 64, 640))
same("the window: beyond, before", fed(65).step(1, 0), (Kind.BEYOND_BEFORE, 0, 64, 20))
same("the window: exact, the second jump", fed(65).step(3, 660), (Kind.REORDERED_AFTER, 0, 64, 640))
saved = fed(65).save()
same("Receiver.save", len(saved), 1328)
same("Receiver.load", krakobran.Receiver.load(saved).step(3, 660), (Kind.REORDERED_AFTER, 0, 64, 640))

# a log that is followed, and what the command prints of it
followed = krakobran.Receiver(5)
log = (ROOT / "crates/cmd_follow/stdin").read_bytes().splitlines(keepends=True)
lines = [followed.follow(line) for line in log]
same("Receiver.follow and counts_text, as the command", "".join(line.text for line in lines) + followed.counts_text(),
     (ROOT / "crates/cmd_follow/stdout").read_text())  # fmt: skip
same("Receiver.follow, a copy", krakobran.Receiver.load(saved).follow("2;0,65\n"), (0, (Kind.DUPLICATE, 0, 0, 0), "2 at 650 us: copy\n"))
same("Receiver.follow, beyond the window", krakobran.Receiver.load(saved).follow(b"1;0.66\n"),
     (0, (Kind.BEYOND_AFTER, 0, 64, 640), "1 at 660 us: late by more than 64 packets, beyond the window\n"))  # fmt: skip
same("Receiver.follow, refused", [krakobran.Receiver(5).follow(line) for line in ("6;1\n", "6;1")],
     [(6, (Kind.IN_ORDER, 0, 0, 0), f"6 at 1000 us: refused 6: {krakobran.refusal_words(6)}\n"),
      (14, (Kind.IN_ORDER, 0, 0, 0), f"refused 14: {krakobran.refusal_words(14)}\n")])  # fmt: skip

two = krakobran.Meter()
two.start(2, 130)
two.step(2, 2, 10)
same("Meter.save", len(two.save()), 1888)
same("Meter.load", krakobran.Meter.load(two.save()).step(2, 1, 20), (Kind.REORDERED_AFTER, 0, 1, 10))

# ---- refusals, and what is no refusal

full = krakobran.Receiver(1)
for _ in range(4096):
    full.step(1, 0)
unfit = krakobran.Receiver.load(bytes([255]) * 1328)
far = Sample.of("", [9], [1], [4294967295000000])
refused("refused 1", 1, lambda: Sample(b""))
refused("refused 2", 2, lambda: Sample(example.octets + b"\0"))
refused("refused 3", 3, lambda: Sample.of("x" * 65, [1], [], []))
refused("refused 3, a label as JSON", 3, lambda: krakobran.label_json("x" * 65))
refused("refused 4", 4, lambda: Sample.of("", [], [], []))
refused("refused 4, a receiver", 4, lambda: krakobran.Receiver(4097))
refused("refused 4, a log", 4, lambda: krakobran.import_log(b"x\n", 0))
refused("refused 5", 5, lambda: krakobran.check_lists(1, [1] * 4097, [0]))
refused("refused 6", 6, lambda: krakobran.Receiver(5).step(6, 0))
refused("refused 6, the line of a log", 6, lambda: Sample.from_log(b"1;1\n2;2\n", 1, 100), 2)
refused("refused 7", 7, lambda: Sample.of("", [9], [1, 1], [1001, 0]))
refused("refused 9, a record", 9, lambda: example.answer(6))
refused("refused 9, a gap", 9, lambda: example.gap(0))
refused("refused 9, n", 9, lambda: example.degree(101))
refused("refused 9, n of counts", 9, lambda: example.n_reordered(0))
refused("refused 9, a measure", 9, lambda: example.accommodated(3, 0))
refused("refused 9, a measure of steps", 9, lambda: example.accommodated_steps(3))
refused("refused 9, a part", 9, lambda: example.least_size(Measure.TIME, 2, 1))
refused("refused 10", 10, lambda: unfit.step(1, 0))
refused("refused 11", 11, lambda: full.step(1, 0))
same("refused 11: the receiver is unchanged", (full.stream.arrived, full.stream.duplicates), (1, 4095))
refused("refused 12", 12, lambda: krakobran.write_log(1, [1], []))
refused("refused 13", 13, lambda: Sample.of("Käfer", [1], [], []))
refused("refused 14", 14, lambda: krakobran.import_log(b"1;1\nx\n", 1), 2)
refused("refused 15", 15, lambda: krakobran.import_owamp(b"x", 1))
refused("refused 16", 16, lambda: krakobran.Meter().step(3, 1, 0))
refused("refused 16, a start", 16, lambda: krakobran.Meter().start(0, 1))
refused("refused 16, the numbers of a stream", 16, lambda: krakobran.Meter().stream(3))
refused("refused 17", 17, lambda: krakobran.fragment_order(1, [1], [0], [0], [1], [0]))
refused("refused 18", 18, far.owamp)


def overflows(call):
    """Whether a call raises OverflowError."""
    try:
        call()
    except OverflowError:
        return True
    return False


same("integers that do not fit", [overflows(call) for call in (
    lambda: full.step(2**32 + 1, 0), lambda: full.step(1, -1), lambda: full.step_8(65537, 0), lambda: example.answer(-1),
    lambda: krakobran.check_lists(1, [2**32], [0]), lambda: Sample.of("", [65536], [], []))], [True] * 6)  # fmt: skip



def imported(library):
    """The last line of an import with another shared object."""
    found = subprocess.run(
        [sys.executable, "-Bc", "import krakobran"],
        env={**os.environ, "KRAKOBRAN_LIBRARY": library, "PYTHONPATH": str(ROOT / "bindings/python")},
        stderr=subprocess.PIPE,
        text=True,
        check=False,
    )
    return found.stderr.strip().split("\n")[-1]


same("a library that is not there", imported("/nowhere.so").endswith("; KRAKOBRAN_LIBRARY names the shared object of Krakobran"), True)
same("a library that is another", imported("libc.so.6"), "ImportError: libc.so.6 has no krakobran_sample_check: it is not of version " + krakobran.VERSION)

# ---- the binding and the header

header = (ROOT / "include/krakobran.h").read_text()
declared = set(re.findall(r"^(?:uint64_t|void) krakobran_(\w+)\(", header, re.M))
same("every call of the header, and no other", set(krakobran._CALLS), declared)
same("every call is tried by tests/interface.c", declared - set(re.findall(r"krakobran_(\w+)\(", (ROOT / "tests/interface.c").read_text())), set())
table = dict(re.findall(r"^\| (\d+) \| (.*) \|$", (ROOT / "docs/CALLS.md").read_text(), re.M))
same("the words of refusals", {n: krakobran.refusal_words(int(n)) for n in table}, table)
same("the words of an exception", str(Refused(14, 2)), "refused 14, line 2: a line not of the form, or a value over the field's range")
limits = header[header.index("/* Limits") : header.index("/* ---- the sample file")]
numbers_of = {name: int(n) for name, n in re.findall(r"KRAKOBRAN_(\w+) = (\d+)", limits) if not name.endswith("STACK_OCTETS")}
same("limits and lengths", {name: getattr(krakobran, name, None) for name in numbers_of}, numbers_of)
same("cases", {f"{kind.name} = {kind.value}" for kind in Kind} - set(re.findall(r"KRAKOBRAN_(\w+ = \d)", header)), set())
same("measures", {f"MEASURE_{m.name} = {m.value}" for m in Measure} - set(re.findall(r"KRAKOBRAN_(\w+ = \d)", header)), set())
same("faults", {f"FAULT_{fault.name} = {fault.value}" for fault in Fault} ^ set(re.findall(r"KRAKOBRAN_(FAULT_\w+ = \d)", header)), set())
same("the version", f'#define KRAKOBRAN_VERSION "{krakobran.VERSION}"' in header, True)

same("the version of the library", krakobran.library_version(), krakobran.VERSION)

print(f"{run - failed} passed, {failed} failed")
sys.exit(failed != 0)
