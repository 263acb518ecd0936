#!/usr/bin/env python3
"""table.py csv|json SAMPLE REPORT < TABLE: reads a table of `krakobran report --csv` or `--json`, and holds every field of it to the sample's
label and arrival times and to the text of its report. Prints what differs first, and nothing if nothing does."""
import csv, io, json, struct, sys

RECORD = 'record number time_us kind position jump_size extent late_us byte_offset largest_n first_copy'.split()
COUNTS = 'sent arrivals arrived reordered copies closed_runs sum_of_squares open_run'.split()
KINDS = {'in': ('in_order', ['position', 'jump_size']), 'copy': ('copy', ['first_copy']),
         'late': ('reordered', ['position', 'extent', 'late_us', 'byte_offset', 'largest_n'])}


def expected(sample, report):
    """The label, the records and the counts, by the octets of the sample and the lines of its report."""
    octets = struct.unpack_from('>H', sample)[0]
    label = sample[2:2 + octets].decode('ascii')
    sent = struct.unpack_from('>H', sample, 2 + octets)[0]
    first = 2 + octets + 2 + 2 * sent + 2
    lines = [line.split(' ') for line in report.splitlines()]
    records = []
    for i, (record, number, kind, *figures) in enumerate(lines[1:-1]):
        time = struct.unpack_from('>IQ', sample, first + 12 * i)[1]
        word, names = KINDS[kind]
        row = {'record': int(record), 'number': int(number), 'time_us': time, 'kind': word}
        records.append({**row, **dict(zip(names, map(int, figures)))})
    counts = dict(zip(COUNTS, map(int, [lines[0][1], lines[0][3], *lines[-1][1:]])))
    return label, records, counts


def from_json(text):
    """The object, its members in their order: all that the text has."""
    whole = json.loads(text)
    if list(whole) != ['label', 'records', 'counts']:
        sys.exit('the members are ' + ', '.join(whole))
    return whole['label'], whole['records'], whole['counts']


def from_csv(text, label):
    """The rows without their empty fields; the label is not in CSV."""
    rows = list(csv.reader(io.StringIO(text, newline=''), strict=True))
    if rows[0] != RECORD + COUNTS:
        sys.exit('the names are ' + ', '.join(rows[0]))
    if any(len(row) != len(rows[0]) for row in rows):
        sys.exit('a line has too many fields, or too few')
    rows = [{n: v if n == 'kind' else int(v) for n, v in zip(rows[0], row) if v} for row in rows[1:]]
    counts = rows.pop()
    if counts.pop('kind') != 'counts':
        sys.exit('the last line is not of kind counts')
    return label, rows, counts


form, sample, report = sys.argv[1:]
label, records, counts = expected(open(sample, 'rb').read(), open(report, encoding='ascii').read())
text = sys.stdin.buffer.read().decode('ascii')
if not text.endswith('\n') or '\r' in text:
    sys.exit('the lines are not ended by line feeds')
found = from_json(text) if form == 'json' else from_csv(text, label)
if found[0] != label:
    sys.exit('the label is ' + found[0])
for row, right in zip(found[1], records):
    if row != right or [n for n in RECORD if n in row] != list(row):
        sys.exit('%r and not %r' % (row, right))
if len(found[1]) != len(records) or found[2] != counts or list(found[2]) != COUNTS:
    sys.exit('%d records, and the counts %r' % (len(found[1]), found[2]))
