#!/usr/bin/env python3
"""Draws samples of each kind with ./krakobran picture, and holds each picture to well-formed XML within its frame, to its size, to the
settings that ./krakobran summary prints, and to the words named here. A line for each case; status 1 if one fails."""
import os, random, re, struct, subprocess, sys, xml.etree.ElementTree as tree

krakobran = os.path.join(os.path.dirname(os.path.dirname(os.path.abspath(__file__))), 'krakobran')
random.seed(4737)


def sample(label, sent, arrivals):
    """The octets of a sample file, of payload sizes of 100."""
    sizes = struct.pack('>H', sent) + struct.pack('>H', 100) * sent
    records = b''.join(struct.pack('>IQ', number, time) for number, time in arrivals)
    return struct.pack('>H', len(label)) + label.encode() + sizes + struct.pack('>H', len(arrivals)) + records


def shuffled(n):
    numbers = list(range(1, n + 1))
    random.shuffle(numbers)
    return [(number, 1000 * i) for i, number in enumerate(numbers)]


def run(word, octets):
    """What a command prints of a sample on standard input."""
    done = subprocess.run([krakobran, word, '-'], input=octets, capture_output=True, timeout=60)
    return done.stdout.decode() if done.returncode == 0 and not done.stderr else ''


def texts(picture):
    """The texts of a picture, each with its place."""
    name = '{http://www.w3.org/2000/svg}text'
    return [(float(t.get('x', 0)), float(t.get('y', 0)), t.text or '') for t in picture.iter(name)]


def places(picture):
    """Where the absolute moves of its paths go."""
    paths = ' '.join(p.get('d') for p in picture.iter('{http://www.w3.org/2000/svg}path'))
    return [(float(x), float(y)) for x, y in re.findall(r'[ML](-?[\d.]+) (-?[\d.]+)', paths)]


def settings(lines, name):
    """The waiting time, packets and octets of a row of the summary."""
    return re.search(r'^ *%s *([\d.]+ ms) *(\d+) *(\d+)$' % name, lines, re.M).groups()


def wrong_with(octets, words, absent):
    """What is wrong with the picture of a sample; nothing if it is right."""
    drawn = run('picture', octets)
    try:
        picture = tree.fromstring(drawn)
    except tree.ParseError as error:
        return 'no XML: %s' % error
    if len(drawn) > 400000:
        return '%d octets' % len(drawn)
    for x, y in places(picture) + [t[:2] for t in texts(picture)]:
        if not (0 <= x <= 1200 and 0 <= y <= 970):
            return 'outside at %s %s' % (x, y)
    summary = run('summary', octets)
    for name, row in (('95 %', 118), ('all', 136)):
        here = [t for x, y, t in texts(picture) if y == row and x in (410, 530, 650)]
        if tuple(here) != settings(summary, name):
            return 'settings %s and not those of the summary' % here
    shown = '\n'.join(t for _, _, t in texts(picture))
    for word in words:
        if word not in shown:
            return 'without "%s"' % word
    for word in absent:
        if word in shown:
            return 'with "%s"' % word
    return ''


numbers, first = 'sequence number', 'arrival time, ms after the earliest'
cases = [
    ('in order', sample('in order', 50, [(i + 1, 1000 * i) for i in range(50)]), ['50 arrivals', first, numbers], ['all: ']),
    ('shuffled', sample('shuffled', 200, shuffled(200)), ['200 arrivals', 'all: ', '129-256'], []),
    ('reversed', sample('reversed', 100, [(100 - i, 250 * i) for i in range(100)]), ['99 packets late, 99.0 %'], []),
    ('empty', sample('empty', 10, []), ['0 arrivals: 0 packets, 0 copies; 0 packets late, - %'], ['all: ']),
    ('one arrival', sample('one', 1, [(1, 5)]), ['1 packet sent, 1 arrival: 1 packet, 0 copies; 0 packets late, 0.0 %'], []),
    ('one copy, one late', sample('', 2, [(2, 0), (1, 7), (1, 7)]), ['2 packets, 1 copy; 1 packet late', 'Packet reordering'], []),
    ('300 arrivals', sample('', 300, shuffled(300)), [numbers], []),
    ('301 arrivals', sample('', 301, shuffled(301)), [first], [numbers]),
    ('4,096 arrivals, shuffled', sample('', 4096, shuffled(4096)), ['2049-4095'], [numbers]),
    ('4,096 arrivals, reversed', sample('', 4096, [(4096 - i, i) for i in range(4096)]), ['4095 packets late'], []),
    ('copies alone', sample('copies', 5, [(3, 500 * i) for i in range(40)]), ['1 packet, 39 copies'], []),
    ('4,096 copies', sample('', 1, [(1, 0)] * 4096), ['1 packet, 4095 copies'], []),
    ('times before', sample('', 4, [(2, 2000), (1, 1400), (4, 2500), (3, 1601)]), ['-0.5', 'The clock steps back'], ['all: ']),
    ('a label of 64 wide letters', sample('W' * 64, 3, [(1, 0), (3, 1), (2, 2)]), ['W' * 64], []),
    ('a label of marks', sample('<&>"\'' * 12 + ']]>;', 1, [(1, 0)]), ['<&>"\'' * 12 + ']]>;'], []),
    ('times of 64 bits', sample('', 4, [(3, 0), (2, 2**63), (1, 2**64 - 1), (4, 2**64 - 500)]), ['waiting time, billion s'], []),
]

failed = 0
for name, octets, words, absent in cases:
    wrong = wrong_with(octets, words, absent)
    failed += bool(wrong)
    print('FAILED %s, %s' % (name, wrong) if wrong else 'passed %s' % name)
print('%d passed, %d failed' % (len(cases) - failed, failed))
sys.exit(failed > 0)
