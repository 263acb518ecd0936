#!/usr/bin/env python3
"""Counts, in the sources of the crates, the places of the points of docs/DESIGN-PASS.md.

usage: tools/design/count.py [--list] [POINT..]      at the top of the repository

It reads src/*.rt (for point 8 proofs/) by text. A place that it finds is one to look at: docs/DESIGN-PASS.md says what became of it.

1  enums with one variant that holds a value and one that does not or that holds a number (enum); functions that return a refusal as a
   number (refusal number); structs with a field `refusal: u32` (refusal field); tests of a refusal against 0 (refusal test); constants
   that number refusals or kinds (number)
2  functions that are the same text once types, widths and numbers are left out (twin); names that end in a width (width)
3  `while` loops whose test names a variable that the body counts by 1 (index)
4  functions of one expression that only convert, compare or copy (convert); loops or chains of tests that compare (equal)
5  facts of `requires` that stand in three or more functions of a crate (fact); two or more parameters that stand together in three or
   more functions of a crate (group)
6  a buffer with its offset or length beside (buffer); two or more lists that are indexed by one variable (parallel)
7  a `match`, or a chain of three or more tests, on a number that picks a step (switch)
8  proof files in the older form (older), in today's form (today), and functions without one (none)
"""
import collections
import glob
import os
import re
import sys

FUNCTION = re.compile(r'^( *)(?:pub(?:\([a-z]+\))? )?(?:extern "C" )?fn (\w+)(<[^(]*>)?\(', re.M)


def functions(text):
    """The functions of a file: line, name, parameters, result, clauses, body."""
    for found in FUNCTION.finditer(text):
        at, depth = found.end(), 1
        while depth and at < len(text):
            depth += {'(': 1, ')': -1}.get(text[at], 0)
            at += 1
        parameters = text[found.end():at - 1]
        indent = found.group(1)
        start = text.find('\n' + indent + '{', at)
        inline = re.compile(r'[^\n]*\{\n').match(text, at)
        if inline and (start < 0 or inline.end() <= start):
            start = inline.end() - 2
            clauses = text[at:start]
        else:
            clauses = text[at:start]
        end = text.find('\n' + indent + '}', start)
        if start < 0 or end < 0:
            continue
        result = re.match(r'\s*->\s*([^\n{]*)', text[at:])
        yield {
            'line': text.count('\n', 0, found.start()) + 1,
            'name': found.group(2),
            'parameters': parameters,
            'result': result.group(1).strip() if result else '',
            'clauses': clauses,
            'body': text[start:end],
        }


def parameters_of(text):
    parts, depth, part = [], 0, ''
    for c in text:
        depth += {'(': 1, '[': 1, '<': 1, ')': -1, ']': -1, '>': -1}.get(c, 0)
        if c == ',' and depth == 0:
            parts.append(part)
            part = ''
        else:
            part += c
    parts.append(part)
    return [' '.join(p.split()) for p in parts if p.strip()]


def conjuncts(clauses):
    for found in re.finditer(r'requires(?: \w+)? \{(.*?)\n? *\}(?=\s*(?:ensures|requires|$))', clauses, re.S):
        for part in re.split(r'×', found.group(1)):
            fact = ' '.join(part.split()).strip('() ')
            if fact:
                yield fact


def normal(text):
    text = re.sub(r'//[^\n]*', '', text)
    text = re.sub(r'\b[ui](8|16|32|64|size)\b', 'N', text)
    text = re.sub(r'\b[\d_]+(?:u\d+|usize)?\b', '0', text)
    text = re.sub(r'\b[A-Z][A-Z_0-9]+\b', 'C', text)
    text = re.sub(r'_(8|10|16|32|64|usize)\b', '_W', text)
    names = {}
    text = re.sub(r'\b[a-z_]\w*\b', lambda m: names.setdefault(m.group(0), 'v%d' % len(names)), text)
    return ' '.join(text.split())


def sources():
    for path in sorted(glob.glob('crates/*/src/**/*.rt', recursive=True)):
        yield path.split('/')[1], path, open(path).read()


def point_1():
    for crate, path, text in sources():
        for found in re.finditer(r'^(?:pub(?:\([a-z]+\))? )?enum (\w+) \{\n(.*?)^\}', text, re.M | re.S):
            variants = re.findall(r'^    (\w+)(\(([^)]*)\))?', found.group(2), re.M)
            if len(variants) == 2 and any(v[2] for v in variants):
                if any(not v[1] or re.fullmatch(r'u\d+|usize', v[2]) for v in variants):
                    yield 'enum', crate, path, text.count('\n', 0, found.start()) + 1, found.group(1)
        for found in re.finditer(r'struct (\w+) \{[^}]*\brefusal: u32', text):
            yield 'refusal field', crate, path, text.count('\n', 0, found.start()) + 1, found.group(1)
        for found in re.finditer(r'\brefusal\w*(?:\([^)]*\))? [!=]= (?:0|NONE|refusal::NONE)\b', text):
            yield 'refusal test', crate, path, text.count('\n', 0, found.start()) + 1, found.group(0)
        if path.endswith(('/refusal.rt', '/numbering.rt')):
            for found in re.finditer(r'^pub const ([A-Z_0-9]+): u(?:8|32|64)', text, re.M):
                yield 'number', crate, path, text.count('\n', 0, found.start()) + 1, found.group(1)
        lines = text.split('\n')
        for f in functions(text):
            head = f['line'] - 2
            comment = ''
            while 0 <= head and lines[head].lstrip().startswith(('//', '#')):
                comment = lines[head] + comment
                head -= 1
            if f['result'] in ('u32', 'u64') and re.search(r'refus|judge', f['name'] + comment):
                if not f['name'].startswith('krakobran_'):
                    yield 'refusal number', crate, path, f['line'], f['name']


def point_2():
    groups = collections.defaultdict(list)
    for crate, path, text in sources():
        for f in functions(text):
            if re.search(r'_(8|10|16|32|64)$', f['name']) and not f['name'].startswith('krakobran_'):
                yield 'width', crate, path, f['line'], f['name']
            key = normal(f['parameters'] + f['body'])
            if 90 < len(key):
                groups[key].append((crate, path, f['line'], f['name']))
    for group in groups.values():
        for place in group[1:]:
            yield ('twin',) + place[:3] + (place[3] + ' of ' + group[0][3] + ' in ' + group[0][1],)


def loops(text):
    for found in re.finditer(r"^( *)(?:'\w+: )?while ([^\n]*)\{\n", text, re.M):
        end = text.find('\n' + found.group(1) + '}', found.end() - 1)
        yield text.count('\n', 0, found.start()) + 1, found.group(2).strip(), text[found.end():end]


def point_3():
    for crate, path, text in sources():
        for line, test, body in loops(text):
            counted = [v for v in re.findall(r'\b([a-z_]\w*) [+-]= 1;', body) if re.search(r'\b%s\b' % v, test)]
            if counted:
                yield 'index', crate, path, line, test


def point_4():
    for crate, path, text in sources():
        for f in functions(text):
            if f['name'].startswith('krakobran_'):
                continue
            body = re.sub(r'//[^\n]*', '', f['body']).strip().lstrip('{').strip()
            if re.search(r'\bsame_|_same\b|\bsame\b|\bequal', f['name']) and re.search(r'while|for |&&|if ', body):
                yield 'equal', crate, path, f['line'], f['name']
            elif len(parameters_of(f['parameters'])) == 1 and re.fullmatch(r'\w+ as u\w+|\w+', body):
                yield 'convert', crate, path, f['line'], f['name']
            elif len(parameters_of(f['parameters'])) == 1 and re.match(r'match \w+ \{', body) and body.endswith('}'):
                arms = re.findall(r'=> ([^,{]*),', body)
                if arms and not re.search(r';', body):
                    yield 'convert', crate, path, f['line'], f['name']


def point_5():
    for crate in sorted({c for c, _, _ in sources()}):
        facts, groups = collections.defaultdict(list), collections.defaultdict(list)
        for c, path, text in sources():
            if c != crate:
                continue
            for f in functions(text):
                for fact in set(conjuncts(f['clauses'])):
                    facts[fact].append((path, f['line'], f['name']))
                if f['name'].startswith('krakobran_'):
                    continue
                own = [re.sub(r"'\w+ |mut ", '', p) for p in parameters_of(f['parameters']) if ':' in p]
                for i in range(len(own) - 1):
                    groups[(own[i], own[i + 1])].append((path, f['line'], f['name']))
        for fact, places in sorted(facts.items()):
            if 3 <= len(places):
                yield 'fact', crate, places[0][0], places[0][1], '%d times: %s' % (len(places), fact)
        for pair, places in sorted(groups.items()):
            if 3 <= len(places):
                yield 'group', crate, places[0][0], places[0][1], '%d times: %s' % (len(places), ', '.join(pair))


def point_6():
    for crate, path, text in sources():
        for f in functions(text):
            if f['name'].startswith('krakobran_'):
                continue
            own = ', '.join(parameters_of(f['parameters']))
            if re.search(r'\b(out|room|text|s): &(?:\'\w+ )?(?:mut )?\[u8\], (at|n|len|length|end|from): usize', own):
                yield 'buffer', crate, path, f['line'], f['name']
            lists = re.findall(r"(\w+): &(?:'\w+ )?(?:mut )?\[u\d+(?:; [\w:]+)?\]", own)
            indexed = collections.defaultdict(set)
            for name, index in re.findall(r'\b(\w+)\[(\w+)\]', f['body']):
                if name in lists:
                    indexed[index].add(name)
            if any(2 <= len(names) for names in indexed.values()):
                yield 'parallel', crate, path, f['line'], f['name']


def point_7():
    for crate, path, text in sources():
        for f in functions(text):
            for found in re.finditer(r'match (\w+) \{\n(.*?)\n\s*_ =>', f['body'], re.S):
                arms = re.findall(r'^\s*(\d+|[A-Z_]+) =>', found.group(2), re.M)
                if 2 <= len(arms):
                    yield 'switch', crate, path, f['line'], f['name']
            tests = collections.Counter(re.findall(r'if (\w+) == (?:\d+|[A-Z_]+) \{', f['body']))
            if any(3 <= n for n in tests.values()):
                yield 'switch', crate, path, f['line'], f['name']


def point_8():
    for crate in sorted(os.listdir('crates')):
        folder = 'crates/' + crate
        for path in sorted(glob.glob(folder + '/proofs/**/Proof.antt', recursive=True)):
            yield 'older', crate, path, 1, ''
        today = {os.path.dirname(p) for n in ('Answers', 'Invariants')
                 for p in glob.glob(folder + '/proofs/**/%s.antt' % n, recursive=True)}
        for path in sorted(today):
            yield 'today', crate, path, 1, ''
        count = sum(len(list(functions(t))) for c, _, t in sources() if c == crate)
        count -= len(today) + len(glob.glob(folder + '/proofs/**/Proof.antt', recursive=True))
        for _ in range(count):
            yield 'none', crate, folder, 1, ''


POINTS = {n: f for n, f in enumerate(
    (point_1, point_2, point_3, point_4, point_5, point_6, point_7, point_8), 1)}


def main(arguments):
    listed = '--list' in arguments
    points = [int(a) for a in arguments if a.isdigit()] or list(POINTS)
    for point in points:
        places = list(POINTS[point]())
        kinds = collections.Counter(p[0] for p in places)
        print('%d: %s' % (point, ', '.join('%s %d' % k for k in sorted(kinds.items()))))
        if listed:
            for kind, crate, path, line, what in sorted(places):
                print('   %s: %s:%d %s' % (kind, path, line, what))


main(sys.argv[1:])
