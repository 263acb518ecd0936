#!/usr/bin/env python3
"""Checks every row of docs/THEOREMS.md against the sources, and prints how many rows there are, or what is wrong and fails.

A row has a claim, statements, files and contracts; names stand in backticks.
- Each name of a statement is defined in one of the row's files: a definition, a record, a field or a case.
- Each contract cites a name of the row in its `ensures`, or in the `ensures` that brackets after it name.
- Each name of the row is cited so by a contract, or is reached from one that is, step by step through the definitions of specs/.
- With "by `X`" before contracts they cite X, from which a name of the row is reached.
Semicolons part statements and contracts into groups that belong together, in order. In a table of two columns the head of the second one
gives record, file and contract for all rows. A file `sample/Decode` is crates/sample/specs/Decode.antt, `rfc4737/proofs/Skipped` is a file of
proofs/, and then the last cell names the files of proofs/ that cite the statement. A contract is a public function's, or one of a program.

Beside the rows: no public function has a `requires`, and no public contract reaches a definition of specs/Private."""
import glob
import re
import sys

PAGE = 'docs/THEOREMS.md'
NAME = r"[^\s(){}\[\];,.:\"]+"
wrong = []
rows = 0


def read(path):
    with open(path, encoding='utf-8') as file:
        return file.read()


def words(text):
    return set(re.findall(NAME, text))


# ---- the definitions of a file of specs/ or proofs/: each name with the text that defines it; and what the file imports


class Module:
    def __init__(self, path):
        self.texts, self.uses = {}, {}
        self.crate, self.place = re.match(r'crates/(\w+)/(.*)\.antt$', path).groups()
        held, record, field = None, None, None
        for line in read(path).split('\n'):
            if line.strip().startswith('--'):
                continue
            use = re.match(r'(?:unfoldable |abbrev |pub )*use Rattle\.(\w+)\.(specs|proofs)\.([\w.-]+?)(?:\.\{(.*)\}| as (\S+))?$', line)
            if use:
                for item in (use.group(4) or '').split(','):
                    first, _, last = item.strip().partition(' as ')
                    self.uses[last or first] = (use.group(1), use.group(2) + '/' + use.group(3).replace('.', '/'), first)
                continue
            indent = len(line) - len(line.lstrip())
            kind = re.match(r' *(?:pub )?(record|data) (%s)' % NAME, line)
            name = re.match(r' *(?:abbrev |unfoldable |pub )*(%s) :' % NAME, line)
            if kind:
                held = record = kind.group(2)
                place, field = indent, None
                self.texts[held] = ''
            elif name and record and indent == place + 2:
                field = name.group(1)
                self.texts[field] = ''
            elif name and indent <= 4 and not (held and not record and indent > place + 1 and not line.lstrip().startswith(('pub', 'abbrev', 'unfoldable'))):
                held, record, field, place = name.group(1), None, None, indent
                self.texts[held] = ''
            for holder in (held, field):
                if holder:
                    self.texts[holder] += line + '\n'


modules = {}
for path in sorted(glob.glob('crates/*/specs/**/*.antt', recursive=True) + glob.glob('crates/*/proofs/**/*.antt', recursive=True)):
    module = Module(path)
    modules[module.crate, module.place] = module


def steps(node):
    """The definitions that a definition names."""
    module = modules[node[0], node[1]]
    for word in words(module.texts[node[2]]):
        found = found_in(module, word)
        if found and found != node:
            yield found


def found_in(module, word):
    """The definition that a word means in a file: one of its own, or one that it imports, from where it is defined."""
    while word not in module.texts:
        target = module.uses.get(word)
        if not target or target[:2] not in modules:
            return None
        module, word = modules[target[:2]], target[2]
    return (module.crate, module.place, word)


def reached(nodes):
    seen, left = set(nodes), list(nodes)
    while left:
        for found in steps(left.pop()):
            if found not in seen:
                seen.add(found)
                left.append(found)
    return seen


# ---- the contracts: for each function of src/ its `ensures` by their names, '' for the first



def clauses(part, word):
    """The clauses of a function by their names, '' for none: what stands in the brackets after the word, to the one that closes them."""
    found = []
    for start in re.finditer(r'\n +%s( \w+)? \{' % word, part):
        depth, end = 1, start.end()
        while depth:
            depth += {'{': 1, '}': -1}.get(part[end], 0)
            end += 1
        found.append(((start.group(1) or '').strip(), part[start.end():end - 1]))
    return found


functions = {}
public = set()
for path in sorted(glob.glob('crates/*/src/**/*.rt', recursive=True)):
    crate, place = re.match(r'crates/(\w+)/src/(.*)\.rt$', path).groups()
    text = read(path)
    uses = {}
    for target, listed in re.findall(r'ghost use Rattle\.([\w.-]+?)\.\{(.*?)\};', text, re.S):
        where = re.match(r'(\w+)\.specs\.(.*)', target)
        for item in listed.split(',') if where else ():
            first, _, last = item.strip().partition(' as ')
            uses[last or first] = (where.group(1), 'specs/' + where.group(2).replace('.', '/'), first)
    text = '\n'.join(line for line in text.split('\n') if not line.strip().startswith('//'))
    module = [] if place in ('lib', 'main') else place.split('/')
    holder = []
    for part in re.split(r'\n(?=impl\b|(?:    )?(?:pub(?:\(crate\))? )?(?:extern "C" )?fn )', text):
        if part.startswith('impl'):
            holder = [re.match(r'impl(?:<.*?>)? (\w+)', part).group(1)]
        fn = re.match(r'( *)[\w ()"]*?\bfn (\w+)', part)
        if fn:
            ensures = {}
            for name, body in clauses(part, 'ensures'):
                nodes = [uses[word] for word in words(body) if word in uses]
                ensures[name] = {found_in(modules[node[:2]], node[2]) for node in nodes if node[:2] in modules} - {None}
            if re.match(r' *pub (?:extern "C" )?fn', part):
                if clauses(part, 'requires'):
                    wrong.append('%s: %s is public and has a requires' % (path, fn.group(2)))
                for node in reached(set().union(*ensures.values())):
                    if node[1].startswith('specs/Private'):
                        wrong.append('%s: the public contract of %s reaches %s of %s' % (path, fn.group(2), node[2], node[1]))
            whole = '::'.join([crate] + module + (holder if fn.group(1) else []) + [fn.group(2)])
            functions[whole] = ensures
            if re.match(r' *pub (?:extern "C" )?fn', part) or glob.glob('crates/%s/src/main.rt' % crate):
                public.add(whole)


def called(name, before):
    """The function that a name means: whole, by its end, or as the sibling of the one named before it."""
    found = [f for f in functions if f == name or f.endswith('::' + name)]
    if before and '::' not in name:
        sibling = before.rsplit('::', 1)[0] + '::' + name
        if sibling in functions:
            return sibling
    exact = [f for f in found if f == name]
    return exact[0] if exact else found[0] if len(found) == 1 else None


# ---- the rows


def complain(line, text):
    wrong.append('%s:%d: %s' % (PAGE, line, text))


def places_of(cell):
    """The files that a cell names."""
    found = []
    for item in re.findall(r'[a-z]\w*/[\w/]+', cell):
        crate, rest = item.split('/', 1)
        found.append((crate, rest if rest.startswith('proofs/') else 'specs/' + rest))
    return found


def ticked(cell):
    return [name for name in re.findall(r'`([^`]*)`', cell)]


def check_row(line, statement, files, carried):
    global rows
    rows += 1
    places = places_of(files)
    for place in places:
        if place not in modules:
            complain(line, 'there is no file crates/%s/%s.antt' % place)
    if not places or not ticked(statement) or not ticked(carried):
        return complain(line, 'a row needs statements, files and contracts')
    parts, carriers = statement.split(';'), carried.split(';')
    if len(parts) == 1:
        parts = parts * len(carriers)
    elif len(carriers) == 1:
        carriers = carriers * len(parts)
    if len(parts) != len(carriers):
        return complain(line, 'statements and contracts have different numbers of groups')
    for part, carrier in zip(parts, carriers):
        check_group(line, ticked(part), places, carrier)


def check_group(line, names, places, carrier):
    nodes = {}
    for name in names:
        found = [place + (name,) for place in places if place in modules and name in modules[place].texts]
        if not found:
            complain(line, '%s is not defined in %s' % (name, ', '.join('/'.join(place) for place in places)))
        nodes[name] = set(found)
    every = set().union(*nodes.values()) if nodes else set()
    if any(place[1].startswith('proofs/') for place in places):
        if not places_of(carrier):
            complain(line, 'no file of proofs/ is named that cites %s' % ', '.join(names))
        for target in places_of(carrier):
            if target not in modules:
                complain(line, 'there is no file crates/%s/%s.antt' % target)
            elif not every & set(modules[target].uses.values()):
                complain(line, '%s/%s does not cite %s' % (target + (', '.join(names),)))
        return
    cited, via, calls, before = set(), set(), [], None
    for by, name, bracket in re.findall(r'(\bby )?`([^`]*)`|\((\w+)\)', carrier):
        if by:
            via.add(name)
        elif name:
            before = called(name, before)
            if before:
                calls.append([before, None])
                if before not in public:
                    complain(line, '%s is not public' % before)
            else:
                complain(line, '%s is no function, or one of several' % name)
        else:
            for call in calls:
                call[1] = call[1] or bracket
    for function, bracket in calls:
        ensures = functions[function]
        if bracket and bracket not in ensures:
            complain(line, '%s has no ensures %s' % (function, bracket))
            continue
        told = ensures[bracket] if bracket else set().union(*ensures.values()) if ensures else set()
        through = {node for node in told if node[2] in via}
        if told & every:
            cited |= told & every
        elif through and reached(through) & every:
            cited |= reached(through) & every
        else:
            complain(line, '%s%s does not cite %s' % (function, ' (%s)' % bracket if bracket else '', ', '.join(names)))
    known = reached(cited)
    for name in names:
        if nodes[name] and not nodes[name] & known:
            complain(line, '%s is not reached from what the contracts cite' % name)


def cells(line):
    return [cell.strip() for cell in line.strip().strip('|').split('|')]


head = None
for number, line in enumerate(read(PAGE).split('\n'), 1):
    if not line.startswith('|'):
        head = None
    elif head is None:
        head = cells(line)
    elif set(line) <= set('|- '):
        continue
    elif head[-1] == 'carried by' and len(head) == 4:
        row = cells(line)
        if len(row) != 4:
            complain(number, 'the row has %d cells' % len(row))
        else:
            check_row(number, row[1], row[2], row[3])
    elif len(head) == 2 and head[1].startswith('field of '):
        whole = re.match(r'field of (`\S+`), (\S+), (.*)$', head[1])
        if not whole:
            complain(number, 'the head of the second column names no record, file and contract')
            continue
        row = cells(line)
        check_row(number, whole.group(1) + ' ' + row[1].replace(';', ','), whole.group(2), whole.group(3))
    else:
        complain(number, 'the table has another head than the others')

for text in wrong:
    print(text)
if wrong or rows == 0:
    sys.exit('THEOREMS.md: %d rows, %d points are wrong' % (rows, len(wrong)))
print('%d rows of THEOREMS.md name statements that are there and contracts that carry them' % rows)
