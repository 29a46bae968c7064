#!/usr/bin/env python3
"""Lists the places of src/ that docs/DESIGN-PASS.md speaks of: `tools/places.py [ROOT]`, point by point, then the counts."""
import re, sys, pathlib, collections

root = pathlib.Path(sys.argv[1] if len(sys.argv) > 1 else '.')
files = sorted(root.glob('crates/*/src/**/*.rt'))
found = collections.defaultdict(list)


def note(point, path, line, what):
    found[point].append(f'{path.relative_to(root / "crates")}:{line}  {what}')


def functions(text):
    """(first line, name, head, body) of each function of a file."""
    for m in re.finditer(r'^( *)(?:pub )?(?:extern "C" )?fn (\w+)', text, re.M):
        opening = re.compile(r'^%s\{$|\{$' % m.group(1), re.M)
        end = re.compile(r'^%s\}$' % m.group(1), re.M).search(text, m.end())
        at = opening.search(text, m.end())
        if at and end:
            yield text[:m.start()].count('\n') + 1, m.group(2), text[m.start():at.start()], text[at.end():end.start()]


def shape(body):
    body = re.sub(r'//.*', '', body)
    body = re.sub(r'b?"[^"]*"|b\'[^\']*\'', 'S', body)
    return re.sub(r'\s+', ' ', re.sub(r'\b[A-Za-z_]\w*\b|\b\d+\b', lambda w: w.group() if w.group() in KEPT else 'x', body)).strip()


KEPT = {'if', 'else', 'while', 'loop', 'for', 'in', 'match', 'return', 'let', 'mut', 'as', 'break', 'continue', 'true', 'false'}
shapes = collections.defaultdict(list)
clauses = collections.defaultdict(list)
groups = collections.defaultdict(list)
for path in files:
    text = path.read_text()
    crate = path.relative_to(root / 'crates').parts[0]
    for i, line in enumerate(text.split('\n'), 1):
        code = line.split('//')[0]
        if re.match(r'\s*(pub )?enum ', code):
            note('1 enums', path, i, line.strip())
        if re.match(r'\s+(pub )?\w+: bool,?$', code):
            note('1 flags', path, i, line.strip())
        if re.search(r'io::Result<bool>', code) or re.search(r'\b(0|zeros?|nothing) (if|where) there (is|are) none|, or 0\b|and 0 (if|where|but)|or the length\b', line):
            note('1 numbers or flags for none', path, i, line.strip()[:110])
        if re.match(r'(pub )?const (NO_|TOO_|ANSWERED)', code):
            note('1 numbers or flags for none', path, i, line.strip())
        if re.match(r"\s*(let .* = )?('\w+: )?(while|loop)\b", code):
            note('3 loops that are no `for`', path, i, line.strip())
        if re.search(r'\bif (trial_lines::)?named\(|match letter\b', code):
            note('7 steps chosen by a word or letter', path, i, line.strip())
    for line, name, head, body in functions(text):
        s = shape(body)
        if len(s) > 60:
            shapes[s].append((path, line, name))
        if name in ('wide', 'copy', 'put', 'same', 'same_bytes', 'larger', 'cap', 'is_digit', 'digit', 'as_numbers', 'alone', 'named', 'byte', 'print', 'print_number', 'print_byte',
                    'print_list', 'end_line', 'number', 'numbers', 'empty', 'fill', 'append', 'widen', 'is_separator'):
            note('4 equality, copying, conversion, printing', path, line, name)
        for clause in set(re.sub(r'\s+', ' ', c).strip() for c in re.findall(r'requires(?: \w+)? \{(.*?)\}\n', head + '\n', re.S)):
            clauses[clause].append((path, line, name))
        parameters = re.findall(r'(\w+): (&?(?:mut )?[\w\[\]:; <>&]+?)(?=[,)\n])', head.split(')')[0] + ')')
        key = tuple(sorted(p[0] for p in parameters))
        for a in range(len(key)):
            for b in range(a + 1, len(key)):
                for c in range(b + 1, len(key)):
                    groups[(key[a], key[b], key[c])].append((path, line, name))
        if re.search(r'\[(u8|Slot)\]', head) and re.search(r'\b(at|count|len|from|k): usize', head.split('ensures')[0]):
            note('6 a buffer with a place or a count beside it', path, line, name)
    for m in re.finditer(r'(?:pub )?struct (\w+)[^{;]*\{(.*?)\n\}', text, re.S):
        if re.search(r'\[(u8|Slot)[;\]]', m.group(2)) and re.search(r': usize', m.group(2)):
            note('6 a buffer with a place or a count beside it', path, text[:m.start()].count('\n') + 1, 'struct ' + m.group(1))
for places in shapes.values():
    if len(places) > 1:
        for path, line, name in places:
            note('2 functions of one shape', path, line, name + '  ~ ' + ', '.join(n for _, l, n in places if (l, n) != (line, name)))
for clause, places in sorted(clauses.items()):
    if len(places) >= 3:
        for path, line, name in places:
            note('5 clauses of three or more functions', path, line, f'{name}: {clause}')
for group, places in sorted(groups.items()):
    if len(places) >= 4:
        found['5 three parameters of four or more functions'].append(f'{", ".join(group)}: {len(places)} functions')
for point in sorted(found):
    print(f'## {point}')
    for place in found[point]:
        print('  ' + place)
print('## counts')
for point in sorted(found):
    print(f'  {len(found[point]):4} {point}')
