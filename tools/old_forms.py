#!/usr/bin/env python3
"""Counts the older language's forms in src/, for docs/DESIGN-PASS.md: a line for each point and form, with how many places it has.

    tools/old_forms.py [-v] [DIR]

DIR is a checkout, this one where none is named. With -v each place is printed. It goes by the text: a place that it counts may be right as it
stands, and then the page or a line beside it says why.
"""
import collections
import glob
import os
import re
import sys

# A form is found line by line: its point, its name, and what a line of it looks like.
LINES = [
    ('1', 'an enum of the shape of Option or Result', r'^(pub )?enum (Answer|Met|Verdict|Extent|Opened|Written)\b'),
    ('1', 'a flag in a struct, with values beside it', r'^ +(pub )?(found|on|lies|fits|entering|told|read|failed): bool,$'),
    ('1', 'a number beside values that says whether they count', r'^ +(pub )?number: u8,'),
    ('1', 'a refusal by its number',
     r'\b(refuse|refuse_here|deny|stop|refuse_all|Faulty|Refused|NotThere)\((.*, )?[0-9]+(, |\))|number: [1-9]|(there \{ 23 \})'),
    ('1', 'a step taken apart by hand', r'let met = '),
    ('1', 'a number for a kind', r'^ +(pub )?(kind|occ|mark|typed|service|field): u(8|16|64),|^pub fn \w+\(n: u16\)|(occ|mark): u16'),
    ('1', '0 for none, as a sentence above a function says',
     r'^ *// .*(, or 0|; or 0|or 0 where|; 0 (where|for|of)|, 0 where|0 where|0 of any|0, where|0 before)'),
    ('3', 'a while or a loop', r"^ *('[a-z]+: )?(while|loop) "),
    ('3', 'an index counted by hand', r'^ +[a-z] (\+|-)= 1;'),
    ('4', 'equality by hand', r'^ *(pub )?fn (same|is_same|alike|has_key|same_short|same_mid|same_long|same_block|same_wide)\('),
    ('4', 'copying by hand', r'^ *(pub )?fn (copy|copy_in|copy_out|write|key_at|numbers_at|entries_of|four|eight|sixteen|collapse|lay_bytes)\('),
    ('4', 'the lesser or greater by hand', r'^ *(pub )?fn (least|low|most|in_one_call)\(a|fn (least|low|in_one_call)\('),
    ('4', 'a plain conversion by hand', r'^ *(pub )?fn (wide|wide_byte|broad|whole|size|one|number_of|kind_of|field_of|unit)\('),
    ('4', 'a test that answers true or false by a return', r'^ +return (true|false);$'),
    ('5', 'the TxIds\' places, a message and a version handed on together', r'places: &mut \[u32\]'),
    ('5', 'the entries, the number open and the total handed on together', r'opened: usize, total: u64|b: \[Entry; MOST\]|entries: \[Entry; (book::)?MOST\],$'),
    ('5', 'where values begin, handed on as an array', r'(starts|above): \[u32; profile::FIELDS\]'),
    ('5', 'what is kept of the items before, by magic places', r'w: &mut \[usize; 101\]'),
    ('6', 'a length that is kept beside a buffer', r'\bopened: usize|places\[0\]'),
    ('7', 'a switch on the engine', r'Engine::\w+ => '),
]


def sources(root):
    for path in sorted(glob.glob(os.path.join(root, 'crates/*/src/**/*.rt'), recursive=True)):
        with open(path, encoding='utf-8') as f:
            yield os.path.relpath(path, root), f.read().split('\n')


def functions(lines):
    """Each function's first line, name and body, without its contract and comments."""
    i = 0
    while i < len(lines):
        m = re.match(r'^( *)(pub )?fn (\w+)', lines[i])
        if not m:
            i += 1
            continue
        start, indent = i, m.group(1)
        while i < len(lines) and not re.match(r'^%s(\{|.*\{)$' % indent, lines[i]):
            i += 1
        body = []
        i += 1
        while i < len(lines) and lines[i] != indent + '}':
            if not lines[i].lstrip().startswith('//'):
                body.append(lines[i].strip())
            i += 1
        yield start + 1, m.group(3), body


def twins(root):
    """Functions of three lines or more in one crate or two, whose bodies differ in names, numbers and texts only: all but the first of each."""
    shapes = collections.defaultdict(list)
    for path, lines in sources(root):
        for at, name, body in functions(lines):
            if len(body) < 3:
                continue
            shape = re.sub(r'b?"[^"]*"', 'T', ' '.join(body))
            shape = re.sub(r'\b[a-z_][a-z_0-9]*\b(?!!)', lambda m: m.group(0) if m.group(0) in KEPT else 'x', shape)
            shape = re.sub(r'\b[0-9][0-9a-fx_]*\b', '0', shape)
            shape = re.sub(r'\b[A-Z]\w*', 'X', shape)
            shapes[shape].append('%s:%d: %s' % (path, at, name))
    for places in shapes.values():
        for place in places[1:]:
            yield '%s, as %s' % (place, places[0])


KEPT = {'if', 'else', 'while', 'for', 'in', 'let', 'mut', 'match', 'return', 'as', 'loop', 'break', 'true', 'false'}


def main():
    args = [a for a in sys.argv[1:] if a != '-v']
    if len(args) > 1 or any(a.startswith('-') for a in args):
        sys.exit(__doc__)
    root = args[0] if args else os.path.join(os.path.dirname(os.path.abspath(__file__)), '..')
    found = collections.OrderedDict(((p, n), []) for p, n, _ in LINES)
    for path, lines in sources(root):
        for i, line in enumerate(lines):
            for point, name, what in LINES:
                if re.search(what, line):
                    found[(point, name)].append('%s:%d: %s' % (path, i + 1, line.strip()))
    found[('2', 'a function whose body is another\'s but for names, numbers and texts')] = list(twins(root))
    for (point, name), places in sorted(found.items(), key=lambda x: x[0][0]):
        print('%s  %4d  %s' % (point, len(places), name))
        if '-v' in sys.argv:
            for place in places:
                print('           ' + place)


if __name__ == '__main__':
    main()
