#!/usr/bin/env python3
"""Lists the places in src/ that docs/DESIGN-PASS.md counts, point by point.

    python3 tools/places.py            the counts
    python3 tools/places.py 3          the lines of point 3
    python3 tools/places.py 3 FOLDER   those of another checkout

A line is a candidate that a reader has to judge; a form that is right as it stands is listed too.
"""
import difflib
import pathlib
import re
import sys

LINES = {
    1: {
        'an enum of our own': r'^\s*(pub(\(\w+\))? )?enum \w+',
        'a flag in a struct': r'^    (pub(\(\w+\))? )?\w+: bool,',
        'an Option of an error': r'Option<Cause>',
        'a number for a kind, a code or none': r'^(pub )?const (UNUSED|END|\w*_CODE|EMPTY_LIST|OPS): |\bcode: u8,|\bop: u8,|^\s*\[0x\w\w, .* =>|\[$',
        'a cause and its number': r'Cause::\w+ => \d+,',
        'a theorem that answers a number': r'\(\) -> u8$',
    },
    3: {
        'a loop over numbers': r'for \w+ in 0\.\.',
        'a while or loop': r'^\s*(\'\w+: )?(while|loop)\b',
        'a loop that looks for one or copies': r'for \(?\w+(, \w+\))? in (slots|bytes)',
    },
    4: {
        'an impl of a trait of std': r'^impl.* (From|TryFrom|fmt::Display|FromStr|PartialEq|Ord|Clone|Default|Debug)\b.* for ',
        'a match that hands on what it got': r'^\s*(None => None|Err\((\w+)\) => Err\(\2\)|Ok\(None\) => Ok\(None\)),',
        'a function that prints into a String': r'fn \w+.*String, (AllocError|Fail)>|^\) -> Result<String, AllocError>',
        'a conversion in a function': r'fn (slot_of|named|digit|pair|quad|cause_words|slip_words|number|is_filled|has_value|word_in|type_in)\b',
        'a type without PartialEq': r'#\[derive\((Clone, Copy|Drop)\)\]',
        'a test of equality by matches!': r'matches!\(',
    },
    6: {
        'an array in a struct': r'^    (pub(\(\w+\))? )?\w+: \[.*; \w+\],',
        'a slice that is held': r"^    (pub(\(\w+\))? )?\w+: &'a (mut )?\[",
    },
    7: {
        'a match over kinds': r'^\s*match (step|record|next|self|op|Verb::named.*) \{$',
    },
}

FACTS = ['Sized', 'PoolOk', 'ListOk', 'QuotaOk', 'Meaning.ok', 'InService', 'WellKept', 'Grown', 'balance_limit',
         'capacity_of S.Meaning self.new ≡', 'self.new.store ≡ self.old.store', '< slot_count']


def files(top):
    return sorted(p for p in (top / 'crates').glob('*/src/**/*.rt'))


def functions(path):
    """Name, contract and body of each function of a file that has a body; a law's is empty."""
    text = path.read_text()
    for m in re.finditer(r'^( *)(?:pub(?:\(\w+\))? )?fn (\w+)', text, re.M):
        end = re.compile(r'^%s(\}|\{\})$|^%s    fn |^ {0,%d}(ensures|requires).*;$' % (m.group(1), m.group(1)[4:], len(m.group(1)) + 4), re.M)
        stop = end.search(text, m.end())
        if stop is None or stop.group(1) is None:
            continue
        whole = text[m.start():stop.end()]
        opening = re.search(r'^%s\{|\{$' % m.group(1), whole, re.M)
        if opening:
            yield m.group(2), whole[:opening.start()], whole[opening.start():]


def shape(body):
    """The body's tokens, where names and literals are told by the order in which they come."""
    seen = {}
    out = []
    for token in re.findall(r'"[^"]*"|\w+|\S', re.sub(r'//.*', '', body)):
        if re.match(r'\w|"', token) and token not in ('let', 'if', 'else', 'match', 'for', 'in', 'return', 'mut', 'self'):
            token = seen.setdefault(token, 'x%d' % len(seen))
        out.append(token)
    return out


def twins(top):
    found = []
    all_of = [(p, n, shape(b)) for p in files(top) for n, _, b in functions(p)]
    all_of = [(p, n, s) for p, n, s in all_of if len(s) >= 24]
    for i, (p, n, s) in enumerate(all_of):
        for q, o, t in all_of[i + 1:]:
            if abs(len(s) - len(t)) <= len(s) // 5:
                likeness = difflib.SequenceMatcher(None, s, t, autojunk=False).ratio()
                if likeness >= 0.85:
                    found.append('%s %s ~ %s %s (%.2f)' % (p.relative_to(top), n, q.relative_to(top), o, likeness))
    return found


def facts(top):
    found = []
    heads = [(p, n, h) for p in files(top) for n, h, _ in functions(p)]
    for fact in FACTS:
        at = [n for _, n, h in heads if any(fact in l for l in h.splitlines() if re.match(r'\s*(requires|ensures)', l))]
        if len(at) >= 3:
            found.append('%s in the contracts of %d: %s' % (fact, len(at), ', '.join(at)))
    groups = {}
    for p, n, h in heads:
        names = re.findall(r'(\w+): (&?(?:mut )?\w+)', h.split(')')[0])
        for a in range(len(names)):
            for b in range(a + 1, len(names)):
                groups.setdefault((p.parts[-3], names[a], names[b]), []).append(n)
    for (crate, a, b), at in sorted(groups.items()):
        if len(at) >= 3 and '_tests' not in crate:
            found.append('%s: %s and %s in %d: %s' % (crate, ': '.join(a), ': '.join(b), len(at), ', '.join(at)))
    return found


def lines(top, point):
    found = []
    for label, pattern in LINES[point].items():
        for p in files(top):
            for k, line in enumerate(p.read_text().splitlines(), 1):
                if re.search(pattern, line) and not line.lstrip().startswith('//'):
                    found.append('%s: %s:%d: %s' % (label, p.relative_to(top), k, line.strip()))
    return found


def proofs(top):
    return ['%s: %d' % (c.name, sum(1 for _ in c.glob('proofs/**/*.antt'))) for c in sorted((top / 'crates').iterdir())
            if (c / 'proofs').is_dir()]


def main():
    top = pathlib.Path(sys.argv[2] if len(sys.argv) > 2 else '.')
    tell = {2: twins, 5: facts, 8: proofs}
    points = [int(sys.argv[1])] if len(sys.argv) > 1 else range(1, 9)
    for point in points:
        found = tell[point](top) if point in tell else lines(top, point)
        print('point %d: %d' % (point, len(found)))
        if len(points) == 1:
            print('\n'.join(found))


main()
