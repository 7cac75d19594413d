#!/usr/bin/env python3
"""Brings the names of this repository's definitions, lemmas and record fields to Rattle's spelling: words in snake case
(`keyLimit` to `key_limit`, `square-roots` to `square_roots`), a prime as an apostrophe. Run once at the top of a checkout,
after the toolchain's own port.py; names of the libraries, exported C names, functions and texts keep their spelling.

    python3 tools/spelling.py            renames in crates/, README.md and docs/, and prints names that would fall together
"""
import collections
import glob
import re

WORD = re.compile(r'[^\s(){}\[\];,.:`"]+')
NAME = r'[^\s(){}\[\];,.:`"]+'
LEADS = r'((?:abbrev |pub |unfoldable |unfolding )*)'

# Lemmas that would fall together with what they speak of, and a name that is a tactic's.
APART = {
    'add-all': 'add_all_lem', 'digit-sum-most': 'digit_sum_most_lem', 'factor-at': 'factor_at_lem', 'field-bits': 'field_bits_lem',
    'message-padding': 'message_padding_lem', 'message-plan': 'message_plan_lem', 'message-size': 'message_size_lem',
    'message-value': 'message_value_lem', 'message-length': 'message_length_lem', 'first_of': 'first_place', 'value-at': 'value_at_lem', 'slice-val': 'slice_value',
}
APART_IN = {
    'crates/computed/specs/ReportCases.antt': {'too_long': 'too_long_lem'},
    'crates/report/proofs/Answering.antt': {'too_long': 'too_long_lem'},
    'crates/report/proofs/put_report/Proof.antt': {'too_long': 'too_long_lem'},
}


def sources():
    found = []
    for kind in ('specs', 'proofs'):
        found += glob.glob(f'crates/*/{kind}/**/*.antt', recursive=True)
    return sorted(found)


def crates():
    return {line.split(':')[0].strip() for line in open('crates.txt') if ':' in line and not line.startswith('#')}


def spelled(name):
    """The name in snake case; a part that begins with a capital is a type's name and stays."""
    if name in APART:
        return APART[name]
    parts = []
    for part in name.replace('′', "'").replace('·', '-').split('-'):
        if re.match(r'[a-z]', part) and part != 'getD':
            part = re.sub(r'(?<=[a-z0-9])([A-Z])', lambda m: '_' + m.group(1).lower(), part)
        parts.append('get' if part == 'getD' else part)
    return '_'.join(parts)


def declared():
    """Each name that specs/ and proofs/ declare, but for the goals that a proof answers, with the files that do."""
    names, fields, libraries = collections.defaultdict(set), collections.defaultdict(set), collections.defaultdict(set)
    mine = crates()
    for path in sources():
        in_record = False
        for line in open(path):
            found = re.match(r'(?:pub )?use ([^\s{]+?)\.?\{(.*)\}', line)
            if found:
                crate = re.match(r'Rattle\.(\w+)', found.group(1))
                if not (crate and crate.group(1) in mine):
                    for item in found.group(2).split(','):
                        libraries[path].add(item.split(' as ')[-1].strip())
                continue
            if line.startswith(('--', 'use ', 'pub use ', 'unfolding', 'mod ', 'pub mod ')):
                continue
            found = re.match(LEADS + r'(record |data )(' + NAME + ')', line)
            if found:
                in_record = True
                names[found.group(3)].add(path)
                continue
            found = re.match(LEADS + r'(' + NAME + r')\s*(?:[({].*)?\s:\s(.*)', line)
            if found:
                in_record = False
                if not found.group(3).startswith('tie.'):
                    names[found.group(2)].add(path)
                continue
            found = re.match(r'\s+' + LEADS + r'(' + NAME + r')\s*(?:[({].*)?\s:\s', line)
            if found:
                (fields if in_record else names)[found.group(2)].add(path)
    return names, fields, libraries


def turned(text, renames, kept):
    """The text with each word renamed; of a word that this file takes from a library only a field of ours is."""
    def one(found):
        word = found.group(0)
        if word not in renames:
            return word
        if word in kept:
            before, after = text[:found.start()], text[found.end():]
            if not (before.endswith('.') or re.match(r' = ', after) and re.search(r'[{;]\s*$', before)):
                return word
        return renames[word]
    return WORD.sub(one, text)


def main():
    names, fields, libraries = declared()
    every = set(names) | set(fields)
    renames = {name: spelled(name) for name in every if spelled(name) != name}
    back = collections.defaultdict(set)
    for name in every:
        back[renames.get(name, name)].add(name)
    for new, olds in sorted(back.items()):
        if len(olds) > 1:
            places = [sorted((names.get(o, set()) | fields.get(o, set())))[:4] for o in sorted(olds)]
            print('falls together:', new, sorted(olds), places)
    taken = {name for found in libraries.values() for name in found}
    for old, new in sorted(renames.items()):
        if new in taken:
            print('a library has it:', old, new)
    for path in sources() + sorted(glob.glob('crates/*/src/*.rt')):
        text = open(path).read()
        here = {**renames, **APART_IN.get(path, {})}
        open(path, 'w').write(turned(text, here, libraries.get(path, set())))
    for path in sorted(glob.glob('crates/*/must-fail/*.edit')):
        text = open(path).read()
        open(path, 'w').write(turned(text, renames, set()))
    news = {}
    for name in every:
        new = renames.get(name, name)
        camel = re.sub(r'_([a-z])', lambda m: m.group(1).upper(), new)
        for old in {new.replace('_', '-'), camel, *back[new]}:
            news[old] = new
    for path in ['README.md', *sorted(glob.glob('docs/**/*.md', recursive=True))]:
        text = open(path).read()
        text = re.sub(r'`[^`\n]+`', lambda m: turned(m.group(0), {o: n for o, n in news.items() if o != n}, set()), text)
        open(path, 'w').write(text)


main()
