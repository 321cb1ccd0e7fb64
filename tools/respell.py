#!/usr/bin/env python3
"""Respells the repository's own definitions and lemmas as today's Rattle spells them: snake case for what computes or is proved,
upper camel case for types and modules. Run once at the top, right after the kit's port.py. Code, strings, inputs and exported C
names keep their names: only ghost names are listed here, and none of them is a word of the code.

The names that code spells alike (`num_sets`, `reason_of_rest`, ..) are definitions that mirror those functions, and stand in
modules of specs/."""
import glob
import re
import sys

DEFINITIONS = """
powerOfTwo setBytes numSets reasonOfRest reasonOfSets reasonOf isValid geometryWithin cyclesWithin policiesWithin withinLimits
addrOffset addrIndex addrTag lineBase searchCycles transferCycles
Lru Mru Fifo Random Lfu Clock WriteThrough WriteBack WriteAllocate NoWriteAllocate NonInclusive Inclusive Exclusive
maxLineSize maxWays maxLines maxCycles maxRam reachOf refusedLoad
""".split()
LEMMAS = """
ceiling-exact ceiling-more quotient-less by-halves product-by-halves over-64 not-over-64 lines-le width-none
three-ways-sets three-sets lines-256 lines-512 lines-512-valid
""".split()
# a namespace is a module, and no middle dot in a name
PLAIN = {'none as Config·none': 'none', 'Config·none': 'none'}


def snake(name):
    return re.sub(r'(?<=[a-z0-9])([A-Z])', r'_\1', name).lower().replace('-', '_')


def respelled(text, names):
    """The text with the names changed, but in comments, which speak of the Rust's words."""
    lines = text.split('\n')
    for i, line in enumerate(lines):
        code, dash, comment = line.partition('-- ')
        for old, new in names.items():
            code = re.sub(r"(?<![\w·'-])" + re.escape(old) + r"(?![\w·'-])", new, code)
        lines[i] = code + dash + comment
    return '\n'.join(lines)


antt = [f for part in ('specs', 'proofs') for f in sorted(glob.glob('crates/*/%s/**/*.antt' % part, recursive=True))]
names = {name: snake(name) for name in DEFINITIONS + LEMMAS}
before = '\n'.join(open(f).read() for f in antt)
for old, new in names.items():
    if re.search(r'(?m)^\s*(?:abbrev |unfoldable )?(?:pub )?' + re.escape(new) + r' :', before):
        sys.exit('%s and %s fall together' % (old, new))

for f in antt:
    text = respelled(open(f).read(), names)
    # the proof of a function f is f_spec
    text = re.sub(r'(?<![\w·\'-])([a-z0-9-]+)-spec(?![\w·\'-])', lambda m: snake(m[1]) + '_spec', text)
    open(f, 'w').write(text)

ghosts = {name: names[name] for name in DEFINITIONS}
clause = re.compile(r'(?ms)^ghost use .*?;$|^\s*(?:requires|ensures)\b.*?(?=^\s*(?:requires|ensures)\b|^\s*\{$)')
for f in sorted(glob.glob('crates/*/src/*.rt')):
    text = open(f).read()
    text = clause.sub(lambda m: respelled(respelled(m[0], PLAIN), ghosts), text)
    open(f, 'w').write(text)
