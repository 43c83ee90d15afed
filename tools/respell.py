#!/usr/bin/env python3
"""Brings this repository's own names to the spelling of today's Rattle: python3 tools/respell.py at the top of a checkout.

The pairs of respell.txt beside this script are names as they were and as they are. Each is replaced where it stands as a whole
word: in contracts, specs/, proofs/ and must-fail edits, and in the documents where it stands between backticks (but in
docs/PORT.md, which tells of the old names).
"""
import os
import re
import sys

here = os.path.dirname(os.path.abspath(__file__))
with open(os.path.join(here, 'respell.txt'), encoding='utf-8') as f:
    names = dict(line.split() for line in f if line.strip() and not line.startswith('#'))

NAME = re.compile(r"(?<![\w'\-?])[^\W\d][\w'\-?]*")
CODE = re.compile(r'`[^`\n]+`')


def respelled(text):
    return NAME.sub(lambda m: names.get(m.group(0), m.group(0)), text)


def files(top, endings):
    for folder, below, found in os.walk(top):
        below[:] = [name for name in below if name != 'out']
        for name in sorted(found):
            if name.endswith(endings):
                yield os.path.join(folder, name)


def change(path, turn):
    with open(path, encoding='utf-8') as f:
        old = f.read()
    new = turn(old)
    if new != old:
        with open(path, 'w', encoding='utf-8') as f:
            f.write(new)
        return 1
    return 0


changed = sum(change(p, respelled) for p in files('crates', ('.rt', '.antt', '.edit')))
documents = [p for p in files('docs', ('.md',)) if os.path.basename(p) != 'PORT.md'] + ['README.md']
changed += sum(change(p, lambda t: CODE.sub(lambda m: respelled(m.group(0)), t)) for p in documents if os.path.exists(p))
print(f'respell: {changed} files changed', file=sys.stderr)
