#!/usr/bin/env python3
"""Holds docs/DIFFERENCES.md beside what was run: each row D1, D2, .. of its tables has in the last two
cells, first in backticks, what the Rust and what the archive gave for the same input.

Usage: oracle/differences.py PAGE RUST ARCHIVE, the last two files with lines `D1 what`.
"""
import pathlib
import re
import sys

ROW = re.compile(r'^\| (D\d+) \|.*\| `([^`]*)`[^|]*\| `([^`]*)`[^|]*\|$', re.M)


def ran(path):
    lines = [line.split(' ', 1) for line in pathlib.Path(path).read_text().splitlines() if line.startswith('D')]
    return {name: what for name, what in lines}


def main():
    page, rust, archive = sys.argv[1:]
    text = pathlib.Path(page).read_text()
    rows = {name: (theirs, ours) for name, theirs, ours in ROW.findall(text)}
    named = set(re.findall(r'^\| (D\d+) \|', text, re.M))
    glibc = {name for name, *_ in ROW.findall(text[text.index('The Rust over glibc'):text.index('## Comments')])}
    on_x86 = 'glibc on x86_64\n' in pathlib.Path(rust).read_text()
    theirs, ours = ran(rust), ran(archive)
    wrong = [f'{name}: the page has no outcomes' for name in named - set(rows)]
    wrong += [f'{name}: run, but not on the page' for name in (set(theirs) | set(ours)) - named]
    for name, (rust_says, ours_says) in rows.items():
        if ours.get(name) != ours_says:
            wrong.append(f'{name}: the page has {ours_says} for ours, which gave {ours.get(name)}')
        if theirs.get(name) != rust_says:
            said = f'{name}: the page has {rust_says} for the Rust, which gave {theirs.get(name)}'
            if name in glibc and not on_x86:
                print(f'  {said}: its trigonometry is not glibc\'s for x86-64')
            else:
                wrong.append(said)
    for line in sorted(wrong):
        print('  DIFFERENT:', line)
    print(f'differences: {len(rows)} entries of the page run on both sides' + (': FAILED' if wrong else ''))
    sys.exit(bool(wrong) or not rows or not glibc)


if __name__ == '__main__':
    main()
