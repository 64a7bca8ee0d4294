#!/usr/bin/env python3
"""Compares the examples of docs/USING.md with the proved tests that they are taken from: what stands between `// page` and `// end` in a crate of tests.
Prints where they differ."""
import re
import sys
import textwrap
from pathlib import Path

TOP = Path(__file__).resolve().parent.parent
PAGE = TOP / 'docs/USING.md'


def pieces(path, pattern):
    return [textwrap.dedent(found).strip() for found in re.findall(pattern, path.read_text(), re.S | re.M)]


shown = pieces(PAGE, r'^```rust\n(.*?)^```')
tested = {piece: path.relative_to(TOP) for path in sorted(TOP.glob('crates/*/src/**/*.rt')) for piece in pieces(path, r'^ *// page\n(.*?)^ *// end\n')}
wrong = [f'docs/USING.md has, and no test:\n{piece}' for piece in shown if piece not in tested]
wrong += [f'{path} has, and docs/USING.md has not:\n{piece}' for piece, path in tested.items() if piece not in shown]
print('\n'.join(wrong), end='\n' if wrong else '')
sys.exit(bool(wrong))
