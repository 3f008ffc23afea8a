#!/usr/bin/env python3
"""Fills the table of docs/TRUSTED.md: every file of definitions, its lines without blank lines, comments and imports, and its first words."""
import glob
import os
import re

os.chdir(os.path.join(os.path.dirname(os.path.abspath(__file__)), '..'))
rows, total = [], 0
for path in sorted(glob.glob('crates/*/specs/*.antt')):
    if path.endswith('/Lib.antt'):
        continue
    lines = open(path).read().split('\n')
    count = sum(1 for l in lines if l.strip() and not l.strip().startswith('--') and not l.startswith('use '))
    head = ' '.join(l.lstrip('- ').strip() for l in lines[:3] if l.startswith('--') and not l.startswith('--   '))
    says = re.split(r'(?<=[.:]) ', head)[0].rstrip(':.')
    rows.append('| `%s` | %d | %s |' % (path[len('crates/'):], count, says))
    total += count
table = '| File | Lines | Says |\n|---|---|---|\n' + '\n'.join(rows) + '\n| all | %d | |\n' % total
text = open('docs/TRUSTED.md').read()
text = re.sub(r'(<!-- files -->\n).*(<!-- end -->)', lambda m: m.group(1) + table + m.group(2), text, flags=re.S)
open('docs/TRUSTED.md', 'w').write(text)
print(total)
