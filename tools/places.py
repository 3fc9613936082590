#!/usr/bin/env python3
"""Lists, for each point of docs/DESIGN-PASS.md, the lines of crates/*/src that are worth a look.

    python3 tools/places.py [POINT]

A line is a candidate and not a place: the page says which of them are places."""
import glob, re, sys

FILES = sorted(glob.glob('crates/*/src/**/*.rt', recursive=True))
POINTS = {
    '1': [r'^(pub )?enum ', r'^\s+(pub )?\w+: bool,', r'\b255\b', r'&mut self.*-> bool', r'\bor 0\b|\b0 (for|where) ',
          r'else \{$', r'Err\(\w+\) => (return )?(Err|None)', r'None => (return )?(None|Err)', r'=> Some\(\w+\),$'],
    '3': [r'\bwhile\b', r'\bloop \{', r'for \w+ in [^{]*\.\.', r'\.enumerate\(\)', r'\[\w+\] = ', r'^\s+(\w|\.)+ [-+]= 1;'],
    '4': [r'impl (Partial)?(Eq|Ord)\b', r'fn (is_)?(same|equal|are_equal|eq|is|is_kind|is_word)\b', r'fn \w+_(word|words|named|of|text)\(', r' as u(8|16|32|64)\b| as usize\b',
          r'impl From', r'Display for'],
    '5': [r'^\s+(pub )?fn .*\(.*,.*,.*,.*,', r'^\s+(cells|count|trace|steps|list|found|marks): &'],
    '6': [r'^\s+(pub )?\w+: \[.*; \w+\],', r'= \[.*; \d+\]', r'Option<u16>,$'],
    '7': [r'\bmatch self \{', r'fn\(', r'dyn ', r'impl Fn', r'Fn(Mut|Once)?\('],
}

def main():
    wanted = sys.argv[1:] or sorted(POINTS)
    for point in wanted:
        hits = []
        for name in FILES:
            for number, line in enumerate(open(name), 1):
                if line.lstrip().startswith(('//', 'ghost')) and point != '1':
                    continue
                if any(re.search(p, line) for p in POINTS[point]):
                    hits.append(f'{name}:{number}: {line.strip()}')
        print(f'point {point}: {len(hits)} lines')
        if len(sys.argv) > 1:
            print('\n'.join(hits))

main()
