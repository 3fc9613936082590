#!/usr/bin/env python3
"""Lists pairs of functions of crates/*/src whose bodies are alike but for names and numbers.

    python3 tools/twins.py [LEAST LIKENESS, 0.8]"""
import glob, re, sys, difflib, itertools

LEAST = float(sys.argv[1]) if len(sys.argv) > 1 else 0.8
KEEP = set('let mut if else match for in while loop return fn impl struct enum Some None Ok Err true false self as push pop iter enumerate len get'.split())

def tokens(text):
    out = []
    for t in re.findall(r"[A-Za-z_]\w*|\d[\d_]*|b?'[^']*'|b?\"[^\"]*\"|[^\sA-Za-z_0-9]", text):
        if re.match(r'[A-Za-z_]', t) and t not in KEEP:
            t = 'x'
        elif t[0].isdigit() or "'" in t or '"' in t:
            t = '0'
        out.append(t)
    return out

def functions():
    for name in sorted(glob.glob('crates/*/src/**/*.rt', recursive=True)):
        text = open(name).read()
        for m in re.finditer(r'^( *)(?:pub(?:\(crate\))? )?fn (\w+)', text, re.M):
            ind = m.group(1)
            body = re.search(r'\n' + ind + r'\{\n(.*?)\n' + ind + r'\}', text[m.start():], re.S)
            one = re.search(r'\{\n(.*?)\n' + ind + r'\}', text[m.start():], re.S)
            b = body if body and (not one or body.start() <= one.start()) else one
            if b:
                t = tokens(b.group(1))
                if len(t) > 11:
                    yield f'{name}:{text[:m.start()].count(chr(10)) + 1} {m.group(2)}', t

pairs = []
for (n, a), (m, b) in itertools.combinations(list(functions()), 2):
    if min(len(a), len(b)) / max(len(a), len(b)) < 0.7:
        continue
    r = difflib.SequenceMatcher(None, a, b, autojunk=False).ratio()
    if r >= LEAST:
        pairs.append((r, n, m))
for r, n, m in sorted(pairs, reverse=True):
    print(f'{r:.2f} {n}  {m}')
print(len(pairs), 'pairs')
