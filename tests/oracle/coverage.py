#!/usr/bin/env python3
"""Which places of the productions are met by a decline 7 of syntax.txt: (production, place) counts as broken where the prefix test
waited there for a symbol when the item came that can follow in no module."""
import earley as E, judge as J
import gen_syntax as GS
broken = set(); passed = set()
def run(terms):
    out = E.states(terms)
    for cur, t in zip(out[:-1], terms):
        for (r, d, l, o) in cur:
            if d < len(r) and r[d] == t: passed.add((l, r, d))
    return out[-1], len(out) > len(terms)
for t, want in GS.cases:
    c = J.IT.cut(t.encode('latin-1'))
    if c[0] != 'ok': continue
    cur, ended = run([k.term for k in J.toks(c[1])])
    if want is None or want[0] != 7: continue
    for (r, d, l, o) in cur:
        if d < len(r) and isinstance(r[d], str): broken.add((l, r, d))
allp = {(l, r, d) for l, rs in E.G.rules.items() for r in rs for d in range(len(r)) if isinstance(r[d], str)}
print(len(allp), 'places of items in productions;', len(broken & allp), 'broken;', len(passed & allp), 'passed')
for x in sorted(allp - broken, key=str): print('not broken', x)
for x in sorted(allp - passed, key=str): print('not passed', x)
