#!/usr/bin/env python3
"""Makes verdicts.txt from the hand-written cases and holds each expectation against the oracle."""
import re, sys
import cases_verdicts as V, judge as J
from gen_syntax import unesc, esc
cases = []
def expand(t):
    t = re.sub(r'\$([NRAMF])', lambda m: V.PRE[m.group(1)], t)
    t = t.replace('{', 'PROC P (); ').replace('}', ' ENDPROC')
    return unesc(t)
for l in V.C.split('\n'):
    if not l.strip(): continue
    f = l.split('||'); assert len(f) == 3, l
    t = f[0][:-1] if f[0].endswith(' ') else f[0]
    n = int(f[1]) if f[1].strip() else 0
    cases.append((expand(t), n, f[2].strip()))
cases += V.L
seen = {}; out = []; long = []; bad = 0; count = {}
for t, n, why in cases:
    assert t.count('@') == (1 if n else 0), (t[:200], n)
    assert why and '\t' not in t
    if n:
        p = t.index('@'); t = t[:p] + t[p+1:]
        b = t.encode('latin-1'); l, c = J.IT.lc(b, p); want = '%d:%d: %d' % (l, c, n)
    else: b = t.encode('latin-1'); want = 'accepted'
    got = J.line(b)
    if got != want: bad += 1; print('EXPECTED', want, 'GOT', got, repr(t[:300]), why)
    if t in seen: print('twice:', repr(t[:200])); continue
    seen[t] = 1
    (out if len(t) < 3000 else long).append('%s\t%s\t%s' % (esc(t), want, why)); count[n] = count.get(n, 0) + 1
if __name__ == '__main__' and not bad:
    open('verdicts.txt', 'w').write('\n'.join(out) + '\n')
    open('verdicts_long.txt', 'w').write('\n'.join(long) + '\n')
print(len(out), 'cases and', len(long), 'long ones,', bad, 'differences', {k: count[k] for k in sorted(count)})
