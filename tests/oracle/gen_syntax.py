#!/usr/bin/env python3
"""Makes syntax.txt from the hand-written cases and holds each expectation against the parser and against the prefix test."""
import cases_syntax as C, judge as J, earley as E
def unesc(s):
    out = []; i = 0
    while i < len(s):
        if s[i] == '\\': out.append({'n': '\n', '\\': '\\'}[s[i+1]]); i += 2
        else: out.append(s[i]); i += 1
    return ''.join(out)
def esc(s): return s.replace('\\', '\\\\').replace('\n', '\\n')
cases = []
def add(spec, number):
    t = unesc(spec)
    assert t.count('@') <= 1, spec
    if '@' in t:
        p = t.index('@'); t = t[:p] + t[p+1:]; cases.append((t, (number or 7, len(t.encode()) if p == len(t) else p)))
    else:
        assert not number, (spec, number)
        cases.append((t, None))
for l in C.M.split('\n')[1:-1]: add(l, 0)
for l in C.P.split('\n')[1:-1]:
    add('PROC P (); ' + l + ('ENDPROC' if l.endswith(('@', ' ')) else ' ENDPROC'), 0)
for t, n in C.S: add(t, n)
for n in range(len(C.CUT) + 1):
    f = C.CUT[:n]; depthless = ' '.join(f)
    # a front part is a module only outside every brick and description
    state = 'out'
    for x in f:
        if state == 'out' and x in ('MODE', 'EXT', 'DATA', 'ENT', 'PROC'): state = x if x != 'PROC' else 'ENT'
        elif state == 'MODE' and x == ';': state = 'out'
        elif state == 'EXT' and x == ';': state = 'out'
        elif state == 'DATA' and x == 'ENDDATA': state = 'out'
        elif state == 'ENT' and x == 'ENDPROC': state = 'out'
    ok = state == 'out' or (state == 'MODE' and f[-1] == ')') or (state == 'EXT' and f[-1] == 'OUTBYTE')
    add(depthless + ('' if ok else '@'), 0)
def main():
    seen = set(); out = []; bad = 0; count = {}
    for t, want in cases:
        if t in seen: continue
        seen.add(t)
        b = t.encode('latin-1')
        r = J.syntax(b); got = (r[1], r[2]) if r[0] == 'decline' else None
        if got != want: bad += 1; print('EXPECTED', want, 'GOT', got, repr(t[:200]))
        c = J.IT.cut(b)
        if c[0] == 'ok':
            tk = J.toks(c[1]); e = E.syntax([k.term for k in tk])
            e = None if e is None else (e[0], tk[e[1]].place if e[1] < len(tk) else len(b))
            if e != got: bad += 1; print('PREFIX TEST', e, 'PARSER', got, repr(t[:200]))
        assert '\t' not in t
        out.append('%s\t%s' % (esc(t), 'ok' if got is None else '%d %d' % (got[1], got[0])))
        count[got[0] if got else 'ok'] = count.get(got[0] if got else 'ok', 0) + 1
    if not bad: open('syntax.txt', 'w').write('\n'.join(out) + '\n')
    print(len(out), 'cases', bad, 'differences', count)
if __name__ == '__main__': main()
