#!/usr/bin/env python3
"""Makes follow.txt: beginnings of modules, one for each different state of the prefix test, and behind a TAB all that can follow: terminals of the
grammar, and `end` where the beginning is a module. Every other item gets 7 there. The parser of judge.py is held against it with every item."""
import judge as J, earley as E, gen_syntax as GS, fuzz as F
SPELL = {'name': 'X', 'integer': '1', 'string': '"S"'}
def main():
    best = {}
    for t, want in GS.cases:
        if len(t) > 400: continue
        c = J.IT.cut(t.encode('latin-1'))
        if c[0] != 'ok': continue
        tk = J.toks(c[1]); terms = [k.term for k in tk]; words = [x[2].decode('latin-1') for x in c[1]]
        if terms.count('(') > 12 or terms.count('BLOCK') > 6: continue
        for n, cur in enumerate(E.states(terms)):
            key = frozenset((l, r, d) for (r, d, l, o) in cur)
            if key not in best or len(best[key][0]) > n:
                fol = {r[d] for (r, d, l, o) in cur if d < len(r) and isinstance(r[d], str)}
                end = any(l == 'module' and d == len(r) and o == 0 for (r, d, l, o) in cur)
                best[key] = (words[:n], fol, end)
    rows = sorted(best.values(), key=lambda x: (len(x[0]), x[0])); bad = 0; pairs = 0
    for words, fol, end in rows:
        b = ' '.join(words); p = len(b) + 1 if b else 0
        r = J.syntax(b.encode()); assert (r[0] == 'ok') == end and (end or r[1:] == (7, len(b))), b
        for x in F.ALL:
            y = (b + ' ' if b else '') + SPELL.get(x, x)
            r = J.syntax(y.encode()); pairs += 1
            seven = r[0] == 'decline' and r[1:] == (7, p)
            if seven == (x in fol): bad += 1; print('DIFF', y, r, x in fol)
    with open('follow.txt', 'w') as f:
        for words, fol, end in rows: f.write(' '.join(words) + '\t' + ' '.join((['end'] if end else []) + sorted(fol)) + '\n')
    print(len(rows), 'beginnings,', pairs, 'pairs of beginning and next item,', bad, 'differences')
if __name__ == '__main__': main()
