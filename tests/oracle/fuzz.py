#!/usr/bin/env python3
"""Compares the predictive parser of judge.py with the prefix test of earley.py on random item lists: derivations of the grammar and
mutations of them (delete, duplicate, swap, replace, insert, cut off)."""
import random, sys, time
import judge as J, earley as E
ALL = sorted(E.G.terms) + ['/', '//', ':', 'FOR', 'GOTO', 'HEX', 'LET']
MINLEN = {}
def minlens():
    inf = 10**9
    for n in E.G.rules: MINLEN[n] = inf
    ch = True
    while ch:
        ch = False
        for n, rs in E.G.rules.items():
            m = min(sum(1 if isinstance(s, str) else MINLEN[s[1]] for s in r) for r in rs)
            if m < MINLEN[n]: MINLEN[n] = m; ch = True
minlens()
def derive(rng, budget, start='module'):
    out = []; stack = [('N', start)]
    while stack:
        s = stack.pop()
        if isinstance(s, str): out.append(s); continue
        rs = E.G.rules[s[1]]
        if len(out) + len(stack) > budget:
            m = min(sum(1 if isinstance(x, str) else MINLEN[x[1]] for x in r) for r in rs)
            rs = [r for r in rs if sum(1 if isinstance(x, str) else MINLEN[x[1]] for x in r) == m]
            r = rng.choice(rs)
        else:
            big = [r for r in rs if r]
            r = rng.choice(big) if big and rng.random() < 0.25 else rng.choice(rs)
        stack.extend(reversed(r))
    return out
CONTEXT = {'statement': 'PROC name ( ) ; @ ENDPROC', 'body': 'PROC name ( ) ; @ ENDPROC', 'sequence': 'PROC name ( ) ; @ ENDPROC', 'assignment': 'PROC name ( ) ; @ ENDPROC',
 'destination': 'PROC name ( ) ; @ := integer ENDPROC', 'call': 'PROC name ( ) ; @ ENDPROC', 'if': 'PROC name ( ) ; @ ENDPROC', 'while': 'PROC name ( ) ; @ ENDPROC',
 'to': 'PROC name ( ) ; @ ENDPROC', 'block': 'PROC name ( ) ; @ ENDPROC', 'return': 'PROC name ( ) ; @ ENDPROC', 'local_dec': 'PROC name ( ) ; @ ; ENDPROC',
 'local_item': 'PROC name ( ) ; INT @ ; ENDPROC', 'condition': 'PROC name ( ) ; WHILE @ DO REP ENDPROC', 'comparison': 'PROC name ( ) ; IF @ THEN END ENDPROC',
 'expression': 'PROC name ( ) ; name := @ ENDPROC', 'variable': 'PROC name ( ) ; name := @ := VAL @ := name ENDPROC', 'data_item': 'DATA name ; INT @ ENDDATA', 'list': 'DATA name ; name name := @ ENDDATA',
 'declaration': 'DATA name ; @ ; @ ENDDATA', 'external': '@', 'record_mode': '@', 'procedure': '@', 'data_brick': 'ENT @', 'specification': 'EXT DATA name ; @ ; @ ENDDATA', 'module': '@'}
def base_of(rng):
    k = rng.choice(sorted(CONTEXT)); out = []
    for x in CONTEXT[k].split():
        if x == '@': out += derive(rng, rng.choice((3, 6, 10, 15, 25, 40)), k)
        else: out.append(x)
    return out
def deep(rng):
    """a base with a depth close to 32"""
    k = rng.randrange(26, 34); head = ['PROC', 'name', '(', ')', ';']; tail = ['ENDPROC']
    for _ in range(k):
        c = rng.randrange(6)
        if c == 0: a, b = ['BLOCK'], ['ENDBLOCK']
        elif c == 1: a, b = ['IF', 'name', '=', 'integer', 'THEN'], ['END']
        elif c == 2: a, b = ['WHILE', 'name', '<', 'name', 'DO'], ['REP']
        elif c == 3: a, b = ['TO', 'name', 'DO'], ['REP']
        elif c == 4: a, b = ['IF', 'name', '=', 'name', 'THEN', ';', 'ELSE'], ['END']
        else: a, b = ['BLOCK', 'INT', 'name', ';'], ['ENDBLOCK', ';']
        head += a; tail = b + tail
    j = rng.randrange(0, 6)
    mid = ['name', ':='] + ['('] * j + derive(rng, 6, 'expression') + [')'] * j
    return head + mid + tail
def mutate(rng, t):
    t = list(t)
    for _ in range(rng.choice((1, 1, 1, 2, 3))):
        k = rng.randrange(8)
        if not t: t.append(rng.choice(ALL)); continue
        i = rng.randrange(len(t))
        if k == 0: del t[i]
        elif k == 1: t.insert(i, t[i])
        elif k == 2:
            j = rng.randrange(len(t)); t[i], t[j] = t[j], t[i]
        elif k == 3: t[i] = rng.choice(ALL)
        elif k == 4: t.insert(i, rng.choice(ALL))
        elif k == 5: t[i] = rng.choice(t)
        elif k == 6 and i + 1 < len(t): t[i], t[i+1] = t[i+1], t[i]
        elif k == 7:
            if rng.random() < 0.3: t = t[:i]
            else:
                j = min(len(t), i + rng.randrange(1, 6)); del t[i:j]
    return t
def by_parser(terms):
    tk = [J.Tok(x, i, 'N', 0, 0) for i, x in enumerate(terms)]
    p = J.Parser(tk, len(terms))
    try: p.module()
    except J.Decline as d: return (d.number, d.place)
    return None
def terms_of(text):
    r = J.IT.cut(text); assert r[0] == 'ok', r
    return [k.term for k in J.toks(r[1])]
def every_next(base):
    """at every place of a base, every item as the next one: parser against prefix test; number of pairs and of differences"""
    n = bad = 0
    for i in range(len(base) + 1):
        for x in ALL:
            t = base[:i] + [x]; a = by_parser(t)
            b = E.syntax(t); n += 1
            if a != b:
                bad += 1; print('DIFF', a, b, ' '.join(t))
    return n, bad
if __name__ == '__main__' and sys.argv[1] == 'next':
    rng = random.Random(int(sys.argv[2])); n = bad = 0; t0 = time.time(); k = 0
    for f in sys.argv[4:]:
        a, b = every_next(terms_of(open(f, 'rb').read())); n += a; bad += b
    while time.time() - t0 < float(sys.argv[3]):
        base = base_of(rng)
        if not 3 < len(base) < 40: continue
        a, b = every_next(base); n += a; bad += b; k += 1
    print(k, 'bases', n, 'next items tried', bad, 'differences'); sys.exit()
if __name__ == '__main__':
    seed = int(sys.argv[1]); secs = float(sys.argv[2]); rng = random.Random(seed)
    seeds = [terms_of(open(f, 'rb').read()) for f in sys.argv[3:]]
    n = bad = 0; kinds = {}; t0 = time.time(); lens = 0
    while time.time() - t0 < secs:
        if seeds and rng.random() < 0.3:
            s = rng.choice(seeds)
            base = s
        else: base = deep(rng) if rng.random() < 0.05 else base_of(rng)
        if len(base) > 400 or len(base) < 3: continue
        for v in range(3):
            t = base if v == 0 else mutate(rng, base)
            a = by_parser(t); b = E.syntax(t); n += 1; lens += len(t)
            key = 'ok' if a is None else (a[0], 'end' if a[1] == len(t) else 'item'); kinds[key] = kinds.get(key, 0) + 1
            if a != b:
                bad += 1
                if bad < 10: print('DIFF', a, b, ' '.join(t))
    print(n, 'cases', bad, 'differences', kinds, 'items', lens)
