#!/usr/bin/env python3
"""A second model of the stages 9 to 14, in another style: nothing stops at the first error. Every error of the whole module is collected
(a construct is a misfit only if all its parts fit), and then the earliest place is taken. judge.py instead stops at the first error met in the
order of judging. Both must agree. Modes are strings here, and what an expression is is a string too: v (value), p (place), a (place with an
address) or s (structure), then the mode. Shares only the parser with judge.py."""
import judge as J
PLAIN = ('INT', 'BYTE')
def ms(m): return m[0] if len(m) == 1 else '%' + m[1] if m[0] == 'REC' else m[0] + ' ' + ms(m[1])
def fits(d, want):
    c, m = d.split(' ', 1)
    if want == 'INT': return c in 'vpa' and m in ('INT', 'BYTE', 'REF INT', 'REF BYTE')
    if want == 'BYTE': return c in 'vpa' and m in ('BYTE', 'REF BYTE')
    to = want[4:]
    if to in PLAIN: return d in ('a ' + to, 'v ' + want, 'p ' + want, 'a ' + want)
    return d in ('s ' + to, 'v ' + want, 'p ' + want, 'a ' + want)

class Model:
    def __init__(self, mod, tokens):
        self.mod = mod; self.err = []; self.tokens = tokens; self.blocks = 0
        self.nine = []; self.top = {}
        seen = set()
        def decl(tok, what):
            if tok[0] in seen: self.nine.append(tok[1])
            seen.add(tok[0]); self.top.setdefault(tok[0], what)
        for m in mod:
            if m.kind == 'extproc':
                for n in m.names: decl((n.norm, n.place), ('proc', [ms(x.mode) for x in m.pars], ms(m.res.mode) if m.res else ''))
            elif m.kind == 'extdata':
                decl((self.name_at(m.place), m.place), ('brick',))
                for mu, ns in m.specs:
                    for n in ns: decl((n.norm, n.place), ('data', ms(mu.mode), mu.length))
            elif m.kind == 'mode':
                decl((m.name, m.place), ('mode', [(n.norm, ms(mu.mode)) for mu, ns in m.groups for n in ns]))
                c = set()
                for mu, ns in m.groups:
                    for n in ns:
                        if n.norm in c: self.nine.append(n.place)
                        c.add(n.norm)
            elif m.kind == 'data':
                decl((m.name, m.place), ('brick',))
                for mu, its in m.decs:
                    for ns, v in its:
                        for n in ns: decl((n.norm, n.place), ('data', ms(mu.mode), mu.length))
            else:
                decl((m.name, m.place), ('proc', [ms(mu.mode) for mu, ns in m.groups for n in ns], ms(m.res.mode) if m.res else ''))
        self.thirteen = []; self.fourteen = []
    def name_at(self, p): return next(k.norm for k in self.tokens if k.place == p)
    def e(self, n, p): self.err.append((p, n))
    def comps(self, m):
        x = self.top.get(m[1:])
        return x[1] if x and x[0] == 'mode' else []
    # env: (names, block, now)
    def modename(self, mu, names):
        if mu.name is not None and names.get(mu.name, ('',))[0] != 'mode': self.e(10, mu.place)
    def verdict(self):
        add = []
        for m in self.mod:
            if m.kind == 'extproc':
                for x in m.pars + ([m.res] if m.res else []): self.modename(x, self.top)
                sig = ','.join(ms(x.mode) for x in m.pars) + '>' + (ms(m.res.mode) if m.res else '')
                for n in m.names:
                    if (n.norm, sig) not in (('INBYTE', '>INT'), ('OUTBYTE', 'BYTE>')): self.e(10, n.place)
            elif m.kind == 'extdata': self.e(10, m.place)
            elif m.kind == 'mode':
                hidden = dict(self.top)
                for mu, ns in m.groups:
                    for n in ns: hidden[n.norm] = ('component',)
                for mu, ns in m.groups: self.modename(mu, hidden)
            elif m.kind == 'data':
                for mu, its in m.decs:
                    self.modename(mu, self.top)
                    w = ms(mu.mode)
                    for ns, v in its:
                        for n in ns: add.append((n.place, self.size(w, mu.length)))
                        if v is not None: self.init(v, w, mu.length)
                        elif self.refs(w, mu.length): self.e(12, ns[0].place)
            else: self.proc(m)
        if self.nine: return (9, min(self.nine))
        if self.err:
            p, n = min(self.err); return (n, p)
        add += [(k.place, k.slen) for k in self.tokens if k.term == 'string']
        s = 0
        for p, n in sorted(add):
            s += n
            if s > 4096: return (13, p)
        if self.fourteen: return (14, min(self.fourteen))
        return None
    def size(self, w, length):
        if w.startswith('ARRAY '): return length * self.size(w[6:], 0)
        return len(self.comps(w)) if w[0] == '%' else 1
    def refs(self, w, length):
        if w.startswith('REF '): return True
        if w.startswith('ARRAY '): return length > 0 and self.refs(w[6:], 0)
        return w[0] == '%' and any(m.startswith('REF ') for _, m in self.comps(w))
    def init(self, v, w, length=0):
        """True if the value fits; w '' is no environment"""
        if v.kind == 'dlist':
            ok = True; n = 0
            cs = self.comps(w) if w[:1] == '%' else None
            for i, (x, rep) in enumerate(v.vals):
                if w.startswith('ARRAY '): f = self.init(x, w[6:]); n += 1 if rep is None else rep
                elif cs is not None:
                    f = self.init(x, cs[i][1] if i < len(cs) else ''); n += 1
                    if f and rep is not None: self.e(11, x.place); f = False
                else: f = self.init(x, '')
                ok = ok and f
            if not ok: return False
            right = n == length if w.startswith('ARRAY ') else n == len(cs) if cs is not None else w == ''
        elif v.kind == 'dname':
            x = self.top.get(v.name)
            if not x or x[0] != 'data': self.e(10, v.place); return False
            right = w == '' or w == 'REF ' + x[1]
        elif v.kind == 'dstr': right = w in ('', 'REF ARRAY BYTE') or (w == 'ARRAY BYTE' and v.slen == length)
        else: right = w in ('', 'INT') or (w == 'BYTE' and v.sign is None and 0 <= v.value < 256)
        if not right: self.e(11, v.place)
        return right
    # procedures
    def proc(self, m):
        names = dict(self.top); self.blocks += 1; b = self.blocks; mine = set(); self.count = 0
        for mu, ns in m.groups:
            for n in ns:
                if n.norm in mine: self.nine.append(n.place)
                mine.add(n.norm); names[n.norm] = ('local', ms(mu.mode), -1, b)
                self.count += 1
                if self.count > 8: self.fourteen.append(n.place)
        names = self.locals(m.body, names, b, mine)
        for mu, ns in m.groups: self.modename(mu, names)
        if m.res: self.modename(m.res, self.top)
        self.res = ms(m.res.mode) if m.res else ''
        self.within(m.body, names, b)
    def locals(self, body, names, b, mine):
        names = dict(names)
        for mu, its in body.decs:
            for ns, v in its:
                for n in ns:
                    if n.norm in mine: self.nine.append(n.place)
                    mine.add(n.norm); names[n.norm] = ('local', ms(mu.mode), ns[0].place, b)
                    self.count += 1
                    if self.count > 64: self.fourteen.append(n.place)
        return names
    def within(self, body, names, b):
        for mu, its in body.decs:
            self.modename(mu, names)
            for ns, v in its:
                if v is not None: self.want(v, ms(mu.mode), (names, b, ns[0].place))
                elif mu.mode[0] == 'REF': self.e(12, ns[0].place)
        for s in body.seq: self.stat(s, (names, b, 1 << 60))
    def block(self, body, env):
        self.blocks += 1; b = self.blocks
        self.within(body, self.locals(body, env[0], b, set()), b)
    def stat(self, s, env):
        if s is None: return
        k = s.kind
        if k == 'block': self.block(s.body, env)
        elif k == 'to': self.want(s.count, 'INT', env); self.block(s.body, env)
        elif k == 'while':
            self.cond(s.cond, env)
            for x in s.seq: self.stat(x, env)
        elif k == 'if':
            for c, q in s.arms:
                self.cond(c, env)
                for x in q: self.stat(x, env)
            for x in s.other or []: self.stat(x, env)
        elif k == 'return':
            if s.expr is None:
                if self.res: self.e(11, s.place)
            elif self.res: self.want(s.expr, self.res, env)
            elif self.exp(s.expr, env): self.e(11, s.place)
        elif k == 'pstat':
            f = s.form; x = self.look(f.name, f.place, env, ('proc',))
            args = f.args if f.kind == 'call' else [f.parts[0][2]]
            r = self.args(x, args, env)
            if r is not None and (len(args) != len(x[1]) or x[2]): self.e(11, f.place)
        else:
            ds = []
            for val, f in s.dests:
                d = self.variable(f, env)
                if d is None: ds.append(None); continue
                c, m = d.split(' ', 1)
                good = m in ('REF INT', 'REF BYTE') and c in 'pa' if val else c in 'pa'
                if not good: self.e(11, f.place); ds.append(None)
                else: ds.append(m[4:] if val else m)
            if None in ds: self.exp(s.expr, env)
            elif len(set(ds)) == 1: self.want(s.expr, ds[0], env)
            elif self.exp(s.expr, env): self.e(11, s.place)
    def look(self, name, place, env, classes):
        x = env[0].get(name)
        if x and x[0] == 'local' and x[3] == env[1] and x[2] >= env[2]: x = None
        if not x or x[0] not in classes: self.e(10, place); return None
        return x
    def args(self, x, args, env):
        """1 if all expressions fit, otherwise None"""
        good = x is not None
        for i, a in enumerate(args):
            if x is not None and i < len(x[1]): r = self.want(a, x[1][i], env)
            else: r = self.exp(a, env)
            good = good and bool(r)
        return 1 if good else None
    def cond(self, c, env):
        for x in c:
            ds = [self.exp(x.left, env), self.exp(x.right, env)]
            got = []
            for e, d in zip((x.left, x.right), ds):
                if d is None: got.append(None); continue
                k, m = d.split(' ', 1)
                if x.op in (':=:', ':#:'):
                    g = 'REF ' + m if k in 's' or (k == 'a' and m in PLAIN) else m if m.startswith('REF ') else None
                else: g = 'INT' if fits(d, 'INT') else None
                if g is None: self.e(11, J.bare(e).place)
                got.append(g)
            if None not in got and got[0] != got[1]: self.e(11, x.place)
    def want(self, e, w, env):
        d = self.exp(e, env)
        if d is None: return None
        if not fits(d, w): self.e(11, J.bare(e).place); return None
        return d
    def variable(self, f, env):
        x = self.look(f.name, f.place, env, ('data', 'local'))
        d = None
        if x: d = ('p ' if x[0] == 'local' else 's ' if x[1][0] == '%' or x[1].startswith('ARRAY ') else 'a ') + x[1]
        for kind, place, y in f.parts:
            m = None
            if d is not None:
                m = d[2:]
                if d[0] in 'pa': m = m[4:] if m.startswith('REF ') else None
                if m is None or not (m.startswith('ARRAY ') if kind == 'sub' else m[0] == '%'):
                    self.e(11, f.place); m = None
            d = None
            if kind == 'sub':
                i = self.want(y, 'INT', env)
                if m and i: d = ('s ' if m[6] == '%' else 'a ') + m[6:]
            elif m:
                c = [cm for n, cm in self.comps(m) if n == y]
                if c: d = 'a ' + c[0]
                else: self.e(10, place)
        return d
    def exp(self, e, env):
        k = e.kind
        if k == 'int': return 'v BYTE' if e.value < 256 else 'v INT'
        if k == 'str': return 'v REF ARRAY BYTE'
        if k == 'par': return self.exp(e.inner, env)
        if k == 'form' and len(e.parts) == 1 and e.parts[0][0] == 'sub':
            x = self.look(e.name, e.place, env, ('data', 'local', 'proc'))
            if x is None: self.exp(e.parts[0][2], env); return None
            if x[0] != 'proc': return self.variable(e, env)
            return self.callx(x, e, [e.parts[0][2]], env)
        if k == 'form': return self.variable(e, env)
        if k == 'call': return self.callx(self.look(e.name, e.place, env, ('proc',)), e, e.args, env)
        if k == 'mon':
            if e.op != 'LENGTH': return ('v BYTE' if e.op == 'BYTE' else 'v INT') if self.want(e.operand, 'INT', env) else None
            d = self.exp(e.operand, env)
            if d is None: return None
            if d.startswith('s ARRAY ') or d[2:].startswith('REF ARRAY '): return 'v INT'
            self.e(11, J.bare(e.operand).place); return None
        l = self.want(e.left, 'INT', env); r = self.want(e.right, 'INT', env)
        if not (l and r): return None
        if e.op in ('LAND', 'LOR', 'NEV') and fits(l, 'BYTE') and fits(r, 'BYTE'): return 'v BYTE'
        return 'v INT'
    def callx(self, x, e, args, env):
        if self.args(x, args, env) is None: return None
        if len(args) != len(x[1]) or not x[2]: self.e(11, e.place); return None
        return 'v ' + x[2]
def judge2(text):
    r = J.syntax(text)
    if r[0] == 'decline': return (r[1], r[2])
    return Model(r[2], r[3]).verdict()
if __name__ == '__main__':
    import sys, random, time, gen_verdicts as GV, os
    texts = [t.replace('@', '', 1) for t, n, why in GV.cases if len(t) < 3000]
    here = os.path.dirname(os.path.abspath(__file__))
    texts += [open(here + '/examples/' + f).read() for f in ('gates.rtl', 'logger.rtl')] * 5
    bad = 0
    for t, n, why in GV.cases:
        b = t.replace('@', '', 1).encode('latin-1')
        a, c = J.judge(b), judge2(b)
        if a != c: bad += 1; print('DIFF', a, c, repr(b[:300]))
    print(len(GV.cases), 'cases of the table,', bad, 'differences')
    rng = random.Random(int(sys.argv[1])); t0 = time.time(); n = bad = 0; kinds = {}
    VALUES = ['1', '256', '"ab"', "'A'", '(1)', 'BYTE 1', '- 1', 'U', '"abc"', '0']
    while time.time() - t0 < float(sys.argv[2]):
        t = rng.choice(texts).encode('latin-1'); r = J.IT.cut(t)
        if r[0] != 'ok': continue
        w = [x[2].decode('latin-1') for x in r[1]]; kd = [x[1] for x in r[1]]
        if len(w) < 4: continue
        ns = sorted({x for x, y in zip(w, kd) if y == 'name'}) + ['U']
        for _ in range(6):
            v = list(w)
            for _ in range(rng.choice((1, 1, 2, 3))):
                i = rng.randrange(len(v)); y = kd[i]; q = rng.random()
                if y == 'name': v[i] = rng.choice(ns) if q < 0.8 else rng.choice(ns) + '(1)' if q < 0.9 else rng.choice(VALUES)
                elif y in ('integer', 'string'): v[i] = rng.choice(VALUES) if q < 0.6 else rng.choice(ns) if q < 0.9 else rng.choice(ns) + '.' + rng.choice(ns)
                elif v[i].upper() in ('INT', 'BYTE'): v[i] = rng.choice(('INT', 'BYTE', 'REF INT', 'REF ARRAY BYTE', 'REF ' + rng.choice(ns)))
                elif v[i] in '+-*<>=' or v[i] in ('LAND', 'LOR', ':=:', '#', ':/'): v[i] = rng.choice(('+', '-', '*', 'LAND', 'LOR', 'NEV', 'MOD', '=', '#', '<', ':=:', ':#:'))
                elif v[i] == ':=': v[i] = rng.choice((':=', ':= VAL ' + rng.choice(ns) + ' :=', ':= ' + rng.choice(ns) + ' :='))
                elif v[i] == ';': v[i] = '; VAL' if q < 0.1 else '; ' + rng.choice(ns) + ' := ' + rng.choice(ns) + ' ;' if q < 0.5 else ';'
                elif v[i] == '(' : v[i] = '((' if q < 0.1 else '('
                elif v[i] == ',' : v[i] = ', ' + rng.choice(ns) + ',' if q < 0.5 else ','
            b = ' '.join(v).encode('latin-1')
            a = J.judge(b)
            if a and a[0] < 9: continue
            c = judge2(b); n += 1; key = a[0] if a else 'accepted'; kinds[key] = kinds.get(key, 0) + 1
            if a != c:
                bad += 1
                if bad < 8: print('DIFF', a, c, b.decode('latin-1')[:600])
    print(n, 'mutated texts with right syntax,', bad, 'differences', kinds)
