#!/usr/bin/env python3
"""An independent model of the whole judging of a text, written from the rules. Text on standard input, verdict line on standard output.
Stages: 2; 3-5; 6; 7 and 8; 9; 10-12; 13; 14. Items are cut by items.py."""
import sys
import items as IT
sys.setrecursionlimit(20000)

class Decline(Exception):
    def __init__(self, number, place):
        Exception.__init__(self, number, place)
        self.number = number; self.place = place

# ---------------------------------------------------------------- items to terminals
class Tok:
    __slots__ = ('term', 'place', 'norm', 'value', 'slen')
    def __init__(self, term, place, norm=None, value=None, slen=0):
        self.term = term; self.place = place; self.norm = norm; self.value = value; self.slen = slen

def toks(items):
    out = []
    for p, k, w, v in items:
        if k == 'name': out.append(Tok('name', p, w.decode().upper()))
        elif k == 'keyword': out.append(Tok(w.decode().upper(), p))
        elif k == 'integer': out.append(Tok('integer', p, value=v))
        elif k == 'string': out.append(Tok('string', p, slen=len(w) - 2))
        else: out.append(Tok(w.decode(), p))
    return out

# ---------------------------------------------------------------- modes
INT = ('INT',); BYTE = ('BYTE',)
def REF(m): return ('REF', m)
def ARR(m): return ('ARRAY', m)
def REC(n): return ('REC', n)
def simple(m): return m[0] in ('INT', 'BYTE', 'REF')

class ModeUse:
    """a mode as it stands in the text: at most one record mode's name occurs in it"""
    def __init__(self, mode, name=None, place=None, length=None):
        self.mode = mode; self.name = name; self.place = place; self.length = length

class Node:
    def __init__(self, kind, place, **kw):
        self.kind = kind; self.place = place
        self.__dict__.update(kw)

OPEN = {'(', 'BLOCK', 'IF', 'DO'}
CLOSE = {')', 'ENDBLOCK', 'END', 'REP'}
COMPARATORS = {'=', '#', '<', '<=', '>', '>=', ':=:', ':#:'}
LEVELS = [('*', ':/', 'MOD'), ('LAND',), ('LOR',), ('NEV',), ('+', '-')]   # tightest first
MONADIC = {'+', '-', 'ABS', 'NOT', 'BYTE', 'LENGTH'}
SIMPLE_FIRST = {'INT', 'BYTE', 'REF'}

class Scope:
    def __init__(self, kind): self.kind = kind; self.decls = []     # (norm, place)

class Parser:
    def __init__(self, tokens, end):
        self.t = tokens; self.i = 0; self.end = end; self.depth = 0
        self.modscope = Scope('module'); self.scopes = [self.modscope]
        self.procs = []          # per procedure: [names of parameters in order], [all names in order]
    # -- items
    def look(self): return self.t[self.i].term if self.i < len(self.t) else None
    def fail(self): raise Decline(7, self.t[self.i].place if self.i < len(self.t) else self.end)
    def take(self, *terms):
        if self.look() not in terms: self.fail()
        k = self.t[self.i]
        if k.term in OPEN:
            if self.depth == 32: raise Decline(8, k.place)
            self.depth += 1
        elif k.term in CLOSE: self.depth -= 1
        self.i += 1
        return k
    def declare(self, scope, k): scope.decls.append((k.norm, k.place))
    # -- module
    def module(self):
        out = []
        while True:
            m = self.module_item()
            if m is not None: out.append(m)
            if self.look() is None: return out
            self.take(';')
    def module_item(self):
        l = self.look()
        if l == 'EXT': return self.external()
        if l == 'MODE': return self.record_mode()
        if l == 'ENT':
            self.take('ENT')
            if self.look() == 'DATA': return self.data_brick()
            if self.look() == 'PROC': return self.procedure(True)
            self.fail()
        if l == 'DATA': return self.data_brick()
        if l == 'PROC': return self.procedure(False)
        return None
    def names(self, scope):
        out = []
        while True:
            k = self.take('name'); self.declare(scope, k); out.append(k)
            if self.look() != ',': return out
            self.take(',')
    def external(self):
        self.take('EXT')
        if self.look() == 'PROC':
            self.take('PROC'); self.take('(')
            pars = []
            if self.look() != ')':
                pars.append(self.simple_mode())
                while self.look() == ',':
                    self.take(','); pars.append(self.simple_mode())
            self.take(')')
            res = self.simple_mode() if self.look() in SIMPLE_FIRST else None
            ns = self.names(self.modscope)
            return Node('extproc', ns[0].place, pars=pars, res=res, names=ns)
        self.take('DATA')
        k = self.take('name'); self.declare(self.modscope, k)
        self.take(';')
        specs = []
        while True:
            mu = self.decl_mode()
            if mu is not None: specs.append((mu, self.names(self.modscope)))
            if self.look() != ';': break
            self.take(';')
        self.take('ENDDATA')
        return Node('extdata', k.place, specs=specs)
    def decl_mode(self):
        """the head of a declaration or specification; None for an empty one"""
        l = self.look()
        if l in SIMPLE_FIRST: return self.simple_mode()
        if l == 'ARRAY':
            self.take('ARRAY'); self.take('('); n = self.take('integer'); self.take(')')
            e = self.element_mode()
            return ModeUse(ARR(e.mode), e.name, e.place, n.value)
        if l == 'name':
            k = self.take('name')
            return ModeUse(REC(k.norm), k.norm, k.place)
        return None
    def simple_mode(self):
        k = self.take('INT', 'BYTE', 'REF')
        if k.term == 'INT': return ModeUse(INT)
        if k.term == 'BYTE': return ModeUse(BYTE)
        k = self.take('INT', 'BYTE', 'ARRAY', 'name')
        if k.term == 'INT': return ModeUse(REF(INT))
        if k.term == 'BYTE': return ModeUse(REF(BYTE))
        if k.term == 'name': return ModeUse(REF(REC(k.norm)), k.norm, k.place)
        if self.look() == '(':
            self.take('('); self.take(')')
        e = self.element_mode()
        return ModeUse(REF(ARR(e.mode)), e.name, e.place)
    def element_mode(self):
        if self.look() == 'name':
            k = self.take('name'); return ModeUse(REC(k.norm), k.norm, k.place)
        return self.simple_mode()
    def groups(self, scope):
        """group { , group }: behind a comma a name goes on with the group, a mode begins the next"""
        out = []
        while True:
            mu = self.simple_mode(); ns = []
            while True:
                k = self.take('name'); self.declare(scope, k); ns.append(k)
                if self.look() == ',':
                    self.take(',')
                    if self.look() == 'name': continue
                    break                       # simple_mode fails where neither follows
                out.append((mu, ns)); return out
            out.append((mu, ns))
    def record_mode(self):
        self.take('MODE')
        k = self.take('name'); self.declare(self.modscope, k)
        s = Scope('mode'); self.scopes.append(s)
        self.take('('); g = self.groups(s); self.take(')')
        return Node('mode', k.place, name=k.norm, groups=g, scope=s)
    def data_brick(self):
        self.take('DATA'); k = self.take('name'); self.declare(self.modscope, k); self.take(';')
        decs = []
        while True:
            mu = self.decl_mode()
            if mu is not None:
                its = [self.data_item()]
                while self.look() == ',':
                    self.take(','); its.append(self.data_item())
                decs.append((mu, its))
            if self.look() != ';': break
            self.take(';')
        self.take('ENDDATA')
        return Node('data', k.place, name=k.norm, decs=decs)
    def data_item(self):
        k = self.take('name'); self.declare(self.modscope, k); ns = [k]; v = None
        if self.look() == ':=':
            self.take(':=')
            while True:
                if self.look() == 'name':
                    k = self.take('name')
                    if self.look() == ':=':
                        self.take(':='); self.declare(self.modscope, k); ns.append(k); continue
                    v = Node('dname', k.place, name=k.norm)
                else: v = self.data_value()
                break
        return (ns, v)
    def data_value(self):
        k = self.take('+', '-', 'integer', 'name', 'string', '(')
        if k.term in ('+', '-'):
            n = self.take('integer')
            return Node('dint', k.place, sign=k.term, value=n.value)
        if k.term == 'integer': return Node('dint', k.place, sign=None, value=k.value)
        if k.term == 'name': return Node('dname', k.place, name=k.norm)
        if k.term == 'string': return Node('dstr', k.place, slen=k.slen)
        vals = []
        if self.look() != ')':
            while True:
                v = self.data_value(); rep = None
                if self.look() == '(':
                    self.take('('); rep = self.take('integer').value; self.take(')')
                vals.append((v, rep))
                if self.look() != ',': break
                self.take(',')
        self.take(')')
        return Node('dlist', k.place, vals=vals)
    def procedure(self, ent):
        self.take('PROC'); k = self.take('name'); self.declare(self.modscope, k)
        s = Scope('proc'); self.scopes.append(s)
        self.plist = []; self.llist = []
        self.take('(')
        g = []
        if self.look() != ')': g = self.groups(s)
        self.take(')')
        res = self.simple_mode() if self.look() in SIMPLE_FIRST else None
        self.take(';')
        pl = [n for mu, ns in g for n in ns]
        self.locals_of_proc = list(pl)
        b = self.body(s)
        self.take('ENDPROC')
        self.procs.append((pl, self.locals_of_proc))
        return Node('proc', k.place, name=k.norm, groups=g, res=res, body=b, ent=ent)
    # -- bodies and statements
    def body(self, scope):
        decs = []
        while self.look() in SIMPLE_FIRST:
            mu = self.simple_mode()
            its = [self.local_item(scope)]
            while self.look() == ',':
                self.take(','); its.append(self.local_item(scope))
            self.take(';')
            decs.append((mu, its))
        return Node('body', None, decs=decs, seq=self.sequence())
    def local_name(self, scope, k):
        self.declare(scope, k); self.locals_of_proc.append(k)
    def local_item(self, scope):
        k = self.take('name'); self.local_name(scope, k); ns = [k]; v = None
        if self.look() == ':=':
            self.take(':=')
            while True:
                if self.look() == 'name' and self.i + 1 < len(self.t) and self.t[self.i + 1].term == ':=':
                    k = self.take('name'); self.take(':='); self.local_name(scope, k); ns.append(k)
                else:
                    v = self.expression(); break
        return (ns, v)
    def sequence(self):
        out = [self.statement()]
        while self.look() == ';':
            self.take(';'); out.append(self.statement())
        return out
    def statement(self):
        l = self.look()
        p = self.t[self.i].place if l is not None else self.end
        if l == 'name':
            f = self.form()
            if f.kind == 'call': return Node('pstat', p, form=f)
            if self.look() == ':=': return self.assignment(p, [(False, f)])
            if f.parts and len(f.parts) == 1 and f.parts[0][0] == 'sub':
                return Node('pstat', p, form=f)
            self.fail()
        if l == 'VAL': return self.assignment(p, [])
        if l == 'RETURN':
            self.take('RETURN'); e = None
            if self.look() == '(':
                self.take('('); e = self.expression(); self.take(')')
            return Node('return', p, expr=e)
        if l == 'IF':
            self.take('IF'); arms = []; other = None
            c = self.condition(); self.take('THEN'); arms.append((c, self.sequence()))
            while self.look() == 'ELSEIF':
                self.take('ELSEIF'); c = self.condition(); self.take('THEN'); arms.append((c, self.sequence()))
            if self.look() == 'ELSE':
                self.take('ELSE'); other = self.sequence()
            self.take('END')
            return Node('if', p, arms=arms, other=other)
        if l == 'WHILE':
            self.take('WHILE'); c = self.condition(); self.take('DO'); s = self.sequence(); self.take('REP')
            return Node('while', p, cond=c, seq=s)
        if l == 'TO':
            self.take('TO'); e = self.expression(); self.take('DO')
            s = Scope('to'); self.scopes.append(s)
            b = self.body(s); self.take('REP')
            return Node('to', p, count=e, body=b)
        if l == 'BLOCK':
            self.take('BLOCK'); s = Scope('block'); self.scopes.append(s)
            b = self.body(s); self.take('ENDBLOCK')
            return Node('block', p, body=b)
        return None                              # dummy
    def variable(self):
        """behind VAL: every bracket holds exactly one expression"""
        k = self.take('name'); parts = []
        while self.look() in ('(', '.'):
            if self.look() == '(':
                b = self.take('('); e = self.expression(); self.take(')'); parts.append(('sub', b.place, e))
            else:
                self.take('.'); n = self.take('name'); parts.append(('sel', n.place, n.norm))
        return Node('form', k.place, name=k.norm, parts=parts)
    def assignment(self, p, dests):
        """dests: those before a := that is the next item; or none where VAL is the next item"""
        if not dests:
            self.take('VAL'); dests = [(True, self.variable())]
        while True:
            self.take(':=')
            if self.look() == 'VAL':
                self.take('VAL'); dests.append((True, self.variable()))
                continue                          # := is required next
            start = self.i
            e = self.expression()
            # exactly a variable: the whole expression is a form that is no call
            if e.kind == 'form' and self.look() == ':=':
                dests.append((False, e)); continue
            return Node('assign', p, dests=dests, expr=e)
    # -- conditions and expressions
    def condition(self):
        out = [self.comparison()]
        while self.look() in ('AND', 'OR'):
            self.take('AND', 'OR'); out.append(self.comparison())
        return out                                # judged in the order of the text
    def comparison(self):
        l = self.expression(); op = self.take(*COMPARATORS); r = self.expression()
        return Node('cmp', l.place, op=op.term, left=l, right=r)
    def expression(self): return self.level(len(LEVELS) - 1)
    def level(self, n):
        if n < 0: return self.term()
        l = self.level(n - 1)
        while self.look() in LEVELS[n]:
            op = self.take(*LEVELS[n]); r = self.level(n - 1)
            l = Node('dya', l.place, op=op.term, left=l, right=r)
        return l
    def term(self):
        ops = []
        while self.look() in MONADIC: ops.append(self.take(*MONADIC))
        e = self.primary()
        for op in reversed(ops): e = Node('mon', op.place, op=op.term, operand=e)
        return e
    def primary(self):
        l = self.look()
        if l == 'integer':
            k = self.take('integer'); return Node('int', k.place, value=k.value)
        if l == 'string':
            k = self.take('string'); return Node('str', k.place)
        if l == '(':
            k = self.take('('); e = self.expression(); self.take(')')
            return Node('par', k.place, inner=e)
        if l == 'name': return self.form()
        self.fail()
    def form(self):
        """a name with brackets and selectors: kind 'call' where the first bracket holds none or several expressions,
        otherwise kind 'form' with its parts"""
        k = self.take('name'); parts = []
        if self.look() == '(':
            b = self.take('(')
            if self.look() == ')':
                self.take(')'); return Node('call', k.place, name=k.norm, args=[])
            e = self.expression()
            if self.look() == ',':
                args = [e]
                while self.look() == ',':
                    self.take(','); args.append(self.expression())
                self.take(')')
                return Node('call', k.place, name=k.norm, args=args)
            self.take(')'); parts.append(('sub', b.place, e))
        while self.look() in ('(', '.'):
            if self.look() == '(':
                b = self.take('('); e = self.expression(); self.take(')'); parts.append(('sub', b.place, e))
            else:
                self.take('.'); n = self.take('name'); parts.append(('sel', n.place, n.norm))
        return Node('form', k.place, name=k.norm, parts=parts)

# ---------------------------------------------------------------- stage 9
def twice(scopes):
    best = None
    for s in scopes:
        seen = set()
        for n, p in s.decls:
            if n in seen:
                if best is None or p < best: best = p
            seen.add(n)
    if best is not None: raise Decline(9, best)

# ---------------------------------------------------------------- stages 10 to 12
class What:
    """what an expression is: cat is 'value', 'place' or 'struct'"""
    def __init__(self, cat, mode, addr=False): self.cat = cat; self.mode = mode; self.addr = addr

def can(w, want):
    m = w.mode
    if want == INT: return w.cat != 'struct' and m in (INT, BYTE, REF(INT), REF(BYTE))
    if want == BYTE: return w.cat != 'struct' and m in (BYTE, REF(BYTE))
    assert want[0] == 'REF'
    if w.cat != 'struct' and m == want: return True
    t = want[1]
    if t in (INT, BYTE): return w.cat == 'place' and w.addr and m == t
    return w.cat == 'struct' and m == t
def some_ref(w):
    """the REF mode that w gives in := : and :#: , or None"""
    if w.cat == 'struct': return REF(w.mode)
    if w.mode[0] == 'REF': return w.mode
    if w.cat == 'place' and w.addr: return REF(w.mode)
    return None
def bare(e):
    while e.kind == 'par': e = e.inner
    return e

class Checker:
    def __init__(self, mod):
        self.mod = mod; self.g = {}; self.stack = []      # stack: list of dicts of locals, innermost last
        self.limit = []                                    # per dict: locals with a number at or above it are too early
    def declare_module(self):
        g = self.g
        for m in self.mod:
            if m.kind == 'extproc':
                for n in m.names:
                    g[n.norm] = ('proc', [p.mode for p in m.pars], m.res.mode if m.res else None)
            elif m.kind == 'extdata':
                pass
            elif m.kind == 'mode':
                g[m.name] = ('recmode', [(n.norm, mu.mode) for mu, ns in m.groups for n in ns])
            elif m.kind == 'data':
                g[m.name] = ('brick',)
                for mu, its in m.decs:
                    for ns, v in its:
                        for n in ns: g[n.norm] = ('data', mu.mode, mu.length)
            elif m.kind == 'proc':
                g[m.name] = ('proc', [mu.mode for mu, ns in m.groups for n in ns], m.res.mode if m.res else None)
    def declare_extdata(self):
        for m in self.mod:
            if m.kind == 'extdata':
                for mu, ns in m.specs:
                    for n in ns: self.g[n.norm] = ('data', mu.mode, mu.length)
                # the described brick's own name is a brick
    # -- names
    def find(self, name):
        """the innermost declaration: (entry, too early)"""
        for i in range(len(self.stack) - 1, -1, -1):
            if name in self.stack[i]:
                e = self.stack[i][name]
                return e, e[2] >= self.limit[i]
        return self.g.get(name), False
    def mode_name(self, mu, hiding=None):
        """10 unless the record mode's name, looked up where it stands, is a record mode"""
        if mu.name is None: return
        if hiding is not None and mu.name in hiding: raise Decline(10, mu.place)
        e, _ = self.find(mu.name)
        if e is None or e[0] != 'recmode': raise Decline(10, mu.place)
    def components(self, rec):
        e = self.g.get(rec)
        return e[1] if e is not None and e[0] == 'recmode' else []
    def has_ref(self, mode, length):
        if mode[0] == 'REF': return True
        if mode[0] == 'REC': return any(m[0] == 'REF' for _, m in self.components(mode[1]))
        if mode[0] == 'ARRAY': return length != 0 and self.has_ref(mode[1], None)
        return False
    # -- module
    def run(self):
        self.declare_module(); self.declare_extdata()
        for m in self.mod:
            self.stack = []; self.limit = []
            getattr(self, 'm_' + m.kind)(m)
    def m_extproc(self, m):
        for p in m.pars: self.mode_name(p)
        if m.res: self.mode_name(m.res)
        pars = [p.mode for p in m.pars]; res = m.res.mode if m.res else None
        for n in m.names:
            ok = (n.norm == 'INBYTE' and pars == [] and res == INT) or (n.norm == 'OUTBYTE' and pars == [BYTE] and res is None)
            if not ok: raise Decline(10, n.place)
    def m_extdata(self, m): raise Decline(10, m.place)
    def m_mode(self, m):
        comps = {n.norm for mu, ns in m.groups for n in ns}
        for mu, ns in m.groups: self.mode_name(mu, comps)
    def m_data(self, m):
        for mu, its in m.decs:
            self.mode_name(mu)
            for ns, v in its:
                if v is None:
                    if self.has_ref(mu.mode, mu.length): raise Decline(12, ns[0].place)
                else: self.initial(v, mu.mode, mu.length)
    # initial values in a data brick; want None is no environment
    def initial(self, v, want, length=None):
        if v.kind == 'dint':
            if want is None: return
            if want == INT: return
            if want == BYTE and v.sign is None and v.value <= 255: return
            raise Decline(11, v.place)
        if v.kind == 'dstr':
            if want is None: return
            if want == REF(ARR(BYTE)): return
            if want == ARR(BYTE) and length == v.slen: return
            raise Decline(11, v.place)
        if v.kind == 'dname':
            e = self.g.get(v.name)
            if e is None or e[0] != 'data': raise Decline(10, v.place)
            if want is None: return
            if want[0] == 'REF' and e[1] == want[1]: return
            raise Decline(11, v.place)
        assert v.kind == 'dlist'
        if want is not None and want[0] == 'ARRAY':
            total = 0
            for x, rep in v.vals:
                self.initial(x, want[1]); total += 1 if rep is None else rep
            if total != length: raise Decline(11, v.place)
            return
        if want is not None and want[0] == 'REC':
            comps = self.components(want[1])
            for i, (x, rep) in enumerate(v.vals):
                self.initial(x, comps[i][1] if i < len(comps) else None)
                if rep is not None: raise Decline(11, x.place)
            if len(v.vals) != len(comps): raise Decline(11, v.place)
            return
        for x, rep in v.vals: self.initial(x, None)
        if want is not None: raise Decline(11, v.place)
    def m_proc(self, m):
        d = {}
        for mu, ns in m.groups:
            for n in ns: d[n.norm] = ('local', mu.mode, -1)
        self.enter(d, m.body)
        for mu, ns in m.groups: self.mode_name(mu)
        if m.res:
            keep = self.stack, self.limit
            self.stack, self.limit = [], []
            self.mode_name(m.res)
            self.stack, self.limit = keep
        self.result = m.res.mode if m.res else None
        self.body(m.body)
    def enter(self, d, body):
        num = 0
        for mu, its in body.decs:
            for ns, v in its:
                for n in ns: d[n.norm] = ('local', mu.mode, num)
                num += 1
        self.stack.append(d); self.limit.append(0)
    def body(self, b):
        num = 0
        for mu, its in b.decs:
            self.mode_name(mu)
            for ns, v in its:
                self.limit[-1] = num
                if v is None:
                    if mu.mode[0] == 'REF': raise Decline(12, ns[0].place)
                else: self.bring(v, mu.mode)
                num += 1
        self.limit[-1] = float('inf')
        self.sequence(b.seq)
        self.stack.pop(); self.limit.pop()
    def sequence(self, seq):
        for s in seq:
            if s is not None: getattr(self, 's_' + s.kind)(s)
    # -- statements
    def s_pstat(self, s):
        f = s.form
        e, early = self.find(f.name)
        if e is None or early or e[0] != 'proc': raise Decline(10, f.place)
        args = f.args if f.kind == 'call' else [f.parts[0][2]]
        if self.call(f.place, e, args) is not None: raise Decline(11, f.place)
    def call(self, place, e, args):
        """judges the expressions; gives the result mode or None"""
        pars = e[1]
        for i, a in enumerate(args):
            if i < len(pars): self.bring(a, pars[i])
            else: self.judge(a)
        if len(args) != len(pars): raise Decline(11, place)
        return e[2]
    def s_assign(self, s):
        modes = []
        for val, f in s.dests:
            w = self.var(f)
            if val:
                if w.cat != 'place' or w.mode not in (REF(INT), REF(BYTE)): raise Decline(11, f.place)
                modes.append(w.mode[1])
            else:
                if w.cat != 'place': raise Decline(11, f.place)
                modes.append(w.mode)
        if all(m == modes[0] for m in modes): self.bring(s.expr, modes[0])
        else:
            self.judge(s.expr); raise Decline(11, s.place)
    def s_return(self, s):
        if s.expr is None:
            if self.result is not None: raise Decline(11, s.place)
        elif self.result is None:
            self.judge(s.expr); raise Decline(11, s.place)
        else: self.bring(s.expr, self.result)
    def s_if(self, s):
        for c, q in s.arms: self.condition(c); self.sequence(q)
        if s.other is not None: self.sequence(s.other)
    def s_while(self, s): self.condition(s.cond); self.sequence(s.seq)
    def s_to(self, s): self.bring(s.count, INT); self.enter({}, s.body); self.body(s.body)
    def s_block(self, s): self.enter({}, s.body); self.body(s.body)
    def condition(self, c):
        for x in c:
            if x.op in (':=:', ':#:'):
                a = self.ref_operand(x.left); b = self.ref_operand(x.right)
                if a != b: raise Decline(11, x.place)
            elif x.op in ('=', '#'): self.plain(x.left); self.plain(x.right)
            else: self.bring(x.left, INT); self.bring(x.right, INT)
    def ref_operand(self, e):
        r = some_ref(self.judge(e))
        if r is None: raise Decline(11, bare(e).place)
        return r
    # -- expressions
    def bring(self, e, want):
        w = self.judge(e)
        if not can(w, want): raise Decline(11, bare(e).place)
    def plain(self, e):
        w = self.judge(e)
        if can(w, BYTE): return BYTE
        if can(w, INT): return INT
        raise Decline(11, bare(e).place)
    def var(self, f):
        """a form that must be a variable with its parts"""
        e, early = self.find(f.name)
        if e is None or early or e[0] not in ('data', 'local'): raise Decline(10, f.place)
        if e[0] == 'local': w = What('place', e[1], False)
        elif simple(e[1]): w = What('place', e[1], True)
        else: w = What('struct', e[1])
        for kind, place, x in f.parts:
            m = w.mode
            if w.cat == 'place' and m[0] == 'REF': m = m[1]       # the mode at hand, read once
            elif w.cat != 'struct': m = None
            if kind == 'sub':
                if m is None or m[0] != 'ARRAY': raise Decline(11, f.place)
                self.bring(x, INT)
                w = What('place', m[1], True) if simple(m[1]) else What('struct', m[1])
            else:
                if m is None or m[0] != 'REC': raise Decline(11, f.place)
                for n, cm in self.components(m[1]):
                    if n == x: w = What('place', cm, True); break
                else: raise Decline(10, place)
        return w
    def judge(self, e):
        k = e.kind
        if k == 'int': return What('value', BYTE if e.value <= 255 else INT)
        if k == 'str': return What('value', REF(ARR(BYTE)))
        if k == 'par': return self.judge(e.inner)
        if k == 'form':
            if len(e.parts) == 1 and e.parts[0][0] == 'sub':
                ent, early = self.find(e.name)
                if ent is not None and not early and ent[0] == 'proc':
                    r = self.call(e.place, ent, [e.parts[0][2]])
                    if r is None: raise Decline(11, e.place)
                    return What('value', r)
            return self.var(e)
        if k == 'call':
            ent, early = self.find(e.name)
            if ent is None or early or ent[0] != 'proc': raise Decline(10, e.place)
            r = self.call(e.place, ent, e.args)
            if r is None: raise Decline(11, e.place)
            return What('value', r)
        if k == 'mon':
            if e.op == 'LENGTH':
                w = self.judge(e.operand)
                ok = (w.cat == 'struct' and w.mode[0] == 'ARRAY') or (w.cat != 'struct' and w.mode[0] == 'REF' and w.mode[1][0] == 'ARRAY')
                if not ok: raise Decline(11, bare(e.operand).place)
                return What('value', INT)
            self.bring(e.operand, INT)
            return What('value', BYTE if e.op == 'BYTE' else INT)
        assert k == 'dya'
        if e.op in ('LAND', 'LOR', 'NEV'):
            a = self.plain(e.left); b = self.plain(e.right)
            return What('value', BYTE if a == BYTE and b == BYTE else INT)
        self.bring(e.left, INT); self.bring(e.right, INT)
        return What('value', INT)

# ---------------------------------------------------------------- stages 13 and 14
def places(chk, tokens):
    add = {}
    for m in chk.mod:
        if m.kind == 'data':
            for mu, its in m.decs:
                for ns, v in its:
                    for n in ns: add[n.place] = scalars(chk, mu.mode, mu.length)
    total = 0
    for k in tokens:
        if k.term == 'string': total += k.slen
        elif k.place in add: total += add[k.place]
        if total > 4096: raise Decline(13, k.place)
def scalars(chk, mode, length):
    if mode[0] == 'ARRAY': return length * scalars(chk, mode[1], None)
    if mode[0] == 'REC': return len(chk.components(mode[1]))
    return 1
def locals_(procs):
    best = []
    for pl, al in procs:
        if len(pl) > 8: best.append(pl[8].place)
        if len(al) > 64: best.append(al[64].place)
    if best: raise Decline(14, min(best))

# ---------------------------------------------------------------- the whole
def syntax(text):
    """('ok', parser, module, tokens) or ('decline', number, place): the stages 2 to 8"""
    r = IT.cut(text)
    if r[0] == 'decline': return r
    tk = toks(r[1])
    p = Parser(tk, len(text))
    try: m = p.module()
    except Decline as d: return ('decline', d.number, d.place)
    return ('ok', p, m, tk)
def judge(text):
    """None for an accepted text, otherwise (number, place)"""
    r = syntax(text)
    if r[0] == 'decline': return (r[1], r[2])
    _, p, m, tk = r
    try:
        twice(p.scopes)
        c = Checker(m); c.run()
        places(c, tk)
        locals_(p.procs)
    except Decline as d: return (d.number, d.place)
    return None
def line(text):
    r = judge(text)
    if r is None: return 'accepted'
    l, c = IT.lc(text, r[1])
    return '%d:%d: %d' % (l, c, r[0])
if __name__ == '__main__':
    print(line(sys.stdin.buffer.read()))
