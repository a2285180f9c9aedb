#!/usr/bin/env python3
"""A second, independent test of the syntax stage: the grammar as data (grammar.txt, the EBNF of the rules, word for word) and a
generic prefix test after Earley. A list of items is the beginning of a sentence iff its last item set is not empty (all symbols of the grammar are productive)."""
import re, os
HERE = os.path.dirname(os.path.abspath(__file__))
KINDS = {'name', 'integer', 'string'}

class Grammar:
    def __init__(self, text):
        self.rules = {}          # nonterminal -> list of tuples of symbols; nonterminals are ('N', x), terminals strings
        self.fresh = 0
        defs = []
        for l in text.split('\n'):
            if not l.strip(): continue
            if l[0] != ' ':
                n, r = l.split('=', 1); defs.append([n.strip(), r])
            else: defs[-1][1] += ' ' + l.strip()
        self.names = {n for n, _ in defs}
        for n, r in defs:
            self.tk = re.findall(r'"[^"]*"|[A-Za-z_]+|[\[\]{}()|]', r); self.p = 0
            self.rules.setdefault(n, []).extend(self.alts())
            assert self.p == len(self.tk), n
        self.check()
    def new(self, alts):
        self.fresh += 1; n = '@%d' % self.fresh; self.rules[n] = alts; return ('N', n)
    def alts(self):
        out = [self.seq()]
        while self.p < len(self.tk) and self.tk[self.p] == '|':
            self.p += 1; out.append(self.seq())
        return out
    def seq(self):
        out = []
        while self.p < len(self.tk) and self.tk[self.p] not in ('|', ')', ']', '}'):
            t = self.tk[self.p]; self.p += 1
            if t in '([{' and len(t) == 1:
                a = self.alts(); close = self.tk[self.p]; self.p += 1
                assert {'(': ')', '[': ']', '{': '}'}[t] == close
                if t == '(': out.append(self.new(a))
                elif t == '[': out.append(self.new(a + [()]))
                else:
                    s = self.new([()])
                    self.rules[s[1]] = [()] + [(s,) + tuple(x) for x in a]
                    out.append(s)
            elif t[0] == '"': out.append(t[1:-1])
            elif t in self.names: out.append(('N', t))
            else:
                assert t in KINDS or t.isupper(), t
                out.append(t)
        return tuple(out)
    def check(self):
        prod = set(); ch = True
        while ch:
            ch = False
            for n, rs in self.rules.items():
                if n in prod: continue
                if any(all(isinstance(s, str) or s[1] in prod for s in r) for r in rs): prod.add(n); ch = True
        assert prod == set(self.rules)
        self.nullable = set(); ch = True
        while ch:
            ch = False
            for n, rs in self.rules.items():
                if n not in self.nullable and any(all(not isinstance(s, str) and s[1] in self.nullable for s in r) for r in rs):
                    self.nullable.add(n); ch = True
        self.terms = {s for rs in self.rules.values() for r in rs for s in r if isinstance(s, str)}

G = Grammar(open(os.path.join(HERE, 'grammar.txt')).read())

def close(sets, cur, k, waiting):
    """adds to the items cur of set k, (rhs, dot, lhs, origin), all that follow from them; waiting: nonterminal -> items of this set that wait for it"""
    seen = set(cur); i = 0; predicted = set()
    def add(it):
        if it not in seen: seen.add(it); cur.append(it)
    while i < len(cur):
        rhs, dot, lhs, org = cur[i]; i += 1
        if dot == len(rhs):
            for (r2, d2, l2, o2) in list((waiting if org == k else sets[org]).get(lhs, ())): add((r2, d2 + 1, l2, o2))
        elif isinstance(rhs[dot], tuple):
            n = rhs[dot][1]; waiting.setdefault(n, []).append((rhs, dot, lhs, org))
            if n not in predicted:
                predicted.add(n)
                for r in G.rules[n]: add((r, 0, n, k))
            if n in G.nullable: add((rhs, dot + 1, lhs, org))

def states(terms, start='module'):
    """the item set behind each number of terms, as far as a sentence begins with them"""
    sets = []; out = []; cur = [(r, 0, start, 0) for r in G.rules[start]]
    for k in range(len(terms) + 1):
        w = {}; close(sets, cur, k, w); sets.append(w); out.append(cur)
        if k == len(terms): break
        cur = [(r, d + 1, l, o) for (r, d, l, o) in cur if d < len(r) and r[d] == terms[k]]
        if not cur: break
    return out

def prefix(terms, start='module'):
    """('bad', i): no sentence begins with terms[:i+1]; ('end',): a beginning but no sentence; ('ok',)"""
    out = states(terms, start)
    if len(out) <= len(terms): return ('bad', len(out) - 1)
    if any(l == start and d == len(r) and o == 0 for (r, d, l, o) in out[-1]): return ('ok',)
    return ('end',)

OPEN = {'(', 'BLOCK', 'IF', 'DO'}; CLOSE = {')', 'ENDBLOCK', 'END', 'REP'}
def syntax(terms):
    """None, or (number, index), index len(terms) for the end"""
    r = prefix(terms)
    upto = r[1] if r[0] == 'bad' else len(terms)
    depth = 0
    for i in range(upto):
        if terms[i] in OPEN:
            depth += 1
            if depth == 33: return (8, i)
        elif terms[i] in CLOSE: depth -= 1
    if r[0] == 'bad': return (7, r[1])
    if r[0] == 'end': return (7, len(terms))
    return None
if __name__ == '__main__':
    print(len(G.rules), sorted(G.terms), sum(1 for t in G.terms if t.isupper() and t.isalpha()))
