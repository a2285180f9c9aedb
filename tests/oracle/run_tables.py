#!/usr/bin/env python3
"""Holds a program against the tables: run_tables.py PROGRAM. PROGRAM reads a text on standard input and prints the verdict line.
Without PROGRAM the oracle itself is tried (in this process)."""
import sys, os, subprocess
H = os.path.dirname(os.path.abspath(__file__)); sys.path.insert(0, H)
import judge as J
def unesc(s):
    out = []; i = 0
    while i < len(s):
        if s[i] == '\\': out.append({'n': '\n', '\\': '\\'}[s[i+1]]); i += 2
        else: out.append(s[i]); i += 1
    return ''.join(out).encode('latin-1')
def ask(b):
    if len(sys.argv) < 2: return J.line(b)
    return subprocess.run([sys.argv[1]], input=b, capture_output=True).stdout.decode('latin-1').rstrip('\n')
n = bad = 0
def hold(b, ok, what):
    global n, bad
    n += 1
    got = ask(b)
    if not ok(got):
        bad += 1; print('DIFF', repr(b[:200]), 'got', got, 'expected', what)
for f in ('verdicts.txt', 'verdicts_long.txt'):
    for l in open(os.path.join(H, f)).read().split('\n')[:-1]:
        t, v, why = l.split('\t'); hold(unesc(t), lambda g: g == v, v + ' (' + why + ')')
for l in open(os.path.join(H, 'syntax.txt')).read().split('\n')[:-1]:
    t, v = l.split('\t'); b = unesc(t)
    if v == 'ok': hold(b, lambda g: g == 'accepted' or int(g.split()[1]) > 8, 'none of 2 to 8')
    else:
        p, k = v.split(); a, c = J.IT.lc(b, int(p)); w = '%d:%d: %s' % (a, c, k); hold(b, lambda g: g == w, w)
print(n, 'cases,', bad, 'differences')
