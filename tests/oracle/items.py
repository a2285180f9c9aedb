#!/usr/bin/env python3
"""An independent model of the item rules, by brute force from their wording: at a place the longest part that is an item;
where there is none, the end of the longest part that some item begins with.
Use: items.py < TEXT; items.py table < TABLE, for the program `items_table`; items.py PROGRAM COUNT SEED, to compare a built `items` on random texts."""
import random, re, subprocess, sys
KW="ABS AND ARRAY BIN BLOCK BY BYTE CODE DATA DO ELSE ELSEIF END ENDBLOCK ENDDATA ENDPROC ENT EXT FOR FRAC GOTO HEX IF INT LABEL LAND LENGTH LET LOR MOD MODE NEV NOT OCT OF OPTION OR PROC REAL REF REP RETURN RTL SHA SHL SLA SLL SRA SRL STACK SVC SWITCH THEN TITLE TO VAL WHILE".split()
assert len(KW)==57
SC=rb'[ !%-~]'   # string characters: 32..126 but 34 35 36
full={
 'name':re.compile(rb'[A-Za-z][A-Za-z0-9_]*\Z'),
 'dec':re.compile(rb'[0-9]+\Z'),
 'bin':re.compile(rb'[Bb][Ii][Nn] +[01]+\Z'),
 'oct':re.compile(rb'[Oo][Cc][Tt] +[0-7]+\Z'),
 'hex':re.compile(rb'[Hh][Ee][Xx] +[0-9A-F]+\Z'),
 'quo':re.compile(rb"'"+SC+rb"'\Z"),
 'str':re.compile(rb'"'+SC+rb'*"\Z'),
 'com':re.compile(rb'%[\t -$&-~]*%\Z'),
}
SEPS=[b':=',b':/',b'//',b'<=',b'>=',b':=:',b':#:']+[bytes([c]) for c in b'()*+-,./:;<=>#']
def item(w):
    for k,r in full.items():
        if r.match(w): return k
    return 'sep' if w in SEPS else None
pre=[re.compile(x+rb'\Z') for x in (rb'[A-Za-z][A-Za-z0-9_]*',rb'[0-9]+',rb'[Bb][Ii][Nn] +[01]*',rb'[Oo][Cc][Tt] +[0-7]*',rb'[Hh][Ee][Xx] +[0-9A-F]*',rb"'",rb"'"+SC,rb"'"+SC+rb"'",rb'"'+SC+rb'*"?',rb'%[\t -$&-~]*%?')]
def begins(w):
    return w==b'' or any(r.match(w) for r in pre) or any(s.startswith(w) for s in SEPS)
def value(k,w):
    if k=='dec': return int(w.lstrip(b'0')[:9] or b'0')
    if k=='quo': return w[1]
    return int(w[3:].strip(),{'bin':2,'oct':8,'hex':16}[k])
def cut(t):
    if len(t)>32768: return ('decline',2,32768)
    p=0; out=[]; n=len(t)
    while p<n:
        if t[p] in (9,10,32): p+=1; continue
        best=None; q=p
        e=p+1
        # all fronts: items and beginnings are closed under fronts for `begins`
        while e<=n and begins(t[p:e]):
            q=e
            k=item(t[p:e])
            if k: best=(k,e)
            e+=1
        if best is None:
            return ('decline',4,p) if q==n else ('decline',3,q)
        k,e=best; w=t[p:e]
        if k in('dec','bin','oct','hex','quo'):
            v=value(k,w)
            if v>32767: return ('decline',5,p)
            out.append((p,'integer',w,v))
        elif k=='com': pass
        elif k=='name': out.append((p,'keyword' if w.decode().upper() in KW else 'name',w,None))
        elif k=='str': out.append((p,'string',w,None))
        else: out.append((p,'separator',w,None))
        p=e
    if len(out)>4096: return ('decline',6,out[4096][0])
    return ('ok',out)
def lc(t,p):
    a=t[:p]; l=a.count(b'\n')+1
    i=a.rfind(b'\n'); return l,p-i
def show(t):
    r=cut(t)
    if r[0]=='decline':
        l,c=lc(t,r[2]); return b'%d:%d: %d\n'%(l,c,r[1])
    o=b''
    for p,k,w,v in r[1]:
        l,c=lc(t,p); o+=b'%d:%d: %s %s'%(l,c,k.encode(),w)+(b' = %d'%v if v is not None else b'')+b'\n'
    return o
def table_line(line):
    """what the program `items_table` prints for a line of its table"""
    count,_,text=line.partition(b' ')
    esc={b'n':b'\n',b't':b'\t',b'0':b'\0',b'd':b'\x7f',b'e':b'\xe9'}
    t=re.sub(rb'\\(.)',lambda m:esc.get(m[1],m[1]),text)*int(count)
    r=cut(t)
    if r[0]=='decline': return line+b' => '+show(t)
    if len(r[1])>8: return line+b' => %d items\n'%len(r[1])
    return line+b' =>'+b''.join(b' | %s %s'%(k.encode(),w)+(b' = %d'%v if v is not None else b'') for p,k,w,v in r[1])+b'\n'
FRAGMENTS=[b'HEX ',b'hex ',b'Bin ',b'OCT  ',b'BIN',b'1',b'0',b'7',b'9',b'A',b'F',b'f',b'_',b' ',b'\n',b'\t',b"'",b'"',b'%',b':=',b':',b'=',b'#',b':#:',b':/',b'//',b'/',b'<',b'>=',b';',b'(',b')',b'.',b',',b'+',b'-',b'*',b'PROC',b'endproc',b'While',b'x1_2',b'32767',b'32768',b'00032767',b'HEX 7FFF',b'HEX 8000',b'BIN 1000000000000000',b'$',b'!',b'\x7f',b'\x80',b'\r',b'\x00',b"'A'",b"'''",b'"abc"',b'%c%',b'%a\nb%']
def compare(program,count,seed):
    """a built program `items` against the model on random texts"""
    rng=random.Random(seed)
    for _ in range(count):
        t=b''.join(rng.choice(FRAGMENTS) if rng.random()<.93 else bytes([rng.randrange(256)]) for _ in range(rng.randint(0,14)))
        got=subprocess.run([program],input=t,stdout=subprocess.PIPE).stdout
        if got!=show(t): sys.exit('differs on %r: %r, expected %r'%(t,got,show(t)))
    print('%d texts agree'%count)
if __name__=='__main__':
    if sys.argv[1:]==['table']:
        for line in sys.stdin.buffer.read().splitlines(): sys.stdout.buffer.write(table_line(line))
    elif len(sys.argv)==4: compare(sys.argv[1],int(sys.argv[2]),int(sys.argv[3]))
    else: sys.stdout.buffer.write(show(sys.stdin.buffer.read()))
