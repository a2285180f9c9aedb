import os, sys, re, types, time
HERE=os.path.dirname(os.path.abspath(__file__))
sys.path.insert(0,HERE)
import gen_verdicts as GV
src=open(os.path.join(HERE,'judge.py')).read()
cases=[(J.encode('latin-1') if False else t.replace('@','',1).encode('latin-1'), t, n) for J,t,n in [(None,t,n) for t,n,w in GV.cases if len(t)<3000]]
import judge as J0
want={b:J0.judge(b) for b,_,_ in cases}
print(len(want))
def run(s):
    m=types.ModuleType('jm'); 
    exec(compile(s,'jm','exec'),m.__dict__)
    k=0
    for b in want:
        try: r=m.judge(b)
        except Exception as e: r='crash'
        if r!=want[b]: k+=1
    return k
muts=[]
lines=src.split('\n')
a=next(i for i,l in enumerate(lines) if 'stage 9' in l); z=next(i for i,l in enumerate(lines) if '# ---' in l and 'the whole' in l)
for i in range(a,z):
    l=lines[i]
    if 'raise Decline' in l:
        muts.append((i,re.sub(r'raise Decline\([^)]*\)+','pass',l)))
    for x,y in ((' and ',' or '),(' or ',' and '),('not ',''),('==','!='),('<=','<'),(' < ',' <= '),('> ','>= '),('True','False'),('False','True'),('is None','is not None'),('.place','.place + 1'),('BYTE','INT'),('INT','BYTE')):
        if x in l and 'def ' not in l and '"""' not in l:
            muts.append((i,l.replace(x,y,1)))
print(len(muts)); t0=time.time(); surv=0
for i,n in muts:
    s='\n'.join(lines[:i]+[n]+lines[i+1:])
    try: k=run(s)
    except SyntaxError: continue
    if k==0: surv+=1; print('SURVIVES', i+1, lines[i].strip(), '=>', n.strip())
print('survivors',surv,'of',len(muts),time.time()-t0)
