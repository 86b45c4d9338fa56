#!/usr/bin/env python3
"""lesson_lines.py SEED LINES [long [PROGRAM]]: random script lines, well formed and not; the program's `bad line` answers must be
those of this reading of LESSON-FORMAT.md. `long` adds lines around 128 KiB and long chains. PROGRAM is
target/bin/lesson, which `tools/build.sh lesson` makes, if it is not named."""
import random,sys,re,subprocess
NONE=2**32-1
def num(w,mx=NONE):
    if not re.fullmatch(rb'[0-9]+',w): return None
    v=int(w); return v if v<=mx else None
AR={b'reset':0,b'put':5,b'retire':2,b'flags':5,b'island':2,b'ensure':2,b'remove':2,b'contact':5,b'uncontact':1,b'renumber':2,b'resolve':0,b'split':1,b'maybid':1,b'schedule':1,b'run':0,b'begin':0,b'observe':2,b'sleep':1,b'wake':1,b'dump':0}
DONE={b'reset',b'put',b'retire',b'flags',b'ensure',b'remove'}
def ref(line):
    if line==b'' or line.startswith(b'#') and len(line)<=131072: return None
    if len(line)>131072: return 'bad'
    w=line.split(b' ')
    n=w[0]; r=w[1:]
    if n in AR:
        v=[num(x) for x in r]
        if None in v or len(v)!=AR[n]: return 'bad'
        if n in (b'put',b'flags') and max(v[2:])>1: return 'bad'
        if n==b'observe' and v[1]>1: return 'bad'
        if n==b'island': return 'island'
        if n==b'dump': return 'dump'
        return 'ok' if n in DONE else 'notyet'
    if n==b'finish':
        v=[num(x) for x in r]
        if None in v or len(v)>1 or (v and v[0]>4096): return 'bad'
        return 'notyet'
    if n in (b'joint',b'unjoint'):
        if not r: return 'bad'
        k=4 if n==b'joint' else 0
        if r[0]==b'i':
            v=[num(x) for x in r[1:]]
            return 'notyet' if None not in v and len(v)==2+k else 'bad'
        if r[0]==b'c':
            if len(r)<2 or num(r[1],2**64-1) is None: return 'bad'
            v=[num(x) for x in r[2:]]
            return 'notyet' if None not in v and len(v)==1+k else 'bad'
        return 'bad'
    if n==b'chain':
        if len(r)<2 or num(r[0],2**64-1) is None: return 'bad'
        v=[num(x) for x in r[1:]]
        if None in v: return 'bad'
        return 'notyet' if len(v)==1+2*v[0] else 'bad'
    return 'bad'
DUMP='islands 0\nfree\ntracked 0\njournal\npending none\nstamp 0\nscan closed\nlowest\nend\n'
def expect(data):
    lines=data.split(b'\n')
    if lines[-1]==b'': lines.pop()
    o=[]
    for k,l in enumerate(lines,1):
        a=ref(l)
        if a is None: continue
        o.append({'bad':f'bad line {k}\n','notyet':f'not yet {k}\n','ok':'0\n','island':'0 4294967295\n','dump':DUMP}[a])
    return ''.join(o).encode()
R=random.Random(int(sys.argv[1]))
def rn(big=False):
    c=R.random()
    if c<.5: return str(R.randrange(3))
    if c<.6: return R.choice(['4294967295','4294967296','18446744073709551615','18446744073709551616','99999999999999999999','00000000000000000000000000001','0','4096','4097','18446744073709551609','1844674407370955162','18446744073709551620'])
    if c<.65: return R.choice(['-1','+1','x','','1.0','0x1',' ','\t1','1\r'])
    return str(R.randrange(2**R.choice([4,16,31,32,33,63,64,65])))
def line():
    c=R.random()
    if c<.05: return ''
    if c<.08: return '#'+rn()
    n=R.choice([x.decode() for x in AR]+['finish']*3+['joint']*4+['unjoint']*4+['chain']*5)
    a=AR.get(n.encode())
    if a is not None: w=[n]+[str(R.randrange(2)) if R.random()<.8 else rn() for _ in range(a if R.random()<.8 else R.randrange(8))]
    elif n=='finish': w=[n]+[rn() for _ in range(R.randrange(3))]
    elif n in('joint','unjoint'):
        t=R.choice(['i','c','i','c','x','ic','']); k=(2 if t=='i' else 2)+(4 if n=='joint' else 0)
        if R.random()<.2: k=R.randrange(9)
        w=[n,t]+[str(R.randrange(9)) if R.random()<.9 else rn() for _ in range(k)]
    else:
        h=R.randrange(4); w=[n,rn(),str(h) if R.random()<.9 else rn()]+[str(R.randrange(9)) if R.random()<.97 else rn() for _ in range(2*h if R.random()<.9 else R.randrange(9))]
    s=' '.join(w)
    c=R.random()
    if c<.03: s=' '+s
    elif c<.06: s+=' '
    elif c<.09: s=s.replace(' ','  ',1)
    elif c<.12 and s: i=R.randrange(len(s)); s=s[:i]+R.choice('abx \r09#')+s[i+1:]
    elif c<.14 and s: i=R.randrange(len(s)); s=s[:i]+s[i+1:]
    return s
data='\n'.join(line() for _ in range(int(sys.argv[2]))).encode()
if R.random()<.5: data+=b'\n'
if len(sys.argv)>3:
    for L in (131071,131072,131073,200000,400000):
        data+=b'\n'+b'x'*L+b'\n#'+b'c'*(L-1)+b'\nreset'
    for h in (4095,4096,4097,16000,32759,32765,32766,32767,32768):
        s=b'chain 7 %d'%h+b' 1'*(2*h)
        data+=b'\n'+s
    data+=b'\nchain 7 4294967295 1 1'+b'\n#'
got=subprocess.run([sys.argv[4] if len(sys.argv)>4 else 'target/bin/lesson'],input=data,capture_output=True)
def bad(text): return [l for l in text.split(b'\n') if l.startswith(b'bad')]
e=expect(data)
g=bad(got.stdout); x=bad(e)
if g!=x or got.returncode:
    for i,(a,b) in enumerate(zip(g,x)):
        if a!=b: print('DIFF',i,a,b); 
        if a!=b: break
    k=re.findall(rb'\d+',x[i]); print(data.split(b'\n')[int(k[-1])-1][:200] if k else '', len(g),len(x)); sys.exit(1)
print('same',len(e),e.count(b'bad'),e.count(b'not yet'))
