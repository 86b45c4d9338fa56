#!/usr/bin/env python3
"""lesson_dump.py EXPECTED < ORACLE_OUTPUT > SCRIPT: for each dump of the oracle, `put I W 0 0 0` lines that poke word I to W, and `dump`.
For a copy of the repository in which `host_calls::put` only stores the generation at the word of the slot's number: there the dumps that
the program writes must be those of EXPECTED."""
import sys
N=4096;M=4096;E=16384;J=4096;L=8192;NONE=4294967295
members=9+5*N; mends=members+4*N; rows=9+9*N+2*M; freed=9+9*N+5*M; fends=freed+4*M
contacts=11+9*N+9*M; cends=contacts+4*E; touches=11+9*N+11*M+4*E; joints=11+9*N+11*M+8*E; jends=joints+4*J
keys=11+9*N+13*M+8*E+4*J; spare=11+9*N+13*M+8*E+12*J; journal=13+9*N+13*M+8*E+16*J
scan=13+9*N+13*M+8*E+16*J+4*L; sends=scan+4*M; fit=15+9*N+17*M+8*E+16*J+4*L; total=15+9*N+18*M+8*E+16*J+4*L
assert total==339983
def words(block):
    w=[0]*total
    def chain(base,ends,i,els):
        w[ends+2*i]=len(els); w[ends+2*i+1]=els[-1] if els else NONE
        for p,e in enumerate(els):
            w[base+4*e:base+4*e+4]=[i,p,els[p-1] if p else NONE, els[p+1] if p+1<len(els) else NONE]
    w[members:members+4*N]=[NONE]*(4*N)
    for s in range(N): w[9+5*s]=NONE
    place=0; cur=None; maxi=0; maxs=0
    for l in block:
        f=l.split(' ')
        if l.startswith('island '):
            cur=int(f[1]); maxi=max(maxi,cur+1)
            w[rows+3*cur:rows+3*cur+3]=[int(f[3]),int(f[5]),int(f[7])]
        elif l.startswith('  bodies'):
            chain(members,mends,cur,[int(x.split(':')[0]) for x in f[3:]])
        elif l.startswith('  contacts'):
            els=[]
            for x in f[3:]:
                v=list(map(int,x.split(':'))); els.append(v[0]); w[touches+4*v[0]:touches+4*v[0]+4]=v[1:]
            chain(contacts,cends,cur,els)
        elif l.startswith('  joints'):
            els=[]
            for x in f[3:]:
                y=x.split(':'); v=list(map(int,y[1:])); k=keys+8*place
                if y[0]=='i': w[k:k+8]=[0,v[0],v[1],0]+v[2:]
                else: w[k:k+8]=[1,v[0]>>32,v[0]&NONE,v[1]]+v[2:]
                els.append(place); place+=1
            chain(joints,jends,cur,els)
        elif f[0]=='free':
            els=list(map(int,f[1:])); maxi=max([maxi]+[e+1 for e in els]); chain(freed,fends,0,els)
        elif f[0]=='tracked': w[2]=int(f[1])
        elif f[0]=='journal':
            w[4]=len(f)-1
            for j,x in enumerate(f[1:]): w[journal+4*j:journal+4*j+4]=list(map(int,x.split(':')))
        elif f[0]=='pending':
            if f[1]!='none': w[5]=1; w[6]=int(f[1])
        elif f[0]=='stamp': w[7]=int(f[1])
        elif f[0]=='scan':
            if f[1]=='open':
                w[8]=1; els=[]
                for x in f[2:]:
                    a,b=map(int,x.split(':')); els.append(a); w[fit+a]=b
                chain(scan,sends,0,els)
        elif f[0]=='body':
            v=int(f[1]); maxs=max(maxs,v+1)
            w[9+5*v]=int(f[2]); w[9+5*v+2:9+5*v+5]=list(map(int,f[3:6]))
        elif f[0]=='lowest':
            for x in f[1:]:
                a,b=map(int,x.split(':')); maxs=max(maxs,a+1); w[9+5*a+1]=b
    w[0]=maxs; w[1]=maxi; w[3]=place
    return w
out=open(sys.argv[1],'w'); prev=[0]*total
block=[]; inb=False
for l in sys.stdin:
    l=l.rstrip('\n')
    if l.startswith('islands '): inb=True; block=[]
    if inb: block.append(l)
    if inb and l=='end':
        inb=False
        w=words(block)
        for i in range(total):
            if w[i]!=prev[i]: print(f"put {i} {w[i]} 0 0 0"); 
        prev=w; print("dump"); out.write("\n".join(block)+"\n")
