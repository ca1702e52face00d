import os,sys
sys.path.insert(0,'/tmp/flip')
import antt
from mapply import mod_flat
def mods(root):
    antt.ROOT=root; out={}
    for f in antt.load():
        rel=os.path.relpath(f.path,root); L=[]
        for l in f.codelines:
            if f.toks[f.first[l]].s=='module':
                L.append([(x[0],x[1],' '.join(f.toks[q].s for q in range(*x[4]))) for x in mod_flat(f,l)])
        out[rel]=L
    return out
A=mods('/work/headtree');B=mods('/work/land')
d=0;imp=0;exp=0;m=0;tot=0
for k in set(A)|set(B):
    a,b=A.get(k),B.get(k)
    if a is None or b is None or len(a)!=len(b): print('count',k); d+=1; continue
    for x,y in zip(a,b):
        tot+=1
        if [(p[0],p[2]) for p in x]!=[(p[0],p[2]) for p in y]: print('differs',k); d+=1
        n=sum(1 for p,q in zip(x,y) if p[1] and not q[1]); imp+=n; m+=n>0
        exp+=sum(1 for p,q in zip(x,y) if not p[1] and q[1])
print('modules',tot,'differ',d,'with implicit now',m,'made implicit',imp,'explicit',exp)
