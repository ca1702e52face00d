import os,sys
sys.path.insert(0,'/tmp/flip')
import importlib,antt
def sigs(root):
    antt.ROOT=root
    out={}
    for f in antt.load():
        rel=os.path.relpath(f.path,root)
        # all signature lines, including defs without clauses
        for d in f.defs:
            b=[(x['name'],' '.join(f.toks[q].s for q in range(*x['ty']))) for x in d.binders]
            vis=[x['ex'] for x in d.binders]
            out.setdefault((rel,d.name),[]).append((b,vis))
    return out
A=sigs('/work/headtree');B=sigs('/work/land')
print(len(A),len(B),sum(map(len,A.values())),sum(map(len,B.values())))
diff=0;vis=0;laws=0;back=0
for k in set(A)|set(B):
    a=A.get(k,[]);b=B.get(k,[])
    if len(a)!=len(b): print('count',k); diff+=1; continue
    for x,y in zip(a,b):
        if x[0]!=y[0]: print('differs',k,[ (p,q) for p,q in zip(x[0],y[0]) if p!=q][:2]); diff+=1
        elif x[1]!=y[1]:
            n=sum(1 for p,q in zip(x[1],y[1]) if p and q is False); m=sum(1 for p,q in zip(x[1],y[1]) if p is False and q)
            vis+=n; back+=m; laws+=1
print('differ',diff,'laws',laws,'made implicit',vis,'made explicit',back)
