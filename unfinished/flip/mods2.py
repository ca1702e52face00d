import os,sys,json
sys.path.insert(0,'/tmp/flip')
os.environ['ROOT']='/work/land'
from antt import *
fs=load(); A=[];B=[]
for f in fs:
    if f.kind!='proofs': continue
    for l in f.codelines:
        t=f.toks[f.first[l]]
        if t.s!='module': continue
        i=f.first[l]; groups=[]
        j=i+1
        while j<len(f.toks) and f.toks[j].s!='where':
            if f.toks[j].s in OPEN:
                e=close(f.toks,j); g=group(f,j,e)
                if g: groups.append(g)
                j=e
            j+=1
        flat=[x for g in groups for x in g]
        laws=[d for d in f.defs if l in d.modlines and not d.where]
        for k,(nm,ex,a,b,ty) in enumerate(flat):
            if not ex: continue
            pos=sum(1 for y in flat[:k] if y[1])
            later=[y for y in flat[k+1:] if y[1] and any(f.toks[q].s==nm for q in range(*y[4]))]
            inlaw=[any(any(f.toks[q].s==nm for q in range(*y['ty'])) for y in d.binders[:-1]) for d in laws]
            # inner modules' params count as hypotheses of their laws
            rec=dict(file=os.path.relpath(f.path,'/work/land'),crate=f.crate,line=l,arg=nm,k=k,pos=pos,laws=[d.name for d in laws])
            if later: A.append(rec)
            elif laws and all(inlaw): B.append(rec)
print(len(A),len(B),len({(r['file'],r['line']) for r in A+B}))
json.dump(dict(A=A,B=B),open('/tmp/flip/modc.json','w'))
