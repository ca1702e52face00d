import os,sys
sys.path.insert(0,'/tmp/flip')
os.environ['ROOT']='/work/land'
from antt import *
fs=load(); n=0; rows=[]
for f in fs:
    if f.kind!='proofs': continue
    for l in f.codelines:
        t=f.toks[f.first[l]]
        if t.s!='module': continue
        i=f.first[l]; groups=[]
        j=i+1
        while j<len(f.toks) and f.toks[j].s!='where':
            if f.toks[j].s in OPEN:
                e=close(f.toks,j); g=group(f,j,e)
                if g: groups.append(g)
                j=e
            j+=1
        flat=[x for g in groups for x in g]
        for k,(nm,ex,a,b,ty) in enumerate(flat):
            if not ex: continue
            later=[y for y in flat[k+1:] if y[1] and any(f.toks[q].s==nm for q in range(*y[4]))]
            if later: n+=1; rows.append((f.crate,os.path.basename(f.path),l+1,nm,[y[0] for y in later]))
print(n, len({(r[0],r[1],r[2]) for r in rows}))
for r in rows[:60]: print(r)
