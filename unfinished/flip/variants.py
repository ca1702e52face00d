import sys,json; sys.path.insert(0,'/tmp/flip')
import os
os.environ['ROOT']='/work/land'
from antt import *
KEEP=set(json.load(open(sys.argv[2]))) if len(sys.argv)>2 else None
fs=load()
out={}
def topname(f,d):
    ps=f.parents(d.line)
    best=d
    for x in f.defs:
        if not x.where and x.line<=d.line and (best is d or x.line>best.line): best=x
    return best.name if d.where else d.name
cands=[]
stats=dict(shown=0,matched=0,cand=0,where=0,defs=0)
for f in fs:
    ins=[] # (line after which, text)
    for d in f.defs:
        b=d.binders
        if b[-1]['e']-b[-1]['i']==1 and f.toks[b[-1]['i']].s=='Type': continue
        ex=[k for k,x in enumerate(b[:-1]) if x['ex']]
        for k,x in enumerate(b[:-1]):
            if not x['ex'] or not x['name']: continue
            shown=any(any(f.toks[q].s==x['name'] for q in range(*y['ty'])) for y in b[k+1:-1])
            if not shown: continue
            stats['shown']+=1
            pos=ex.index(k)
            matched=False
            for c in d.clauses:
                i=f.first[c]; j=i+1; n=0; pat=None
                while j<len(f.toks) and f.toks[j].s!='=' :
                    t=f.toks[j]
                    if t.s in OPEN:
                        e=close(f.toks,j)
                        if t.s=='(':
                            if n==pos: pat='('
                            n+=1
                        j=e+1
                    else:
                        if n==pos: pat=t.s
                        n+=1; j+=1
                if pat is None: continue
                if pat=='(' or pat in('zero','suc','[]','none','true','false','tt','refl','start','empty') or pat[0].isdigit(): matched=True
            if matched: stats['matched']+=1; continue
            stats['cand']+=1
            stats['where']+=d.where
            name=f'flip{len(cands)}'
            # signature text
            s=f.text
            parts=[];cur=f.toks[d.start].a
            # binder group of x
            gi,ge=x['i'],x['e']
            grp=[y for y in b[:-1] if y['i']==gi and y['name']]
            ty=s[f.toks[x['ty'][0]].a:f.toks[x['ty'][1]].a]
            new=' '.join((('{%s : %s}' if y['name']==x['name'] else '(%s : %s)')%(y['name'],ty)) for y in grp)
            # '->' needed between? groups separated by spaces are fine
            r=b[-1]
            sig=s[cur:f.toks[gi].a]+new+s[f.toks[ge].b:f.toks[r['i']].a]+'Type 0'
            sig=' '.join(sig.split())
            unf=''
            ln=d.line
            # unfolding line between
            for l in f.codelines:
                if ln<l<d.clauses[0] and f.indent[l]==d.ind and f.toks[f.first[l]].s=='unfolding': unf=' '*d.ind+f.lines[l].strip()+'\n'
            pats=' '.join(f'p{q}' for q in range(len(ex)-1))
            txt='\n'+' '*d.ind+f'{name} : {sig}\n'+unf+' '*d.ind+f'{name} {pats} = ?\n'
            # end of last clause
            last=d.clauses[-1]
            e=f.stmt_end(last,d.ind)
            # where-block lines of last clause have bigger indentation or a line 'where' at same indentation
            while e<len(f.toks) and f.toks[e].s=='where' and f.toks[e].line in f.indent and f.indent[f.toks[e].line]==d.ind and f.first[f.toks[e].line]==e:
                e=f.stmt_end(f.toks[e].line,d.ind)
            at=f.toks[e-1].line
            if KEEP is None or name in KEEP: ins.append((at,-d.ind,len(ins),txt))
            cands.append(dict(id=name,file=os.path.relpath(f.path,'/work/land'),crate=f.crate,law=d.name,line=d.line,arg=x['name'],k=k,pos=pos,where=d.where,top=topname(f,d)))
    if ins:
        L=f.lines[:]
        add={}
        for at,_,_,txt in sorted(ins): add.setdefault(at,[]).append(txt)
        o=[]
        for i,l in enumerate(L):
            o.append(l)
            for t in add.get(i,[]): o+= t.split('\n')
        out[os.path.relpath(f.path,'/work/land')]='\n'.join(o)
print(stats)
json.dump(cands,open('/tmp/flip/cands.json','w'))
if len(sys.argv)>1:
    dst=sys.argv[1]
    for p,t in out.items():
        os.makedirs(os.path.dirname(dst+"/"+p),exist_ok=True); open(dst+"/"+p,"w").write(t)
    print(len(out),'files',len({c['crate'] for c in cands}),'crates')
