import sys,json,os
sys.path.insert(0,'/tmp/flip')
from apply import *
def mod_flat(f,l):
    i=f.first[l]; j=i+1; flat=[]
    while f.toks[j].s!='where':
        if f.toks[j].s in OPEN:
            e=close(f.toks,j); g=group(f,j,e)
            if g: flat+=g
            j=e
        j+=1
    return flat
class MPlan(Plan):
    def __init__(P,T,flips):
        P.T=T; P.flips=flips; P.sites={}; P.short={}; P.dead=set(); P.named={}; P.defs={}
        P.mods={}
        fby={f.path:f for f in T.fs}
        for n,c in enumerate(flips):
            c['id']=f'm{n}'
            f=fby['/work/land/'+c['file']]
            P.mods.setdefault((f.path,c['line']),(f,[]))[1].append(c)
        # declared things of other kinds
        for (path,l),(f,cs) in P.mods.items():
            a,b=T.modrange(f,l)
            names=set()
            for q in f.codelines:
                if a<q<b:
                    i=f.first[q]; w=[]
                    while f.toks[i].line==q and f.toks[i].s in('pub','abbrev','unfoldable','record','data'):
                        w.append(f.toks[i].s); i+=1
                    if set(w)&{'abbrev','unfoldable','record','data'}: names.add(f.toks[i].s)
            used=False
            for g in T.fs:
                if g is f:
                    if any(t.s in names and not(a<=t.line<b) for t in g.toks): used=True
                else:
                    for n,(pth,orig) in g.imports.items():
                        if orig in names and modkey(pth)==(f.crate,f.kind,f.mod): used=True
                if used: break
            if used:
                for c in cs: P.dead.add(c['id']); c['why']='definitions'
        for f in T.fs:
            for d in f.defs:
                ps=[p for p in d.modlines if (f.path,p) in P.mods and any(c['id'] not in P.dead for c in P.mods[(f.path,p)][1])]
                if not ps: continue
                for (g,k,skip) in T.uses(d):
                    a=None
                    off=0; want=[]
                    for p in d.modlines:
                        flat=mod_flat(f,p)
                        inside=(g is f) and T.modrange(f,p)[0]<=g.toks[k].line<T.modrange(f,p)[1]
                        if inside: continue
                        if p in ps:
                            for c in P.mods[(f.path,p)][1]:
                                if c['id'] not in P.dead: want.append((c,off+c['pos']))
                        off+=sum(1 for x in flat if x[1])
                    if not want: continue
                    a=[] if is_arg(g,k) else args_of(g,k); ex=[x for x in a if x[2]]
                    args=[]
                    for c,n in want:
                        if n<len(ex): args.append((c['id'],ex[n][:2],c['arg']))
                        else: P.short.setdefault(c['id'],[]).append((g.path,g.toks[k].line+1,k))
                    if args: P.sites[(g.path,k)]=dict(d=d,args=args,end=(a[-1][1] if a else k),file=g)
    def edits(P):
        E={}
        def g(f): return E.setdefault(f.path,dict(f=f,dele=set(),pre={},post={},rep={}))
        for (path,l),(f,cs) in P.mods.items():
            cs=[c for c in cs if c['id'] not in P.dead]
            if not cs: continue
            e=g(f); ks={c['k'] for c in cs}
            groups={}
            for k,x in enumerate(mod_flat(f,l)):
                if x[1]: groups.setdefault((x[2],x[3]),[]).append((k,x))
            for (i,en),xs in groups.items():
                if not any(k in ks for k,_ in xs): continue
                ty=f.text[f.toks[xs[0][1][4][0]].a:f.toks[en].a].strip()
                runs=[]
                for k,x in xs:
                    v=k in ks
                    if runs and runs[-1][0]==v: runs[-1][1].append(x[0])
                    else: runs.append((v,[x[0]]))
                txt=' '.join(('{%s : %s}' if v else '(%s : %s)')%(' '.join(n),ty) for v,n in runs)
                for q in range(i,en+1): e['dele'].add(q)
                e['rep'][i]=txt
        for (path,k),s in P.sites.items():
            f=s['file']; e=g(f)
            for fid,(i,en),nm in s['args']:
                if fid in P.dead: continue
                if fid in P.named.get((path,k),()):
                    if i==en: e['pre'][i]='{%s = '%nm; e['post'][i]='}'
                    else: e['rep'][i]='{%s = '%nm; e['dele'].add(i); e['rep'][en]='}'; e['dele'].add(en)
                else:
                    for q in range(i,en+1): e['dele'].add(q)
        return E
if __name__=='__main__':
    M=json.load(open('/tmp/flip/modc.json'))
    T=Tree(); P=MPlan(T,M['A']+M['B'])
    from collections import Counter
    us=Counter();sh=Counter()
    for s in P.sites.values():
        for a in s['args']: us[a[0]]+=1
    for x,v in P.short.items(): sh[x]=len(v)
    print('flips',len(P.flips),'dead',len(P.dead),'sites',len(P.sites))
    cat=Counter()
    go=[]
    for c in P.flips:
        x=c['id']
        if x in P.dead: cat['definitions']+=1
        elif us[x]==0 and sh[x]==0: cat['no use']+=1
        elif sh[x]>=us[x]: cat['passed on']+=1
        else: cat['go']+=1; go.append(c)
        c['uses']=us[x]; c['short']=sh[x]
    print(cat, sum(c['short'] for c in go))
    json.dump(go,open('/tmp/flip/mgo.json','w')); json.dump([dict(c) for c in P.flips if c not in go],open('/tmp/flip/mrest.json','w'))
