import sys,json,os,subprocess,time,pickle
sys.path.insert(0,'/tmp/flip')
from mapply import *
DST=sys.argv[1]; FL=json.load(open(sys.argv[2]))
LOG=open(sys.argv[3],'a')
def say(*a): print(*a,file=LOG,flush=True)
T=Tree(); P=MPlan(T,FL)
order=[l.split('#')[0].split(':')[0].strip() for l in open('/work/land/crates.txt') if ':' in l.split('#')[0]]
state='/tmp/flip/mstate.pkl'
def write(crate=None):
    R=P.render(); aff={}
    for p,(txt,m) in R.items():
        c=p.split('/crates/')[1].split('/')[0]; aff.setdefault(c,[]).append(p)
        q=p.replace('/work/land',DST)
        if open(q).read()!=txt: open(q,'w').write(txt)
    # files no longer edited
    for p in WRITTEN-set(R):
        q=p.replace('/work/land',DST); open(q,'w').write(open(p).read())
    WRITTEN.clear(); WRITTEN.update(R)
    return R,aff
WRITTEN=set()
UND=[0]
if os.path.exists(state):
    n,dd,ww=pickle.load(open(state,'rb')); P.named.update(n); P.dead|=dd
def clause_of(f,line):
    best=None
    for d in f.defs:
        for c in d.clauses:
            if c<=line and (best is None or c>best[0]): best=(c,f.stmt_end(c,d.ind))
    return best
R,aff=write()
say('sites',len(P.sites),'dead whole',len(P.dead),'crates',len(aff))
for crate in order:
    if crate not in aff: continue
    stuck=False
    for rnd in range(30):
        R,aff=write()
        t0=time.time()
        r=subprocess.run(['rt','dev',crate],cwd=DST,capture_output=True,text=True,env=dict(os.environ,TMPDIR='/dev/shm',RT_JOBS='2'))
        o=r.stdout+r.stderr
        errs=re.findall(r'^(/\S+?\.antt):(\d+):(\d+): (?:error: |unsolved )(.*)',o,re.M)
        if r.returncode==0 and not errs: say(f'{crate} ok round {rnd} {time.time()-t0:.1f}s und {UND[0]} dead {len(P.dead)}'); break
        if not errs:
            say(crate,'FAIL without place',o[-1500:]); sys.exit(1)
        done=0
        errs=[e for e in errs if 'was not admitted (it has holes' not in e[3]] or errs
        for p,l,c,msg in errs:
            sp=p.replace(DST,'/work/land'); l=int(l)-1; c=int(c)-1
            f=next((f for f in T.fs if f.path==sp),None)
            md=re.search(r'the implicit argument `\{(\S+)\}` of `(\S+)` is not determined by the signature',msg)
            if md and f is not None:
                hit=0; seen=0
                for (pp,pl),(ff,cs) in P.mods.items():
                    if pp==sp and T.modrange(ff,pl)[0]<=l<T.modrange(ff,pl)[1]:
                        for c0 in cs:
                            if c0['arg']==md.group(1):
                                seen+=1
                                if c0['id'] not in P.dead: P.dead.add(c0['id']); c0['why']='undetermined '+md.group(2); hit+=1
                if seen: done+=1; UND[0]+=hit; continue
            if f is None: say('no file',p); continue
            if sp in R:
                row=R[sp][1].get(l,[]); tok=None
                for (cc,i) in row:
                    if cc<=c: tok=i
            else:
                tok=None
            cand=[]
            for (pp,k),s in P.sites.items():
                if pp!=sp: continue
                left=[a for a in s['args'] if a[0] not in P.dead and a[0] not in P.named.get((pp,k),set())]
                if not left: continue
                if tok is not None and k<=tok<=s['end']: cand.append((s['end']-k,k,left))
            own=[]
            if cand:
                _,k,left=min(cand)
                mm=re.search(r'\{(\S+) = ',msg) or re.search(r'implicit argument \{(\S+)\}',msg)
                one=[a for a in left if mm and a[2]==mm.group(1)]
                left=one or left
                P.named.setdefault((sp,k),set()).update(a[0] for a in left); done+=1
                say('  named',sp[len('/work/land/crates/'):],l+1,f.toks[k].s,[a[2] for a in left],msg[:110])
            else:
                cl=clause_of(f,l); hit=[]
                if cl:
                    for (pp,k),s in P.sites.items():
                        if pp==sp and f.first[cl[0]]<=k<cl[1]:
                            left=[a for a in s['args'] if a[0] not in P.dead and a[0] not in P.named.get((pp,k),set())]
                            if left: hit.append((k,left))
                if own: hit=[]
                if hit:
                    for k,left in hit: P.named.setdefault((sp,k),set()).update(a[0] for a in left)
                    done+=1; say('  named all in clause',sp[len('/work/land/crates/'):],l+1,[(f.toks[k].s,[a[2] for a in left]) for k,left in hit],msg[:110])
                else:
                    # a module of this place, or one whose law is passed on here
                    hit=[]
                    if cl:
                        for x,v in P.short.items():
                            if x not in P.dead and any(pp==sp and f.first[cl[0]]<=kk<cl[1] for pp,_,kk in v): hit.append(x)
                    if not hit:
                        for (pp,pl),(ff,cs) in P.mods.items():
                            if pp==sp and T.modrange(ff,pl)[0]<=l<T.modrange(ff,pl)[1]: hit+=[c0['id'] for c0 in cs if c0['id'] not in P.dead]
                    for x in hit: P.dead.add(x)
                    for c0 in FL:
                        if c0['id'] in hit: c0['why']='own '+msg[:120]
                    if hit: done+=1; say('  dead',sp[len('/work/land/crates/'):],l+1,hit,msg[:160])
                    else: say('  STUCK',sp,l+1,msg[:300])
        if not done: say(crate,'STUCK round',rnd,o[-800:]); sys.exit(1)
    pickle.dump((P.named,P.dead,[(c['id'],c.get('why')) for c in FL]),open(state,'wb'))
# report
tot={}
for (pp,k),s in P.sites.items():
    for fid,_,nm in s['args']:
        a=tot.setdefault(fid,[0,0]); a[1 if fid in P.named.get((pp,k),()) else 0]+=1
rep=[]
for c in FL:
    a=tot.get(c['id'],[0,0]); sh=len(P.short.get(c['id'],[]))
    rep.append(dict(c,left=a[0],named=a[1],short=sh,dead=c['id'] in P.dead))
json.dump(rep,open('/tmp/flip/mreport.json','w'))
say('done')
