import sys,json,os,subprocess,time,pickle
sys.path.insert(0,'/tmp/flip')
from apply import *
DST=sys.argv[1]; FL=json.load(open(sys.argv[2]))
LOG=open(sys.argv[3],'a')
def say(*a): print(*a,file=LOG,flush=True)
T=Tree(); P=Plan(T,FL)
order=[l.split('#')[0].split(':')[0].strip() for l in open('/work/land/crates.txt') if ':' in l.split('#')[0]]
state='/tmp/flip/state.pkl'
def write(crate=None):
    R=P.render(); aff={}
    for p,(txt,m) in R.items():
        c=p.split('/crates/')[1].split('/')[0]; aff.setdefault(c,[]).append(p)
        q=p.replace('/work/land',DST)
        if open(q).read()!=txt: open(q,'w').write(txt)
    # files no longer edited
    for p in WRITTEN-set(R):
        q=p.replace('/work/land',DST); open(q,'w').write(open(p).read())
    WRITTEN.clear(); WRITTEN.update(R)
    return R,aff
WRITTEN=set()
if os.path.exists(state):
    n,dd,ww=pickle.load(open(state,'rb')); P.named.update(n); P.dead|=dd
def clause_of(f,line):
    best=None
    for d in f.defs:
        for c in d.clauses:
            if c<=line and (best is None or c>best[0]): best=(c,f.stmt_end(c,d.ind))
    return best
R,aff=write()
say('sites',len(P.sites),'dead whole',len(P.dead),'crates',len(aff))
for crate in order:
    if crate not in aff: continue
    stuck=False
    for rnd in range(30):
        R,aff=write()
        t0=time.time()
        r=subprocess.run(['rt','dev',crate],cwd=DST,capture_output=True,text=True,env=dict(os.environ,TMPDIR='/dev/shm',RT_JOBS='2'))
        o=r.stdout+r.stderr
        errs=re.findall(r'^(/\S+?\.antt):(\d+):(\d+): (?:error: |unsolved )(.*)',o,re.M)
        if r.returncode==0 and not errs: say(f'{crate} ok round {rnd} {time.time()-t0:.1f}s'); break
        if not errs:
            say(crate,'FAIL without place',o[-1500:]); sys.exit(1)
        done=0
        errs=[e for e in errs if 'was not admitted (it has holes' not in e[3]] or errs
        for p,l,c,msg in errs:
            sp=p.replace(DST,'/work/land'); l=int(l)-1; c=int(c)-1
            f=next((f for f in T.fs if f.path==sp),None)
            if f is None: say('no file',p); continue
            if sp in R:
                row=R[sp][1].get(l,[]); tok=None
                for (cc,i) in row:
                    if cc<=c: tok=i
            else:
                tok=None
            cand=[]
            for (pp,k),s in P.sites.items():
                if pp!=sp: continue
                left=[a for a in s['args'] if a[0] not in P.dead and a[0] not in P.named.get((pp,k),set())]
                if not left: continue
                if tok is not None and k<=tok<=s['end']: cand.append((s['end']-k,k,left))
            own=[d for d,cs in P.defs.values() if d.file.path==sp and (l==d.line)]
            if cand:
                _,k,left=min(cand); P.named.setdefault((sp,k),set()).update(a[0] for a in left); done+=1
                say('  named',sp[len('/work/land/crates/'):],l+1,f.toks[k].s,[a[2] for a in left],msg[:110])
            else:
                cl=clause_of(f,l); hit=[]
                if cl:
                    for (pp,k),s in P.sites.items():
                        if pp==sp and f.first[cl[0]]<=k<cl[1]:
                            left=[a for a in s['args'] if a[0] not in P.dead and a[0] not in P.named.get((pp,k),set())]
                            if left: hit.append((k,left))
                if own: hit=[]
                if hit:
                    for k,left in hit: P.named.setdefault((sp,k),set()).update(a[0] for a in left)
                    done+=1; say('  named all in clause',sp[len('/work/land/crates/'):],l+1,[(f.toks[k].s,[a[2] for a in left]) for k,left in hit],msg[:110])
                else:
                    ds=[(d,cs) for d,cs in P.defs.values() if d.file.path==sp and (d.line<=l) and (l<f.toks[min(f.stmt_end(d.clauses[-1],d.ind),len(f.toks)-1)].line+1)]
                    if ds:
                        d,cs=max(ds,key=lambda x:x[0].line)
                        for x in cs:
                            if x['id'] not in P.dead: P.dead.add(x['id']); x['why']='own '+msg[:120]; done+=1
                        say('  dead',sp[len('/work/land/crates/'):],l+1,d.name,msg[:140])
                    else: say('  STUCK',sp,l+1,msg[:300])
        if not done: say(crate,'STUCK round',rnd,o[-800:]); sys.exit(1)
    pickle.dump((P.named,P.dead,[(c['id'],c.get('why')) for c in FL]),open(state,'wb'))
# report
tot={}
for (pp,k),s in P.sites.items():
    for fid,_,nm in s['args']:
        a=tot.setdefault(fid,[0,0]); a[1 if fid in P.named.get((pp,k),()) else 0]+=1
rep=[]
for c in FL:
    a=tot.get(c['id'],[0,0]); sh=len(P.short.get(c['id'],[]))
    rep.append(dict(c,left=a[0],named=a[1],short=sh,dead=c['id'] in P.dead))
json.dump(rep,open('/tmp/flip/report.json','w'))
say('done')
