"""apply.py: flips in FLIPS (json list of cands) applied to ROOT's text as read from /work/land, uses in NAMED kept by name; writes the tree at DST.
Also reports uses."""
import sys,json,os; sys.path.insert(0,'/tmp/flip')
os.environ['ROOT']='/work/land'
from antt import *
def modkey(path):
    m=re.match(r'Rattle·([^.·]+)(?:·(?:proofs|specs))?\.(proofs|specs)\.(.*)$',path)
    return (m.group(1),m.group(2),m.group(3)) if m else None
class Tree:
    def __init__(T):
        T.fs=load(); T.by={(f.crate,f.kind,f.mod):f for f in T.fs}
        for f in T.fs:
            for d in f.defs:
                if d.where:
                    st=None
                    for p in f.parents(d.line):
                        if f.toks[f.first[p]].s!='where': st=p; break
                    d.from_=st if st is not None else d.line
                    d.to=f.block_end(d.line,d.ind)
                else:
                    d.from_=d.line; d.to=10**9
    def modrange(T,f,p):
        ind=f.indent[p]
        for l in f.codelines:
            if l>p and f.indent[l]<=ind: return (p,l)
        return (p,10**9)
    def heads(T,d):
        """for each clause: list of explicit pattern (i,e) and token index of '='"""
        f=d.file; out=[]
        for c in d.clauses:
            j=f.first[c]+1; pats=[]
            while f.toks[j].s not in('=','|'):
                if f.toks[j].s in OPEN:
                    e=close(f.toks,j)
                    if f.toks[j].s=='(' : pats.append((j,e))
                    j=e+1
                else: pats.append((j,j)); j+=1
            out.append((c,pats,j))
        return out
    def uses(T,d):
        """(file, token index, number of explicit module params in front)"""
        f=d.file; out=[]
        headtoks={f.first[c] for c in d.clauses}|{d.start-2}
        rivals=[x for x in f.defs if x.name==d.name and x is not d]
        for k,t in enumerate(f.toks):
            if t.s!=d.name or k in headtoks: continue
            if not(d.from_<=t.line<d.to): continue
            if any(k in ({f.first[c] for c in x.clauses}|{x.start-2}) for x in rivals): continue
            if any(x.from_<=t.line<x.to and x.from_>=d.from_ and x is not d and (x.ind>d.ind or x.line>d.line) for x in rivals): continue
            if f.toks[f.first[t.line]].s in('use',) : continue
            skip=0
            for p in d.modlines:
                a,b=T.modrange(f,p)
                if not(a<=t.line<b): skip+=sum(1 for x in f.modparams(p) if x[1])
            out.append((f,k,skip))
        if not d.where:
            for g in T.fs:
                if g is f: continue
                for n,(path,orig) in g.imports.items():
                    if orig==d.name and modkey(path)==(f.crate,f.kind,f.mod):
                        skip=sum(1 for p in d.modlines for x in f.modparams(p) if x[1])
                        if any(x.name==n for x in g.defs): print('shadow?',g.path,n)
                        for k,t in enumerate(g.toks):
                            if t.s==n and not in_use(g,k): out.append((g,k,skip))
        return out
def in_use(g,k):
    l=g.toks[k].line
    while l>=0:
        if l in g.first:
            s=g.toks[g.first[l]].s
            if s in('use',): return True
            if g.toks[g.first[l]].s=='pub' and g.toks[g.first[l]+1].s=='use': return True
            if g.indent[l]==0: return False
        l-=1
    return False
def args_of(f,k):
    t=f.toks; out=[]; j=k+1
    base=stmt_base(f,t[k].line)
    while j<len(t):
        if t[j].line!=t[j-1].line and f.indent.get(t[j].line,0)<=base: break
        s=t[j].s
        if not is_atom(s): break
        if s in OPEN:
            e=close(t,j)
            out.append((j,e,s=='(')); j=e+1
        else: out.append((j,j,True)); j+=1
    return out
def is_arg(f,k):
    t=f.toks
    if k==0: return False
    p=t[k-1].s
    if t[k].line!=t[k-1].line and f.indent.get(t[k].line,0)<=stmt_base(f,t[k-1].line): return False
    if p in (')','}') or p.startswith('.') and len(p)>1: return True
    if p in ('(','{'): return False
    return is_atom(p)
def stmt_base(f,line):
    # indentation of the statement that the line is in: the nearest line at or above that has '=' or ':' at depth 0 as a declaration
    while line>=0:
        if line in f.first:
            i=f.first[line]
            # a clause or signature start: first token is an identifier & some '=' or ':' later on this line
            if f.indent[line]==0: return 0
            for d in f.defs:
                if line in d.clauses or line==d.line: return d.ind
        line-=1
    return 0
class Plan:
    def __init__(P,T,flips):
        P.T=T; P.flips=flips; P.flipkey={}
        P.sites={}   # (file,tok)-> dict(def,args=[(flip id,(i,e),name)],range)
        P.short={}; P.dead=set(); P.named={}  # (file path,tok)->set of flip ids named
        defs={}
        for c in flips:
            f=next(f for f in T.fs if f.path=='/work/land/'+c['file'])
            d=next(d for d in f.defs if d.line==c['line'] and d.name==c['law'])
            defs.setdefault((f.path,d.line),(d,[]))[1].append(c)
        P.defs=defs
        for d,cs in defs.values():
            hs=T.heads(d)
            for c in cs:
                if any(len(p)<=c['pos'] for _,p,_ in hs): c['why']='whole'; P.dead.add(c['id'])
            for (f,k,skip) in T.uses(d):
                a=[] if is_arg(f,k) else args_of(f,k); ex=[x for x in a if x[2]]
                args=[]
                for c in cs:
                    if c['id'] in P.dead: continue
                    n=skip+c['pos']
                    if n<len(ex): args.append((c['id'],ex[n][:2],c['arg']))
                    else: P.short.setdefault(c['id'],[]).append((f.path,f.toks[k].line+1))
                if args: P.sites[(f.path,k)]=dict(d=d,args=args,end=(a[-1][1] if a else k),file=f)
    def edits(P):
        """per file: del set, pre/post dicts"""
        E={}
        def g(f): return E.setdefault(f.path,dict(f=f,dele=set(),pre={},post={},rep={}))
        for d,cs in P.defs.values():
            cs=[c for c in cs if c['id'] not in P.dead]
            if not cs: continue
            f=d.file; e=g(f); names={c['arg'] for c in cs}; ks={c['k'] for c in cs}
            groups={}
            for k,x in enumerate(d.binders[:-1]):
                if x['name'] and x['ex']: groups.setdefault((x['i'],x['e']),[]).append((k,x))
            for (i,en),xs in groups.items():
                if not any(k in ks for k,_ in xs): continue
                ty=f.text[f.toks[xs[0][1]['ty'][0]].a:f.toks[en].a].strip()
                runs=[]
                for k,x in xs:
                    v=k in ks
                    if runs and runs[-1][0]==v: runs[-1][1].append(x['name'])
                    else: runs.append((v,[x['name']]))
                txt=' '.join(('{%s : %s}' if v else '(%s : %s)')%(' '.join(n),ty) for v,n in runs)
                for q in range(i,en+1): e['dele'].add(q)
                e['rep'][i]=txt
            ps={c['pos'] for c in cs}
            for cl,pats,eq in P.T.heads(d):
                for n in ps:
                    i,en=pats[n]
                    if i==en and f.toks[i].s=='_': e['dele'].add(i)
                    elif i==en: e['rep'][i]='{%s}'%f.toks[i].s; e['dele'].add(i)
        for (path,k),s in P.sites.items():
            f=s['file']; e=g(f)
            for fid,(i,en),nm in s['args']:
                if fid in P.dead: continue
                if fid in P.named.get((path,k),()):
                    if i==en: e['pre'][i]='{%s = '%nm; e['post'][i]='}'
                    else: e['rep'][i]='{%s = '%nm; e['dele'].add(i); e['rep'][en]='}'; e['dele'].add(en)
                else:
                    for q in range(i,en+1): e['dele'].add(q)
        return E
    def render(P):
        out={}
        for path,e in P.edits().items():
            f=e['f']; s=[];cur=0; pos={}
            text='' ; outl=0
            buf=[]
            L=0;C=0
            def emit(x):
                nonlocal L,C
                buf.append(x)
                n=x.count('\n')
                if n: L+=n; C=len(x)-x.rfind('\n')-1
                else: C+=len(x)
            m={}
            glue=False
            for i,t in enumerate(f.toks):
                gap=f.text[cur:t.a]; cur=t.b
                if i in e['dele'] and i not in e['rep']:
                    if '\n' in gap or '--' in gap: emit(gap.rstrip(' ') if False else gap)
                    continue
                # after '{x = ' no space
                if glue: gap=gap.lstrip(' '); glue=False
                emit(gap)
                m.setdefault(L,[]).append((C,i))
                if i in e['rep']:
                    emit(e['rep'][i])
                    if e['rep'][i].endswith('= '): glue=True
                else:
                    emit(e['pre'].get(i,'')); emit(t.s); emit(e['post'].get(i,''))
            emit(f.text[cur:])
            out[path]=(''.join(buf),m)
        return out
