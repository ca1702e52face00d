import re,os,sys,glob
ROOT=os.environ.get('ROOT','/work/land')
TOK=re.compile(r'--[^\n]*|"(?:[^"\\]|\\.)*"|[(){},;]|[^\s(){},;]+')
class Tok:
    __slots__=('s','a','b','line','col')
    def __init__(t,s,a,b,line,col): t.s,t.a,t.b,t.line,t.col=s,a,b,line,col
    def __repr__(t): return f'{t.s}@{t.line}:{t.col}'
def tokenize(text):
    out=[];ls=[0]
    for m in re.finditer('\n',text): ls.append(m.end())
    import bisect
    for m in TOK.finditer(text):
        s=m.group()
        if s.startswith('--') : continue
        l=bisect.bisect_right(ls,m.start())-1
        out.append(Tok(s,m.start(),m.end(),l,m.start()-ls[l]))
    return out
OPEN={'(':')','{':'}'}
def close(toks,i):
    d=0
    for j in range(i,len(toks)):
        if toks[j].s in '({' and toks[j].s in OPEN: d+=1
        elif toks[j].s in (')','}'):
            d-=1
            if d==0: return j
    return None
KEY={'let','in','where','=','→',':','λ','use','module','with','unfolding','pub','case','of','rw','record','if','then','else','abstract','|','⇒'}
def is_atom(s):
    if s in KEY or s in (')','}',',',';') : return False
    if s in ('(','{'): return True
    if s in ('_','[]'): return True
    if s.startswith('.') and len(s)>1: return False
    if s.endswith('.') : return False
    return any(c.isalnum() for c in s) and not (s.startswith('_') and s.endswith('_') and len(s)>1 and False)
class Sig: pass
class F:
    def __init__(f,path):
        f.path=path; f.text=open(path).read(); f.toks=tokenize(f.text)
        f.lines=f.text.split('\n')
        f.first={}
        for i,t in enumerate(f.toks):
            f.first.setdefault(t.line,i)
        f.indent={l:f.toks[i].col for l,i in f.first.items()}
        f.codelines=sorted(f.first)
        m=re.match(r'.*/crates/([^/]+)/(proofs|specs)/(.*)\.antt$',path)
        f.crate=m.group(1); f.kind=m.group(2); f.mod=m.group(3).replace('/','.')
        f.parse()
    def stmt_end(f,line,ind):
        """last token index (exclusive) of the statement starting at line with indentation ind"""
        for l in f.codelines:
            if l>line and f.indent[l]<=ind and not (f.indent[l]==ind and f.toks[f.first[l]].s[0] in ')}]'): return f.first[l]
        return len(f.toks)
    def block_end(f,line,ind):
        for l in f.codelines:
            if l>line and f.indent[l]<ind: return l
        return 10**9
    def parents(f,line):
        """enclosing lines of lower indentation, innermost first"""
        out=[];ind=f.indent[line]
        for l in reversed([x for x in f.codelines if x<line]):
            if f.indent[l]<ind:
                out.append(l); ind=f.indent[l]
                if ind==0: break
        return out
    def parse(f):
        f.defs=[]; f.imports={}
        text=f.text
        for m in re.finditer(r'^ *(?:pub )?use ([^\s{]+)\.\{([^}]*)\}',text,re.M):
            for n in m.group(2).split(','):
                n=n.strip()
                if ' as ' in n: a,b=n.split(' as '); f.imports[b.strip()]=(m.group(1),a.strip())
                else: f.imports[n]=(m.group(1),n)
        for l in f.codelines:
            i=f.first[l]; t=f.toks
            j=i+1 if t[i].s=='pub' else i
            if j+1<len(t) and t[j+1].s==':' and t[j].s not in KEY and t[j].s not in '(){}':
                d=Sig(); d.file=f; d.name=t[j].s; d.line=l; d.ind=f.indent[l]; d.pub=t[i].s=='pub'
                d.end=f.stmt_end(l,d.ind); d.start=j+2
                # clauses
                d.clauses=[]
                be=f.block_end(l,d.ind) if d.ind>0 else 10**9
                for l2 in f.codelines:
                    if l2<=l or l2>=be: continue
                    if f.indent[l2]==d.ind:
                        k=f.first[l2]
                        if t[k].s==d.name and not (k+1<len(t) and t[k+1].s==':'): d.clauses.append(l2)
                        elif t[k].s in('unfolding','where') or t[k].s.startswith('#'): continue
                        elif d.clauses or t[k].s!='unfolding': break
                if not d.clauses: continue
                d.params=[];d.where=False;d.modlines=[]
                for p in f.parents(l):
                    s0=t[f.first[p]].s
                    s1=t[f.first[p]+1].s if s0=='pub' else None
                    if s0=='module' or s1=='module':
                        d.modlines.append(p)
                    elif s0=='where': d.where=True
                    else:
                        d.where=True
                d.modlines.reverse()
                d.scope=(l, f.block_end(l,d.ind)) if d.ind>0 else (l,10**9)
                d.binders=parse_tele(f,d.start,d.end)
                f.defs.append(d)
    def modparams(f,p):
        i=f.first[p]; out=[]
        while f.toks[i].s!='where':
            if f.toks[i].s in OPEN:
                e=close(f.toks,i); out+=group(f,i,e); i=e
            i+=1
        return out
def group(f,i,e):
    """names of the binder group at tokens i..e, as (name,explicit,i,e,type range)"""
    t=f.toks;d=0
    for k in range(i+1,e):
        if t[k].s in OPEN: d+=1
        elif t[k].s in (')','}'): d-=1
        elif t[k].s==':' and d==0:
            return [(t[n].s,t[i].s=='(',i,e,(k+1,e)) for n in range(i+1,k)]
    return None
def parse_tele(f,i,end):
    """binders: list of dict(name or None, explicit, i, e, ty=(a,b)); stops at the result"""
    t=f.toks; out=[]; res=None
    # split at depth-0 arrows
    segs=[];a=i;d=0
    for k in range(i,end):
        if t[k].s in OPEN: d+=1
        elif t[k].s in (')','}'): d-=1
        elif t[k].s=='→' and d==0:
            segs.append((a,k)); a=k+1
    segs.append((a,end))
    for n,(a,b) in enumerate(segs):
        last=n==len(segs)-1
        k=a; groups=[]
        ok=True
        while k<b:
            if t[k].s in OPEN:
                e=close(t,k); g=group(f,k,e) if e is not None else None
                if g is None or e>=b+0 and e!=b-0 and False: ok=False;break
                groups.append(g); k=e+1
            else: ok=False;break
        if ok and groups and not last:
            for g in groups:
                for (nm,ex,i0,e0,ty) in g: out.append(dict(name=nm,ex=ex,i=i0,e=e0,ty=ty))
        elif last: out_res=(a,b)
        else: out.append(dict(name=None,ex=True,i=a,e=b,ty=(a,b)))
    out.append(dict(name='<result>',ex=None,i=segs[-1][0],e=segs[-1][1],ty=segs[-1]))
    return out
def spine(f,k):
    """argument atoms after token k: list of (i,e)"""
    t=f.toks; out=[]; j=k+1
    # stop at a line that begins a statement: indentation <= that of the statement holding k is handled by '=' and layout
    while j<len(t):
        if t[j].line!=t[j-1].line and f.indent.get(t[j].line,0)<=stmt_indent(f,t[k].line) : break
        if not is_atom(t[j].s): break
        if t[j].s in OPEN:
            e=close(t,j); out.append((j,e)); j=e+1
        else: out.append((j,j)); j+=1
    return out
def stmt_indent(f,line):
    return 0 if f.indent.get(line) is None else min_ind(f,line)
def min_ind(f,line):
    # the indentation of the statement that line belongs to: nearest start line looking like a clause/signature
    return f.indent[line] if False else f.indent_of_stmt(line) if hasattr(f,'indent_of_stmt') else 0
def load():
    fs=[]
    for p in sorted(glob.glob(ROOT+'/crates/*/proofs/**/*.antt',recursive=True)+glob.glob(ROOT+'/crates/*/specs/**/*.antt',recursive=True)):
        fs.append(F(p))
    return fs
