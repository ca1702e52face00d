import random,bisect,math
def rests(areas):
    t=sum(areas); return [a*10000%t for a in areas], 10000-sum(a*10000//t for a in areas)
def cur(rs,left):
    S=sorted(rs); n=len(rs); at=lambda e:n-bisect.bisect_left(S,e)
    low,high,above,many=S[0],S[-1],0,n; p=0
    while low<high:
        m=high-(high-low)//2; c=at(m); p+=1
        if c==left: return p
        if c==above: p+=1.5; high=S[bisect.bisect_left(S,m)-1]
        elif c==many: p+=1.5; low=S[bisect.bisect_left(S,m)]
        elif c<left: high=m-1; above=c
        else: low=m; many=c
    return p
def mix(rs,left,mode):
    S=sorted(rs); n=len(rs); at=lambda e:n-bisect.bisect_left(S,e)
    low,high,above,many=S[0],S[-1],0,n; p=0; frm=0; turn=0; poor=False
    step=max(1,int(n*0.618))
    while low<high:
        use = (mode=='alt' and turn%2==0) or (mode=='elem') or (mode=='poor' and poor)
        turn+=1
        if use:
            k=0; i=frm
            while k<n and not(low<rs[i]<=high): k+=1; i=(i+1)%n
            p+=k/n*0.8
            if k==n: high=low; continue
            m=rs[i]; frm=(i+step)%n
        else: m=high-(high-low)//2
        c=at(m); p+=1
        if c==left: return p
        before=many-above
        if c<left: high=m-1; above=c
        else: low=m; many=c
        poor = 4*(before-(many-above)) < before
    return p
lists={'uniform':[[random.randrange(1,2**52) for _ in range(1024)] for _ in range(20)],
'sizes':[[1+random.randrange(1<<random.randrange(1,53)) for _ in range(1024)] for _ in range(20)],
'u64':[[random.randrange(1,2**52) for _ in range(64)] for _ in range(40)],
'powers':[[1<<(k%53) for k in range(1024)]],
'small':[[random.randrange(1,50) for _ in range(1024)] for _ in range(10)],
'two':[[random.choice([3,7]) for _ in range(1024)] for _ in range(5)],
'long101':[[int(x) for x in open('/tmp/long_101.txt')]],'long1023':[[int(x) for x in open('/tmp/long_1023.txt')]]}
L=[int(x) for x in open('/tmp/long_1023.txt')]
sh=[]
for _ in range(10):
    q=L[:]; random.shuffle(q); sh.append(q)
lists['shuf1023']=sh
lists['sort1023']=[sorted(L),sorted(L,reverse=True)]
for n,ls in lists.items():
    row=[]
    for f in (cur,lambda r,l:mix(r,l,'alt'),lambda r,l:mix(r,l,'elem'),lambda r,l:mix(r,l,'poor')):
        v=[f(*rests(a)) for a in ls]
        row.append(f'{sum(v)/len(v):6.1f} max {max(v):5.1f}')
    print(f'{n:9}','  '.join(row))
print('--- half')
def half(rs,left,thr):
    S=sorted(rs); n=len(rs); at=lambda e:n-bisect.bisect_left(S,e)
    low,high,above,many=S[0],S[-1],0,n; p=0; poor=False
    while low<high:
        if poor:
            want=(many-above)//2; seen=0; pick=None; last=None
            for k in range(n):
                if low<rs[k]<=high:
                    last=rs[k]
                    if seen>=want: break
                    seen+=1
            p+=(k+1)/n
            if last is None: high=low; continue
            m=last
        else: m=high-(high-low)//2
        c=at(m); p+=1
        if c==left: return p
        before=many-above
        if c<left: high=m-1; above=c
        else: low=m; many=c
        poor = thr*(before-(many-above)) < before
    return p
for n,ls in lists.items():
    row=[]
    for thr in (3,4,6,8):
        v=[half(*rests(a),thr) for a in ls]
        row.append(f'{sum(v)/len(v):6.1f} max {max(v):5.1f}')
    print(f'{n:9}','  '.join(row))
print('--- inside')
def inside(rs,left,thr):
    S=sorted(rs); n=len(rs); at=lambda e:n-bisect.bisect_left(S,e)
    low,high,above,many=S[0],S[-1],0,n; p=0; poor=False
    while low<high:
        if poor:
            ins=at(low+1)-above; p+=1
            if ins==0: high=low; continue
            if at(low+1)<=left:   # the last is low itself, or just as many stand above
                return p
            many=at(low+1)
            want=ins//2; seen=0
            for k in range(n):
                if low<rs[k]<=high:
                    if seen==want: break
                    seen+=1
            p+=(k+1)/n
            m=rs[k]
        else: m=high-(high-low)//2
        c=at(m); p+=1
        if c==left: return p
        before=many-above
        if c<left: high=m-1; above=c
        else: low=m; many=c
        poor = thr*(before-(many-above)) < before
    return p
for n,ls in lists.items():
    row=[]
    for thr in (3,4,6,8):
        v=[inside(*rests(a),thr) for a in ls]
        row.append(f'{sum(v)/len(v):6.1f} max {max(v):5.1f}')
    print(f'{n:9}','  '.join(row))
