import sys,time
sys.argv=['x']
src=open('/tmp/defs.py').read().split("rnd=random.Random(5)")[0]
exec(src)
t=time.process_time()
A=[1<<(k%53) for k in range(1024)]
s,_=fill(A); print('areas that halve: halvings',halv[-1],'passes',passes[-1],'left',leftOver(A))
# a list of 1,024 areas whose search is long
n=1024; T=2**63-1-6; LARGEST=4*(2**30-1)**2
import itertools
best=None
for L in (101,):
    lev=list(range(14,62))   # c + 2^k
    m=len(lev)
    S=10000-L
    sh=[S//n]*n
    for i in range(S-sum(sh)): sh[i]+=1
    sumlev=sum(2**k for k in lev)
    c=(L*T-sumlev)//n
    r=[]
    for i in range(n):
        base=c+(2**lev[i-(n-m)] if i>=n-m else 0)
        want=(-sh[i]*T)%10000
        r.append(base-base%10000+want)
    d=L*T-sum(r); assert d%10000==0
    q=d//10000
    i=0
    each,rest=divmod(q,n-m)
    for i in range(n-m): r[i]+=10000*each+(10000 if i<rest else 0)
    assert sum(r)==L*T and all(0<=x<T for x in r)
    a=[(x*T+y)//10000 for x,y in zip(sh,r)]
    assert all((x*T+y)%10000==0 for x,y in zip(sh,r)) and sum(a)==T and all(1<=x<=LARGEST for x in a)
    # search only
    rs=[x*10000%T for x in a]; assert rs==r
    import bisect
    R=sorted(rs);al=lambda e:n-bisect.bisect_left(R,e)
    left=leftOver(a);low,high,above,many=R[0],R[-1],0,n;h=p=0
    while low<high:
        h+=1;p+=1;mid=high-(high-low)//2;cc=al(mid)
        if cc==left: break
        if cc==above: p+=1; high=R[bisect.bisect_left(R,mid)-1]
        elif cc==many: p+=1; low=R[bisect.bisect_left(R,mid)]
        elif cc<left: high=mid-1;above=cc
        else: low=mid;many=cc
    open("/tmp/long_101.txt","w").write("\n".join(map(str,a)))
    print('L',L,'left',left,'halvings',h,'passes',p, 'areas',a[0],a[-1])
print(round(time.process_time()-t,2))
