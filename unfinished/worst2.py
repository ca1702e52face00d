# 1,024 areas with 1,023 left over whose search is long
import bisect
n=1024; T=2**63-1-6; L=1023; LARGEST=4*(2**30-1)**2
S=10000-L
sh=[S//n]*n
for i in range(S-sum(sh)): sh[i]+=1
res=[((s+1)*T)%10000 or 10000 for s in sh]
lev=list(range(14,57)); m=len(lev)+1
D=(T+sum(2**k for k in lev))//m
d=[]
for i in range(n):
    if i<m: base=D-(2**lev[i-1] if i else 0); d.append(base-base%10000+res[i])
    else: d.append(res[i])
gap=T-sum(d); assert gap%10000==0
d[0]+=gap          # the one that gets none
r=[T-x for x in d]; assert all(0<=x<T for x in r) and sum(r)==L*T
a=[(s*T+y)//10000 for s,y in zip(sh,r)]
assert all((s*T+y)%10000==0 for s,y in zip(sh,r)) and sum(a)==T and all(1<=x<=LARGEST for x in a)
assert [x*10000%T for x in a]==r and 10000-sum(x*10000//T for x in a)==L
R=sorted(r);al=lambda e:n-bisect.bisect_left(R,e)
low,high,above,many=R[0],R[-1],0,n;h=p=0
while low<high:
    h+=1;p+=1;mid=high-(high-low)//2;c=al(mid)
    if c==L: break
    if c==above: p+=1; high=R[bisect.bisect_left(R,mid)-1]
    elif c==many: p+=1; low=R[bisect.bisect_left(R,mid)]
    elif c<L: high=mid-1;above=c
    else: low=mid;many=c
print('1,023 left over: halvings',h,'passes',p,'gap',gap,'d0-d1',d[0]-d[1])
open('/tmp/long_1023.txt','w').write('\n'.join(map(str,a)))
