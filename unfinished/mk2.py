exec(open('/tmp/mklong.py').read().split("for n in ('long_101'")[0])
G=2**63-1; W=10000; n=1024
def by(left,wanted):
    T=G-6; given=W-left
    share=lambda p: given//n+(1 if p<given%n else 0)
    a=[(share(p)*T+wanted(p))//W for p in range(n)]
    a[0]+=T-sum(a); return a
al=sum(1<<b for b in range(14,57)); T=G-6; low=T-(T+al)//44
open('/tmp/kept/dmost.in','wb').write(bytes([9])+file(by(1023,lambda p: low if p==0 else (low+(1<<(13+p)) if p<=43 else T-1))))
