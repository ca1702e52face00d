import sys,json,os,pickle
sys.path.insert(0,'/tmp/flip')
from apply import *
go=json.load(open('/tmp/flip/flips.json')); ids=set(json.load(open(sys.argv[1])))
l=[c for c in go if c['id'] in ids or (c['law'],c['arg'],c['crate']) in (('all-round','m','convex'),('head-size','b','pair_lines'))]
T=Tree(); P=Plan(T,l)
K1=set(json.load(open('/tmp/flip/keep_ids.json')))
for f,A in ((sys.argv[2],K1),(sys.argv[3],ids-K1)):
    n,dd,_=pickle.load(open(f,'rb'))
    for k,v in n.items():
        v={x for x in v if x in A}
        if v: P.named.setdefault(k,set()).update(v)
R=P.render()
print(len(l),'args',len({(c['file'],c['line']) for c in l}),'laws',len(R),'files', sum(len(s['args']) for s in P.sites.values()),'at uses', sum(len(v) for k,v in P.named.items() if k in P.sites),'named')
if os.environ.get('GO'):
    for p,(t,_) in R.items(): open(p,'w').write(t)
