import json,sys
sys.path.insert(0,'/tmp/flip')
import apply
F=json.load(open('/tmp/flip/flips.json'))
T=apply.Tree(); P=apply.Plan(T,F)
go=[];why={}
for c in F:
    x=c['id']
    us=sum(1 for s in P.sites.values() for a in s['args'] if a[0]==x); sh=len(P.short.get(x,[]))
    if (c['law'],c['arg']) in (('area-rule','k'),('rotate-after','k')): why[x]='tried before'
    elif x in P.dead: why[x]='whole'
    elif sh>=us and sh>0: why[x]='passed on'
    elif us==0: why[x]='no use'; print('no use',c['crate'],c['law'],c['arg'])
    else:
        c['uses']=us; c['short']=sh; go.append(c)
        if sh: print('some short',c['crate'],c['law'],c['arg'],us,sh,P.short[x])
from collections import Counter
print(len(go),Counter(why.values())); json.dump(go,open('/tmp/flip/go.json','w')); json.dump(why,open('/tmp/flip/why.json','w'))
