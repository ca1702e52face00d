import json,re,glob
c=json.load(open('/tmp/flip/cands.json'))
byid={x['id']:x for x in c}
det=set();ref={}
other=[]
for f in glob.glob('/tmp/flip/out/*.log'):
    t=open(f).read()
    for m in re.finditer(r'`(flip\d+)` is not admitted: has-holes',t): det.add(m.group(1))
    for m in re.finditer(r'error: `(flip\d+)`: (.*)',t):
        ref[m.group(1)]=m.group(2)
    for m in re.finditer(r'^(\S+): error: (?!`flip)(.*)',t,re.M): other.append((f,m.group(1),m.group(2)[:160]))
print(len(c),len(det),len(ref),len(set(byid)-det-set(ref)))
nd=[x for x in ref if 'is not determined' in ref[x]]
print('not determined',len(nd))
oth=[(x,ref[x][:200]) for x in ref if 'is not determined' not in ref[x]]
print('other refusals',len(oth))
for o in oth[:10]: print(byid[o[0]]['file'],byid[o[0]]['law'],o)
print(other[:20])
from collections import Counter
print(Counter(byid[x]['crate'] for x in set(byid)-det-set(ref)))
json.dump(sorted(det),open('/tmp/flip/det.json','w'))
