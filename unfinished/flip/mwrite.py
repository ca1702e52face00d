import sys,json,os,pickle
sys.path.insert(0,'/tmp/flip')
from mapply import *
FL=json.load(open('/tmp/flip/mgo.json')); keep=set(json.load(open('/tmp/flip/mkeep.json')))
T=Tree(); P=MPlan(T,FL)
n,dd,_=pickle.load(open('/tmp/flip/mstate.pkl','rb'))
for c in FL:
    if c['id'] not in keep: P.dead.add(c['id'])
for k,v in n.items():
    v={x for x in v if x in keep}
    if v: P.named[k]=v
R=P.render()
for p,(t,_) in R.items(): open(p,'w').write(t)
print(len(R),'files')
