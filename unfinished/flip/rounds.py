import json,re,glob,os,subprocess,sys
sys.path.insert(0,'/tmp/flip')
subprocess.run(['python3','/tmp/flip/variants.py'],check=True)
c=json.load(open('/tmp/flip/cands.json')); byid={x['id']:x for x in c}
det=set();ref=set()
def read(keep,logs):
    new=0
    for f in logs:
        t=open(f).read()
        crate=os.path.basename(f)[:-4]
        for m in re.finditer(r'`(flip\d+)` is not admitted: has-holes',t):
            if m.group(1) in byid and not byid[m.group(1)]['where']: det.add(m.group(1))
        for m in re.finditer(r'of `(flip\d+)` is not determined',t): ref.add(m.group(1))
        for m in re.finditer(r'goal \? in `(flip\d+)`',t): pass
        if 'error: this line' in t or 'cannot go on' in t: print('PARSE',crate,re.findall(r'^\S+: error: .*',t,re.M)[0][:250]); continue
        # where ones: determined if the enclosing definition has holes and no such error
        for x in keep:
            d=byid[x]
            if d['crate']==crate and d['where'] and x not in ref:
                if re.search(r'/%s:\d+:\d+: `%s` is not admitted: has-holes'%(re.escape(d['file'].split('/',2)[2]),re.escape(d['top'])),t): det.add(x)
det=set(json.load(open('/tmp/flip/det.json')));ref=set(json.load(open('/tmp/flip/ref.json')))
for rnd in range(12):
    keep=[x for x in byid if x not in det and x not in ref]
    print('round',rnd,'unknown',len(keep),'det',len(det),'ref',len(ref),flush=True)
    if not keep: break
    json.dump(keep,open('/tmp/flip/keep.json','w'))
    subprocess.run('rm -rf /tmp/flip/var; mkdir -p /tmp/flip/var',shell=True)
    subprocess.run(['python3','/tmp/flip/variants.py','/tmp/flip/var','/tmp/flip/keep.json'],check=True,stdout=subprocess.DEVNULL)
    cr=sorted({byid[x]['crate'] for x in keep})
    a=cr[0::2];b=cr[1::2]
    pa=subprocess.Popen(['/tmp/flip/runv.sh','/work/probe']+a); pb=subprocess.Popen(['/tmp/flip/runv.sh','/work/probe2']+b)
    pa.wait();pb.wait()
    before=len(det)+len(ref)
    read(keep,[f'/tmp/flip/out/{x}.log' for x in cr])
    if len(det)+len(ref)==before: print('no progress'); break
json.dump(sorted(det),open('/tmp/flip/det.json','w')); json.dump(sorted(ref),open('/tmp/flip/ref.json','w')); json.dump([x for x in byid if x not in det and x not in ref],open('/tmp/flip/unknown.json','w'))
print('end det',len(det),'ref',len(ref))
