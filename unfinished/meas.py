import subprocess,resource,sys,statistics,os
names=sys.argv[1:3]; rounds=int(sys.argv[3]) if len(sys.argv)>3 else 9
files=sys.argv[4].split(',') if len(sys.argv)>4 else ['apart1','apart2','apart64','apart65','apart1024','equal1024','equal2048','most1024','powers1024']
def run(n,f):
    a=resource.getrusage(resource.RUSAGE_CHILDREN)
    subprocess.run([f'/tmp/kept/{n}.O3'],stdin=open(f'/tmp/kept/{f}.in'),stdout=subprocess.DEVNULL)
    b=resource.getrusage(resource.RUSAGE_CHILDREN)
    return b.ru_utime-a.ru_utime+b.ru_stime-a.ru_stime
for f in files:
    t={n:[] for n in names}
    for r in range(rounds):
        for n in (names if r%2 else names[::-1]): t[n].append(run(f=f,n=n))
    m={n:statistics.median(t[n]) for n in names}
    p=open(f'/tmp/kept/{f}.in','rb').read(1)[0]
    print(f'{f:12} {m[names[1]]/m[names[0]]:5.3f}  base {m[names[0]]/2**p*1e6:8.2f} us  new {m[names[1]]/2**p*1e6:8.2f} us', flush=True)
