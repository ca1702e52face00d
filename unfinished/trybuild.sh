n=$1
cd /tmp/tryt/$n; dir=crates/bench_listing; cp /tmp/kept/tiny.in $dir/stdin
reached=$(python3 - <<'E'
deps={}
for l in open('crates.txt'):
    l=l.split('#')[0].strip()
    if ':' in l:
        a,b=l.split(':'); deps[a]=b.split()
order=[];seen=set()
def go(x):
    for d in deps.get(x,[]):
        if d not in seen:
            seen.add(d); go(d); order.append(d)
go('bench_listing'); print(' '.join(order))
E
)
set --; for d in $reached; do if [ -d crates/$d ]; then set -- "$@" --lib "$d=crates/$d/src/lib.rt"; else set -- "$@" --lib "$d=/opt/rattle/libs/$d/src/lib.rt"; fi; done
rm -f /tmp/kept/*_clang /tmp/kept/*_ld.lld
/opt/rattle/on/x86_64/bin/rattle-cases --toolchain /tmp/tc --link /opt/rattle/lib/libos_c.a --stdin $dir/stdin $dir/src/main.rt --crate-name bench_listing --lib std=/opt/rattle/libs/std/src/lib.rt "$@" > /tmp/kept/$n.say 2>&1; tail -2 /tmp/kept/$n.say
rm -rf /tmp/kept/$n; mkdir -p /tmp/kept/$n; mv /tmp/kept/*_ld.lld /tmp/kept/*_clang /tmp/kept/$n/ 2>/dev/null
# the second linked program is -O3
p=$(ls /tmp/kept/$n/*_ld.lld | sed -n 2p); cp $p /tmp/kept/$n.O3; chmod +x /tmp/kept/$n.O3
