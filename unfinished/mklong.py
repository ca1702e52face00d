import struct,math
EDGE=2**30-1
def tri(a):
    r=math.isqrt(a); w=r if r*r==a else r+1; h=-(-a//w); s=w*h-a; o=-EDGE if w>EDGE else 0
    return struct.pack('<6i3I',o,o,o+w,o+s,o+1,o+h,*([0xffffffff]*3))
def file(areas):
    b=b''.join(map(tri,areas)); return struct.pack('<5I',20+len(b),len(areas),20,0,0)+b
for n in ('long_101','long_1023'):
    areas=[int(x) for x in open(f'/tmp/{n}.txt')]
    assert len(areas)==1024
    open(f'/tmp/kept/{n}.in','wb').write(bytes([9])+file(areas))
import random
random.seed(5)
# any area, uniform
for name,gen in (('uniform',lambda: random.randrange(1,2**52)),('sizes',lambda: 1+random.randrange(1<<random.randrange(1,53)))):
    open(f'/tmp/kept/{name}.in','wb').write(bytes([9])+file([gen() for _ in range(1024)]))
