#!/usr/bin/env python3
"""Captures of devices that mostly do what the reference does, with what a second reading says of them.

  captures.py REFERENCE FOLDER FIRST COUNT

REFERENCE is the prototype of hsr_tap with reference.patch (beside this file) applied. FOLDER gets for each number a capture, a device (.toml), the
word of the arguments (.args) and the full report to expect (.ref).
"""
import os
import random
import struct
import subprocess
import sys

REFERENCE, FOLDER, FIRST, COUNT = sys.argv[1], sys.argv[2], int(sys.argv[3]), int(sys.argv[4])
exec(compile(open(REFERENCE).read().split("if __name__ ==")[0], REFERENCE, 'exec'))
def block(kind, body):
    body += b'\0'*(-len(body)%4)
    n=len(body)+12
    return struct.pack('<II',kind,n)+body+struct.pack('<I',n)
def opt(code,val): return struct.pack('<HH',code,len(val))+val+b'\0'*(-len(val)%4)
def pcapng(names, packets):
    out=block(0x0A0D0D0A, struct.pack('<IHHq',0x1A2B3C4D,1,0,-1))
    for n in names: out+=block(1, struct.pack('<HHI',1,0,0)+opt(2,n.encode())+opt(9,b'\x09')+opt(0,b''))
    for (at,i,flags,octets,length) in packets:
        b=struct.pack('<IIIII',i,at>>32,at&0xffffffff,len(octets),length)+octets+b'\0'*(-len(octets)%4)
        if flags: b+=opt(2,struct.pack('<I',flags))+opt(0,b'')
        out+=block(6,b)
    return out
MACS=[bytes([2,0,0,0,0,i]) for i in range(1,8)]
OWN=bytes([2,0,0,0,0,9]); ST=[bytes([2,0,0,0,1,i]) for i in range(1,4)]
GROUP=bytes.fromhex('01005E000001')
def mk(seed):
    r=random.Random(seed)
    role=r.choice(['danh','danh','redbox','redbox','quadbox'])
    mode=r.choice('HHHNU'); table=r.choice([512,512,4,1,16])
    stations=ST[:r.randint(0,2)] if role=='redbox' and r.random()<.5 else []
    dev_start=r.choice([0,64512,65534,100]); 
    node=Node(role, None if role=='quadbox' else OWN, mode, table, stations)
    node.next=dev_start; node.lives=r.choice([0,65535,7])
    life0=node.lives
    t=1700000000*10**9+r.randrange(10**9)
    start=t
    ends=PORTS[role]
    ev=[]  # (time, end, way, octets)
    seqs={m:r.choice([0,65530,500]) for m in MACS}
    recent=[]
    def emit(copies, at, lag=True):
        for c in copies:
            d=r.choice([0,1,50,999,1000,118533,400000]) if lag else 0
            ev.append((at+d*1000//1 if d<1001 else at+d, c.out,'out',bytes(c.octets)))
    n=r.randint(5,40)
    for _ in range(n):
        t+=r.choice([0,1,999,1000,50_000,1_000_000,20_000_000,399_000_000,401_000_000])
        us=(t-start)//1000
        k=r.random()
        if k<.55:   # arrival at ring port
            port=r.choice([e for e in ends if e!='I'])
            if recent and r.random()<.5:
                octets=r.choice(recent)
            elif r.random()<.1:
                octets=r.choice([b'\1\2\3', MACS[0]+MACS[1]+b'\x08\x00'+b'hi'*20, GROUP+MACS[2]+bytes.fromhex('892F100A0001892F')+b'x'*20, GROUP+bytes([1,0,0,0,0,1])+bytes.fromhex('892F100A00010800')+b'x'*20, MACS[1]+MACS[2]+bytes.fromhex('892F10')])
            else:
                m=r.choice(MACS); seqs[m]=(seqs[m]+r.choice([1,1,1,2]))%65536
                dst=r.choice([GROUP,GROUP,OWN,MACS[0],ST[0],SUPERVISION])
                kind=LIFE if dst==SUPERVISION else 0x0800
                pl=struct.pack('>HHBB',1,5,23,6)+m+bytes(34) if dst==SUPERVISION else bytes(r.randrange(256) for _ in range(r.choice([0,4,20,46,60])))
                if r.random()<.3: pl=pl.ljust(46,b'\0')
                f=Frame(dst,m,r.choice([None,None,0x2005]),kind,pl)
                octets=f.tagged(r.choice([0,1]),seqs[m]); recent.append(octets); recent=recent[-6:]
            ev.append((t,port,'in',octets))
            cause,copies=node.arrive(us,port,octets)
            emit(copies,t)
        elif k<.7 and role=='redbox':
            s=r.choice(ST); dst=r.choice([GROUP,MACS[0],OWN,ST[1]])
            f=Frame(dst,s,None,0x0800,bytes(r.randrange(256) for _ in range(r.choice([4,46]))))
            octets=f.plain() if r.random()<.95 else f.tagged(0,3)
            ev.append((t,'I','in',octets))
            if r.random()<.1: node.next=(node.next+r.choice([1,5]))%65536
            cause,copies=node.arrive(us,'I',octets)
            emit(copies,t)
            for c in copies:
                if c.out in 'AB' : recent.append(bytes(c.octets))
            recent=recent[-6:]
        elif k<.85 and role!='quadbox':
            f=Frame(r.choice([GROUP,MACS[0],MACS[1],OWN] if r.random()<.2 else [GROUP,MACS[0]]),OWN,r.choice([None,None,7]),0x0806,bytes(r.randrange(256) for _ in range(r.choice([4,28,46]))))
            if r.random()<.1: node.next=(node.next+r.choice([1,5]))%65536
            copies=node.send(us,f)
            ev.append((t,'up','in',f.plain()))
            if not isinstance(copies,int): emit(copies,t)
        elif role!='quadbox':
            about=OWN if role=='danh' or r.random()<.6 else r.choice(ST)
            if r.random()<.1: node.lives=(node.lives+3)%65536
            copies=node.life(us,about)
            if not isinstance(copies,int):
                emit(copies,t)
    # mutate outputs
    out=[]
    for (at,end,way,o) in ev:
        if way=='out':
            k=r.random()
            if k<.05: continue
            if k<.09: at+=r.choice([2_000_000,300_000_000,401_000_000])
            elif k<.16 and len(o)>26:
                b=bytearray(o); w=r.choice([3,11,15,14,17,-1,len(o)//2]); b[w]^=r.choice([1,16,255]); o=bytes(b)
            elif k<.19: o=o.rstrip(b'\0')[:] if r.random()<.5 else o+bytes(r.choice([2,18]))
            elif k<.22: out.append((at+r.choice([1000,5_000_000,450_000_000]),end,way,o))
            elif k<.24:
                f=read(o)
                if isinstance(f,Frame) and f.seq is not None: o=f.plain()
        out.append((at,end,way,o))
    if r.random()<.2: out.append((t,'up' if role!='quadbox' else 'A','out',GROUP+ST[2]+b'\x08\x00stray'))
    out=[(max(start,a),e,w,o) for a,e,w,o in out]
    # taps
    names=[];doc={};packets=[]
    idx={}
    drop=set()
    for e in ['up',*ends]:
        if r.random()<.12: drop.add(e)
    style=r.choice(['split','flags','mix'])
    for e in ['up',*ends]:
        if role=='quadbox' and e=='up' : continue
        s=style if style!='mix' else r.choice(['split','flags'])
        if s=='split':
            for w in ('in','out'):
                nm=f'{e}-{w}' if r.random()<.8 else ''
                names.append(nm); i=len(names)-1; idx[e,w]=(i,0)
                if e not in drop and not (w=='out' and r.random()<.05): doc[nm or str(i)]=f'{e} {w}'
        else:
            names.append(f'dev{e}'); i=len(names)-1
            for w in ('in','out'):
                fl={'in':1,'out':2}[w] if e!='up' else {'in':2,'out':1}[w]
                idx[e,w]=(i,fl)
            if e not in drop: doc[f'dev{e}']=e
    snap=r.choice([0,0,0,40,64])
    for at,e,w,o in out:
        if (e,w) not in idx: continue
        i,fl=idx[e,w]
        k=o[:snap] if snap else o
        packets.append((at,i,fl,k,len(o)))
    packets.sort(key=lambda p:(p[0]//r.choice([1,1]),))
    if r.random()<.3 and len(packets)>3:
        a=r.randrange(len(packets)-1); packets[a],packets[a+1]=packets[a+1],packets[a]
    # duplicates of '' names break: fine
    toml=[f'role = "{role}"']
    if role!='quadbox': toml.append(f'mac = "{address(OWN)}"')
    toml.append(f'mode = "{mode}"'); toml.append(f'table = {table}')
    toml.append(f'within_us = {r.choice([50,118,1000,20000])}')
    if r.random()<.3: toml.append(f'early_us = {r.choice([1,100,5000])}')
    if r.random()<.2: toml.append('from_us = 1000')
    if r.random()<.2: toml.append(f'until_us = {r.choice([100000,1000000,50000000])}')
    if r.random()<.2: toml.append('warm_us = 400000')
    if r.random()<.3: toml.append(f'start = {dev_start}')
    if r.random()<.3: toml.append(f'life_start = {life0}')
    if r.random()<.4: toml.append(f'host = {r.choice(["true","false"])}')
    if r.random()<.2: toml.append('whole = true')
    if stations: toml.append('stations = ['+', '.join(f'"{address(s)}"' for s in stations)+']')
    ig=[w for w in IGNORES if r.random()<.3]
    toml.append('ignore = ['+', '.join(f'"{w}"' for w in ig)+']')
    if r.random()<.2: toml.append('down = [{port = "A", from_us = 0, until_us = 500000}]')
    toml.append('interface = {'+', '.join(f'"{k}" = "{v}"' for k,v in doc.items())+'}')
    return '\n'.join(toml)+'\n', pcapng(names,packets)
for s in range(FIRST, FIRST + COUNT):
    toml, cap = mk(s)
    d = os.path.join(FOLDER, f'r{s}')
    open(d + '.toml', 'w').write(toml)
    open(d, 'wb').write(cap)
    open(d + '.args', 'w').write(f'r{s}.toml\n')
    p = subprocess.run([sys.executable, REFERENCE, 'judge', d + '.toml'], stdin=open(d, 'rb'), capture_output=True, text=True)
    open(d + '.ref', 'w').write(p.stdout if p.returncode != 1 else p.stderr)
