# A separate reader, written from document 01, Items 2, 4 and 9 of document 02 and the readings in docs/DECISIONS.md alone.
UNDEF=2**64-1
BYTES=range(96,16777217); OBJECTS=1024; BLOCKS=8192
class Ref(Exception):
    def __init__(s,n,met=0): s.n=n; s.met=met
def le(b,a,n): return int.from_bytes(b[a:a+n],'little')
def shared_by(b):
    """The address that an attribute's body shares, or None."""
    if len(b)<8: raise Ref(10)
    v=b[0]
    if v not in (1,2,3): raise Ref(3)
    fl=b[1] if v>1 else 0
    if fl&~1: raise Ref(3)
    up=7 if v==1 else 0
    n,t,d=[(le(b,i,2)+up)&~up for i in (2,4,6)]
    at=9 if v==3 else 8
    if at+n+t+d>len(b): raise Ref(10)
    if not fl: return None
    if t<10: raise Ref(10)
    p=b[at+n:at+n+t]
    if not (p[0]==2 or (p[0]==3 and p[1]==2)): raise Ref(3)
    return le(p,2,8)
class Walker:
    def __init__(s,im,lent):
        s.im=im; s.room=min(BLOCKS,lent//4); s.bs=[]; s.owner=0
    def superblock(s):
        im=s.im
        if len(im) not in BYTES: raise Ref(1)
        if im[:8]!=bytes([0x89,0x48,0x44,0x46,0xd,0xa,0x1a,0xa]): raise Ref(2)
        v=im[8]
        if v>1: raise Ref(3)
        if im[9] or im[10] or im[12] or im[13]!=8 or im[14]!=8: raise Ref(3)
        sh=4*v
        base,free,eof,drv=[le(im,24+sh+8*i,8) for i in range(4)]
        if base!=0 or free!=UNDEF or drv!=UNDEF: raise Ref(3)
        if len(im)<96+sh: raise Ref(4)
        s.leafK=le(im,16,2); s.intK=le(im,18,2)
        if s.leafK==0 or s.intK==0: raise Ref(4)
        r=56+sh
        s.root=le(im,r+8,8)
        if le(im,r+16,4) not in (0,1): raise Ref(4)
        if eof>len(im): raise Ref(4)
        s.eof=eof; s.sbsize=96+sh
    def fresh(s):
        s.bs=[]; s.owner=UNDEF; s.enter(0,s.sbsize,1); s.owner=0
    def enter(s,a,n,kind):
        if a+n>s.eof: raise Ref(5)
        for (x,m,_,_) in s.bs:
            if x<a+n and a<x+m: raise Ref(6,x)
        if len(s.bs)>=s.room: raise Ref(13)
        s.bs.append((a,n,kind,s.owner))
        return s.im[a:a+n]
    def msgs(s,b,place,out,attribute):
        i=0
        while i<len(b):
            if len(b)-i<8: raise Ref(10)
            t=le(b,i,2); z=le(b,i+2,2); f=b[i+4]
            if t not in (0,1,3,4,5,8,0xc,0xd,0xe,0x10,0x11,0x12): raise Ref(3)
            if z%8: raise Ref(10)
            if i+8+z>len(b): raise Ref(10)
            if f&2 and t!=3: raise Ref(3)
            body=b[i+8:i+8+z]
            if t in (0x10,0x11) and z<16: raise Ref(10)
            if t==0x10 and le(body,8,8)<8: raise Ref(10)
            if t==0xc: attribute(body)
            out.append((t,f,body,place+i+8))
            i+=8+z
    def header(s,a,attribute=lambda body:None):
        if a+16>s.eof: raise Ref(5)
        n=16+le(s.im,a+8,4)
        b=s.enter(a,n,2)
        if b[0]!=1: raise Ref(3)
        out=[]
        s.msgs(b[16:],a+16,out,attribute)
        k=0
        while True:
            cs=[m for m in out if m[0]==0x10]
            if k>=len(cs): break
            ca,cl=le(cs[k][2],0,8),le(cs[k][2],8,8)
            cb=s.enter(ca,cl,3)
            s.msgs(cb,ca,out,attribute)
            k+=1
        if len(out)!=le(b,2,2): raise Ref(10)
        c={t:[m for m in out if m[0]==t] for t in (1,3,8,0x11)}
        q=tuple(len(c[t]) for t in (1,3,8,0x11))
        if q==(0,0,0,1): return ('g',le(c[0x11][0][2],0,8),le(c[0x11][0][2],8,8))
        if q==(1,1,1,0): return ('d',c[1][0],c[3][0],c[8][0])
        if q==(0,1,0,0):
            if c[3][0][1]&2: raise Ref(10)
            return ('t',)
        raise Ref(10)
    def group(s,tree,heap,visit):
        h=s.enter(heap,32,4)
        if h[:4]!=b'HEAP' or h[4]!=0: raise Ref(7)
        size=le(h,8,8); head=le(h,16,8); sa=le(h,24,8)
        if size<8: raise Ref(9)
        seg=s.enter(sa,size,5)
        free=[]
        if head not in (1,UNDEF):
            off=head
            while True:
                if off+16>size: raise Ref(9)
                nx=le(seg,off,8); own=le(seg,off+8,8)
                if own<16 or off+own>size: raise Ref(9)
                for (x,m) in free:
                    if x<off+own and off<x+m: raise Ref(9)
                free.append((off,own))
                if nx==1: break
                off=nx
        def string(off):
            if off>=size: raise Ref(9)
            e=seg.find(b'\0',off)
            if e<0: raise Ref(9)
            return seg[off:e]
        def nofree(off,t):
            for (x,m) in free:
                if x<off+len(t)+1 and off<x+m: raise Ref(9)
        last=[b'']
        def snod(a,bounds):
            b=s.enter(a,8+80*s.leafK,7)
            if b[:4]!=b'SNOD' or b[4]!=1: raise Ref(7)
            c=le(b,6,2)
            if not 1<=c<=2*s.leafK: raise Ref(8)
            for i in range(c):
                e=b[8+40*i:48+40*i]
                off=le(e,0,8); t=string(off)
                if not 1<=len(t)<=255 or b'/' in t or t==b'.': raise Ref(9)
                nofree(off,t)
                if not last[0]<t: raise Ref(8)
                for lo,hi in bounds:
                    if not (lo<t<=hi): raise Ref(8)
                ty=le(e,16,4)
                if ty>2: raise Ref(8)
                if ty==2:
                    vo=le(e,24,4); v=string(vo); nofree(vo,v)
                visit(t,ty,le(e,8,8))
                last[0]=t
        def node(a,level,bounds):
            b=s.enter(a,32+32*s.intK,6)
            if b[:4]!=b'TREE': raise Ref(7)
            if b[4]!=0: raise Ref(8)
            lv=b[5]; used=le(b,6,2)
            if lv>8: raise Ref(8)
            if used>2*s.intK: raise Ref(8)
            if level is not None and lv!=level: raise Ref(8)
            if used==0:
                if level is None and lv==0: return
                raise Ref(8)
            ks=[string(le(b,24+16*i,8)) for i in range(used+1)]
            for i in range(used):
                ch=le(b,32+16*i,8); bd=bounds+[(ks[i],ks[i+1])]
                if lv==0: snod(ch,bd)
                else: node(ch,lv-1,bd)
        node(tree,None,[])
    def dataset(s,sp,dt,ly,share=lambda a:None):
        b=sp[2]
        if len(b)<8: raise Ref(11)
        if b[0]!=1: raise Ref(3)
        rank=b[1]
        if rank>32: raise Ref(11)
        fl=b[2]
        if fl&~1: raise Ref(3)
        if len(b)<8+8*rank: raise Ref(11)
        sizes=[le(b,8+8*i,8) for i in range(rank)]
        maxima=sizes
        if fl&1:
            if len(b)<8+16*rank: raise Ref(11)
            maxima=[le(b,8+8*rank+8*i,8) for i in range(rank)]
            if any(m<x for x,m in zip(sizes,maxima)): raise Ref(11)
        b=dt[2]; shared=dt[1]&2
        cls=ver=bits=es=sha=0
        if len(b)<8: raise Ref(11)
        if shared:
            if not (b[0]==2 or (b[0]==3 and b[1]==2)): raise Ref(3)
            if len(b)<10: raise Ref(11)
            sha=le(b,2,8)
            share(sha)
        else:
            cls=b[0]&15; ver=b[0]>>4
            if not 1<=ver<=3: raise Ref(3)
            if cls not in (0,1,3,4,5): raise Ref(3)
            bits=le(b,1,3); es=le(b,4,4)
            if es<1: raise Ref(11)
            need={0:12,4:12,1:20,3:8,5:8}[cls]
            if len(b)<need: raise Ref(11)
            if cls in (0,1,4):
                o=le(b,8,2); p=le(b,10,2)
                if p<1 or o+p>8*es: raise Ref(11)
        b=ly[2]
        if len(b)<8: raise Ref(11)
        if b[0]!=3: raise Ref(3)
        lc=b[1]
        if lc>1: raise Ref(3)
        if lc==0:
            ls=le(b,2,2)
            if 4+ls>len(b): raise Ref(11)
            la=ly[3]+4
        else:
            if len(b)<18: raise Ref(11)
            la=le(b,2,8); ls=le(b,10,8)
        if not shared:
            n=es
            for x in sizes: n*=x
            if n!=ls: raise Ref(11)
        if lc==1 and la!=UNDEF and ls>0: s.enter(la,ls,8)
        return rank,sizes,maxima,cls,ver,bits,es,sha,lc,la,ls
def words(bs,lent):
    w=[x for p in bs for x in p]
    return w+[0]*(lent-len(w))
def audit(im,lent):
    try:
        w=Walker(im,lent); w.superblock(); w.fresh()
        obs=[w.root]; counts={w.root:1}; kinds={}; shared=set()
        def discover(a):
            if a in counts: counts[a]+=1
            else:
                if len(obs)>=OBJECTS: raise Ref(12)
                obs.append(a); counts[a]=1
        def judge(a):
            if a in shared and kinds.get(a,'t')!='t': raise Ref(10)
        def share(a):
            discover(a); shared.add(a); judge(a)
        def attribute(b):
            a=shared_by(b)
            if a is not None: share(a)
        def visit(t,ty,a):
            if ty!=2: discover(a)
        i=0
        while i<len(obs):
            w.owner=i
            o=w.header(obs[i],attribute)
            kinds[obs[i]]=o[0]; judge(obs[i])
            if o[0]=='g': w.group(o[1],o[2],visit)
            elif o[0]=='d': w.dataset(*o[1:],share)
            i+=1
        return 0,0,len(w.bs),[(a,le(im,a+4,4),counts[a]) for a in obs],words(w.bs,lent)
    except Ref as e: return e.n,e.met,0,[],[0]*lent
def follow(im,path,lent,last,soft):
    ok=1<=len(path)<=1024 and path[0]==0x2f
    cs=[]
    if ok and len(path)>1:
        cs=bytes(path[1:]).split(b'/')
        ok=all(1<=len(c)<=255 and c!=b'.' and 0 not in c for c in cs)
    if not ok: raise Ref(14)
    w=Walker(im,lent); w.superblock()
    at=w.root
    for i,c in enumerate(cs):
        w.fresh()
        o=w.header(at)
        if o[0]!='g': raise Ref(17)
        got=[]
        def visit(t,ty,a):
            if t==c: got.append((ty,a))
        w.group(o[1],o[2],visit)
        if not got: raise Ref(15)
        ty,a=got[0]
        if ty==2:
            if i==len(cs)-1: return soft()
            raise Ref(16)
        at=a
    w.fresh()
    return last(w,at,w.header(at))
def lookup(im,path,lent):
    try:
        k,a=follow(im,path,lent,lambda w,at,o:({'g':1,'d':2,'t':3}[o[0]],at),lambda:(4,0))
        return 0,0,k,a,0,[0]*lent
    except Ref as e: return e.n,e.met,0,0,0,[0]*lent
def describe(im,path,lent):
    def last(w,at,o):
        if o[0]!='d': raise Ref(20)
        d=w.dataset(*o[1:])
        r,sz,mx=d[0],d[1],d[2]
        return (0,0,len(w.bs),r,sz+[0]*(32-r),mx+[0]*(32-r))+d[3:]+(words(w.bs,lent),)
    def soft(): raise Ref(20)
    try: return follow(im,path,lent,last,soft)
    except Ref as e: return (e.n,e.met,0,0,[0]*32,[0]*32,0,0,0,0,0,0,0,0,[0]*lent)
def mend(im,lent,log,n):
    num,met,bc,obs,l=audit(im,lent)
    if num: return num,met,0,0,0,[0]*lent,[0]*log,im
    wr=[(a+4,s,t) for a,s,t in obs if s!=t]
    if 2*len(wr)>log: return 18,0,0,0,0,[0]*lent,[0]*log,im
    m=min(n,len(wr)); b=bytearray(im)
    for f,s,t in wr[:m]: b[f:f+4]=t.to_bytes(4,'little')
    lw=[x for f,s,t in wr for x in (f,s*2**32+t)]
    return 0,0,bc,len(wr),m,l,lw+[0]*(log-len(lw)),bytes(b)
def undo(im,log,e,n):
    if len(im) not in BYTES: return 1,0,im
    if len(log)<2*e: return 18,0,im
    ch=[(log[2*i],log[2*i+1]>>32,log[2*i+1]&0xffffffff) for i in range(e)]
    for f,o,w in ch:
        if f+4>len(im) or le(im,f,4) not in (o,w): return 19,0,im
    b=bytearray(im); m=min(n,e)
    for f,o,w in reversed(ch[e-m:]): b[f:f+4]=o.to_bytes(4,'little')
    return 0,m,bytes(b)
