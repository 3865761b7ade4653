#!/usr/bin/env python3
"""Derives bounds of loops from the code of an image, as a plain prototype: intervals of the registers at each address, differences of two
registers, and a certificate for each loop. Each clause of `IsInvariant` and `IsCertificate` (crates/bound_laws) is then tested as it is
stated there, edge by edge. What finds the intervals is of no account; what tests them is.

    bench/derive_bounds.py IMAGE

It prints, by the address of each loop's header, the bound, the measure (register, factor, other register, its factor, shift), the measure's
interval at the header, and the least that a turn adds."""
import struct
import sys
from math import gcd

M = 1 << 32
H = 1 << 31
def sx(v,b): return v-(1<<b) if v>>(b-1)&1 else v
def dec(w):
    op=w&0x7f; rd=w>>7&31; f3=w>>12&7; rs1=w>>15&31; rs2=w>>20&31; f7=w>>25
    if op==0x37: return ('Lui',rd,w&0xfffff000)
    if op==0x17: return ('Auipc',rd,w&0xfffff000)
    if op==0x6f: return ('Jal',rd,sx((w>>31&1)<<20|(w>>12&0xff)<<12|(w>>20&1)<<11|(w>>21&0x3ff)<<1,21))
    if op==0x67: return ('Jalr',rd,rs1,sx(w>>20,12))
    if op==0x63: return ('Branch',{0:'Beq',1:'Bne',4:'Blt',5:'Bge',6:'Bltu',7:'Bgeu'}[f3],rs1,rs2,sx((w>>31&1)<<12|(w>>7&1)<<11|(w>>25&0x3f)<<5|(w>>8&0xf)<<1,13))
    if op==0x03: return ('Load',{0:'Lb',1:'Lh',2:'Lw',4:'Lbu',5:'Lhu'}[f3],rd,rs1,sx(w>>20,12))
    if op==0x23: return ('Store',f3,rs1,rs2,0)
    if op==0x13:
        n={0:'Addi',1:'Slli',2:'Slti',3:'Sltiu',4:'Xori',5:'Srai' if f7==0x20 else 'Srli',6:'Ori',7:'Andi'}[f3]
        return ('Imm',n,rd,rs1,(w>>20&31) if f3 in(1,5) else sx(w>>20,12))
    if op==0x33:
        if f7==1: n=['Mul','Mulh','Mulhsu','Mulhu','Div','Divu','Rem','Remu'][f3]
        else: n=[('Sub' if f7==0x20 else 'Add'),'Sll','Slt','Sltu','Xor',('Sra' if f7==0x20 else 'Srl'),'Or','And'][f3]
        return ('Reg',n,rd,rs1,rs2)
    if op==0x0f: return ('Fence',)
    if w==0x73: return ('Ecall',)
    if w==0x100073: return ('Ebreak',)
    return None
def target(i):
    k=i[0]
    if k in('Lui','Auipc','Jal','Jalr'): return i[1]
    if k in('Load','Imm','Reg'): return i[2]
    if k=='Ecall': return 10
    return None
keeps=lambda r,i: target(i)!=r
class Prog:
    def __init__(s,path):
        b=open(path,'rb').read(); s.entry,phoff=struct.unpack_from('<II',b,24); num=struct.unpack_from('<H',b,44)[0]; s.ins={}
        for k in range(num):
            kind,off,va,_,filesz,memsz,flags=struct.unpack_from('<IIIIIII',b,phoff+32*k)
            if kind==1 and flags&1: s.ins.update({va+n:dec(struct.unpack_from('<I',b,off+n)[0]) for n in range(0,filesz//4*4,4)})
        s.reach()
    def known17(s,v):   # nearest addi x17,x0,k straight before
        for m in range(1,17):
            u=v-4*m
            if u not in s.ins or (u+4) in s.targets: return None
            i=s.ins[u]
            if i and i[0]=='Imm' and i[1]=='Addi' and i[2]==17 and i[3]==0: return i[4]%M
            if i is None or i[0] in('Branch','Jal','Jalr','Ecall','Ebreak') or target(i)==17: return None
    def kind(s,v):
        i=s.ins.get(v)
        if i is None: return ('Refused',)
        k=i[0]
        if k=='Branch': return ('Branch',(v+i[4])%M)
        if k=='Jal': return ('Jump',(v+i[2])%M) if i[1]==0 else ('Call',(v+i[2])%M) if i[1]==1 else ('Refused',)
        if k=='Jalr': return ('Return',) if i[1:]==(0,1,0) else ('Refused',)
        if k=='Ecall':
            n=s.known17(v); return ('MayExit',) if n is None else ('Exit',) if n in(93,94) else ('Next',)
        if k=='Ebreak': return ('Breakpoint',)
        return ('Next',)
    def reach(s):
        s.targets={s.entry}|{(v+(i[4] if i[0]=='Branch' else i[2]))%M for v,i in s.ins.items() if i and i[0] in('Branch','Jal')}
        R=set(); R.add((s.entry,s.entry)); ch=True
        while ch:
            ch=False
            ret={f for f,v in R if s.kind(v)[0]=='Return'}
            for f,v in list(R):
                k=s.kind(v); new=[]
                if k[0]=='Branch': new=[(f,k[1]),(f,v+4)]
                elif k[0]=='Jump': new=[(f,k[1])]
                elif k[0] in('Next','MayExit'): new=[(f,v+4)]
                elif k[0]=='Call':
                    new=[(k[1],k[1])]+([(f,v+4)] if k[1] in ret else [])
                elif k[0]=='Refused': raise Exception('refused %x'%v)
                for x in new:
                    if x not in R: R.add(x); ch=True
        s.owner={v:f for f,v in R}; s.nodes=sorted(s.owner); s.ret=ret
        s.steps=[];s.back=[];s.calls=[];s.rets=[]
        for v in s.nodes:
            k=s.kind(v)
            if k[0]=='Branch': s.steps+=[(v,k[1]),(v,v+4)]
            elif k[0]=='Jump': s.steps.append((v,k[1]))
            elif k[0] in('Next','MayExit'): s.steps.append((v,v+4))
            elif k[0]=='Call':
                s.calls.append((v,k[1]))
                if k[1] in ret: s.back.append((v,k[1],v+4))
            elif k[0]=='Return': s.rets.append(v)
        s.leads=s.steps+[(u,b) for u,_,b in s.back]
def loops(p):
    # back edges by dominators within each function
    res={}
    for f in set(p.owner.values()):
        N=[v for v in p.nodes if p.owner[v]==f]; pred={v:[a for a,b in p.leads if b==v] for v in N}
        dom={v:set(N) for v in N}; dom[f]={f}; ch=True
        while ch:
            ch=False
            for v in N:
                if v==f: continue
                ps=[dom[a] for a in pred[v]]
                n=set.intersection(*ps)|{v} if ps else {v}
                if n!=dom[v]: dom[v]=n; ch=True
        for a,b in p.leads:
            if p.owner[a]==f and b in dom[a]: res.setdefault(b,set()).add(a)
    return res
OPP={'Beq':'Bne','Bne':'Beq','Blt':'Bge','Bge':'Blt','Bltu':'Bgeu','Bgeu':'Bltu'}
WORD=(0,M-1,1)
ahead=lambda low,v:(v-low)%M
mult=lambda s,n: n==0 if s==0 else n%s==0
def covers(b,s):
    if b is None: return True
    if s is None: return False
    return (b[1]>=M-1 and b[2]==1) or (ahead(b[0],s[0])+s[1]<=b[1] and b[1]<M and mult(b[2],ahead(b[0],s[0])) and mult(b[2],s[2]))
ex=lambda n:(n%M,0,0)
def top(a): return a[0]+a[1] if a[0]+a[1]<M else M-1
def cs(s,t): return t if s==0 else s if t==0 else s if s==t else 1
def sum_of(i,j):
    if i is None or j is None: return WORD
    return ((i[0]+j[0])%M,i[1]+j[1],cs(i[2],j[2])) if i[1]+j[1]<M else WORD
def sum_with(i,n): return WORD if i is None else ((i[0]+n)%M,i[1],i[2])
whole=lambda i: i[1]<M and mult(i[2],i[1])
def neg(i): return ((-(i[0]+i[1]))%M,i[1],i[2] if whole(i) else 1)
def diff(i,j): return WORD if j is None else sum_of(i,neg(j))
def common(i,j):
    if i is None: return None if j is None else (0,top(j),1)
    return (0,min(top(i),M-1 if j is None else top(j)),1)
def times(i,f):
    if i is None: return WORD
    return (i[0]*f,i[1]*f,i[2]*f) if (i[0]+i[1])*f<M else WORD
wf=lambda i: None if i is None else WORD
held=lambda A,r: A[r] if 0<r<32 else (0,0,0)
def written(i,pc,A):
    k=i[0]
    if k=='Lui': return ex(i[2])
    if k=='Auipc': return ex(pc+i[2])
    if k in('Jal','Jalr'): return ex(pc+4)
    if k=='Load': return {'Lbu':(0,255,1),'Lhu':(0,65535,1),'Lw':WORD}.get(i[1])
    if k=='Imm':
        a=held(A,i[3]); n=i[4]%M; o=i[1]
        return {'Addi':lambda:sum_with(a,n),'Andi':lambda:common(a,ex(n)),'Slti':lambda:(0,1,1),'Sltiu':lambda:(0,1,1),'Slli':lambda:times(a,1<<(n%32)),'Srli':lambda:wf(a)}.get(o,lambda:None)()
    if k=='Reg':
        a,b=held(A,i[3]),held(A,i[4]); o=i[1]
        return {'Add':lambda:sum_of(a,b),'Sub':lambda:diff(a,b),'And':lambda:common(a,b),'Slt':lambda:(0,1,1),'Sltu':lambda:(0,1,1),'Sll':lambda:WORD,'Mul':lambda:WORD,'Srl':lambda:wf(a),'Divu':lambda:wf(a),'Remu':lambda:wf(a)}.get(o,lambda:None)()
    if k=='Ecall':
        c=held(A,12); return (M-38,38+min(256,M-1 if c is None else top(c)),1)
    return None
def said(i,pc,nx):
    if i[0]!='Branch': return None
    if nx!=(pc+4)%M: return (i[1],i[2],i[3])
    if nx!=(pc+i[4])%M: return (OPP[i[1]],i[2],i[3])
    return None
signed=lambda op: op in('Blt','Bge')
plain=lambda l,m:(l,l+m) if l+m<M else (0,M-1)
view=lambda op,i: plain((i[0]+H)%M,i[1]) if signed(op) else plain(i[0],i[1])
ofview=lambda op,i: ((i[0]+H)%M if signed(op) else i[0],max(0,i[1]-i[0]),1)
below=lambda i,j:(i[0],min(i[1],max(0,j[1]-1)))
above=lambda i,j:(max(i[0],j[0]+1),i[1])
atm=lambda i,j:(i[0],min(i[1],j[1]))
atl=lambda i,j:(max(i[0],j[0]),i[1])
both=lambda i,j:(max(i[0],j[0]),min(i[1],j[1]))
wo=lambda i,j:(i[0]+1 if j[0]==j[1]==i[0] else i[0], max(0,i[1]-1) if j[0]==j[1]==i[1] else i[1])
FR={'Beq':both,'Bne':wo,'Blt':below,'Bge':atl,'Bltu':below,'Bgeu':atl}
SR={'Beq':both,'Bne':wo,'Blt':above,'Bge':atm,'Bltu':above,'Bgeu':atm}
fr=lambda op,i,j:FR[op](i,j)
sr=lambda op,i,j:SR[op](j,i)
def impossible(s,A):
    if s is None: return False
    op,a,b=s; i,j=held(A,a),held(A,b)
    if i is None or j is None: return False
    x,y=fr(op,view(op,i),view(op,j)),sr(op,view(op,i),view(op,j))
    return x[1]<x[0] or y[1]<y[0]
def kept(s,A,r):
    if s is None: return A[r]
    op,a,b=s; i,j=held(A,a),held(A,b)
    if op=='Bne' and r in(a,b):
        x,y=(i,j) if r==a else (j,i)
        return None if x is None else x if y is None else without(x,y[0]) if y[1]==0 else x
    if r==a: return None if i is None else i if j is None else ofview(op,fr(op,view(op,i),view(op,j)))
    if r==b: return None if j is None else j if i is None else ofview(op,sr(op,view(op,i),view(op,j)))
    return A[r]
keepz=lambda r,i: r==0 or keeps(r,i)
def passed(i,pc,nx,A):
    s=said(i,pc,nx)
    return [None]+[kept(s,A,r) if keepz(r,i) else written(i,pc,A) for r in range(1,32)]
# measures: (r,f,o,g,shift)
def effect(m,i):
    r,f,o,g,s=m
    def added(r,f): return f*i[4]%M if i[0]=='Imm' and i[1]=='Addi' and i[2]==r and i[3]==r else None
    kr,ko=keepz(r,i),keepz(o,i)
    return 0 if kr and ko else added(r,f) if ko else added(o,g) if kr else None
def scaled(f,i): return (0,0,0) if f==0 else WORD if i is None else i if f==1 else neg(i) if f==M-1 else WORD
def line_of(m,A): return sum_with(sum_of(scaled(m[1],held(A,m[0])),scaled(m[3],held(A,m[2]))),m[4])
def without(i,n):
    if i is None: return None
    if i[0]==n: return ((i[0]+i[2])%M,max(0,i[1]-i[2]),i[2])
    if (i[0]+i[1])%M==n: return (i[0],max(0,i[1]-(i[2] if whole(i) else 1)),i[2])
    return i
def isdiff(s,m,A):
    if s is None: return False
    op,a,b=s
    return op in('Bne','Blt','Bltu') and held(A,m[0]) is not None and held(A,m[2]) is not None and {(m[0],m[2])}<={(a,b),(b,a)} and (m[1],m[3]) in((1,M-1),(M-1,1))
def join(a,b,depth=0):
    if a is None or b is None: return None
    c=[]
    for lo in (a[0],b[0]):
        n=max(ahead(lo,a[0])+a[1],ahead(lo,b[0])+b[1])
        st=gcd(gcd(a[2],b[2]),gcd(ahead(lo,a[0]),ahead(lo,b[0])))
        c.append((lo,n,st) if n<M else WORD)
    best=min(c,key=lambda x:x[1])
    return best if covers(best,a) and covers(best,b) else WORD
def refine_line(o,new):   # the smaller
    return o if new is None else new if o is None else min(o,new,key=lambda x:x[1])
BOT='bot'
class Ana:
    def __init__(s,p,forms,thr):
        s.p=p; s.F=forms; s.thr=sorted(thr)
        wr={f:set() for f in set(p.owner.values())}
        for v in p.nodes:
            t=target(p.ins[v])
            if t: wr[p.owner[v]].add(t)
        ch=True
        while ch:
            ch=False
            for u,g in p.calls:
                n=wr[p.owner[u]]|wr[g]
                if n!=wr[p.owner[u]]: wr[p.owner[u]]=n; ch=True
        s.calm=lambda r,v: r not in wr[p.owner[v]]
        s.run()
    def widen(s,old,j,cnt):
        if j is None or cnt<=12 or j==WORD: return j
        if cnt>120: return WORD
        # grow to thresholds on the side that moves
        lo=j[0]; hi=j[0]+j[1]
        if j[0]!=old[0]:
            c=[t for t in s.thr if ahead(t,old[0])<=ahead(t,j[0])+M and ahead(t,j[0])<M//2]
            if c: lo=min(c,key=lambda t:ahead(t,j[0])); 
            else: return WORD
        end=(j[0]+j[1])%M
        if end!=(old[0]+old[1])%M:
            c=[t for t in s.thr if ahead(end,t)<M//2]
            if not c: return WORD
            end=min(c,key=lambda t:ahead(end,t))
        n=ahead(lo,end); st=gcd(j[2],ahead(lo,j[0])) or 1
        if n<ahead(lo,j[0])+j[1]: return WORD
        # keep the stride: the last number a multiple behind the first
        lo2=(j[0]-ahead(lo,j[0])//j[2]*j[2])%M if j[2] else j[0]
        n2=ahead(lo2,end); st=j[2] or 1; n2=-(-n2//st)*st
        r=(lo2,n2,st)
        return r if n2<M-1 and covers(r,j) else WORD
    def state_after(s,i,a,b):
        A,L=s.at[a]
        P=passed(i,a,b,A); sd=said(i,a,b); LN=[]
        for m,l in zip(s.F,L):
            o=line_of(m,P); e=effect(m,i)
            if e is not None:
                o=refine_line(o,sum_with(l,e))
                if e==0 and isdiff(sd,m,A): o=refine_line(o,without(l,m[4]%M))
            LN.append(o)
        return (P,LN)
    def flow(s,b,new):
        old=s.at.get(b)
        if old is None: s.at[b]=(list(new[0]),list(new[1])); return True
        ch=False; A,L=list(old[0]),list(old[1])
        for r in range(1,32):
            j=join(old[0][r],new[0][r])
            if not covers(old[0][r],new[0][r]): s.cnt[b,r]=s.cnt.get((b,r),0)+1; A[r]=s.widen(old[0][r],j,s.cnt[b,r]); ch=True
        for k in range(len(L)):
            if not covers(old[1][k],new[1][k]): s.cnt[b,-k-1]=s.cnt.get((b,-k-1),0)+1; L[k]=s.widen(old[1][k],join(old[1][k],new[1][k]),s.cnt[b,-k-1]); ch=True
        if ch: s.at[b]=(A,L)
        return ch
    def run(s):
        p=s.p; s.at={}; s.cnt={}; s.ex={}
        st=[(0,0,0)]*32; st[2]=(0x7FFFFFF0,0,0)
        s.at[p.entry]=(st,[line_of(m,st) for m in s.F])
        succ={}
        for a,b in p.steps: succ.setdefault(a,[]).append(b)
        work=[p.entry]; n=0
        while work:
            a=work.pop(0); i=p.ins[a]; wl=[]; n+=1
            for b in succ.get(a,[])+[g for u,g in p.calls if u==a]:
                if impossible(said(i,a,b),s.at[a][0]): continue
                if s.flow(b,s.state_after(i,a,b)): wl.append(b)
            if a in p.rets:
                f=p.owner[a]; e=s.ex.get(f); nw=[None]+[s.at[a][0][r] if e is None else (e[r] if covers(e[r],s.at[a][0][r]) else s.widen(e[r],join(e[r],s.at[a][0][r]),50)) for r in range(1,32)]
                if nw!=e: s.ex[f]=nw; wl+=[u for u,g,b in p.back if g==f and u in s.at]
            for u,g,b in p.back:
                if u==a and g in s.ex:
                    c=lambda r: s.calm(r,g) and keepz(r,p.ins[u])
                    A=[None]+[s.at[u][0][r] if c(r) else s.ex[g][r] for r in range(1,32)]
                    L=[refine_line(line_of(m,A), l if c(m[0]) and c(m[2]) else None) for m,l in zip(s.F,s.at[u][1])]
                    if s.flow(b,(A,L)): wl.append(b)
            for w in wl:
                if w not in work: work.append(w)
    def check(s):
        p=s.p; at=s.at; F=s.F
        dead={v for v in p.nodes if v not in at}
        for m in F: assert 0<m[0]<32 and 0<m[2]<32
        for a,b in p.steps+p.calls:
            i=p.ins[a]
            if a in dead: continue     # a state with no numbers: given as impossible to the prover by intervals that no way covers
            A,L=at[a]
            if impossible(said(i,a,b),A): continue
            assert b not in dead
            P=passed(i,a,b,A); B,K=at[b]
            for r in range(1,32): assert covers(B[r],P[r]) or (keepz(r,i) and covers(B[r],A[r])),(hex(a),hex(b),r)
            for j,m in enumerate(F):
                e=effect(m,i)
                ok=covers(K[j],line_of(m,P)) or (e is not None and (covers(K[j],sum_with(L[j],e)) or (e==0 and isdiff(said(i,a,b),m,A) and covers(K[j],without(L[j],m[4]%M)))))
                assert ok,(hex(a),hex(b),m,K[j],L[j])
        for e in p.rets:
            if e in dead: continue
            for r in range(1,32): assert keepz(r,p.ins[e]) and covers(s.ex[p.owner[e]][r],at[e][0][r])
        for u,g,b in p.back:
            if u in dead or g not in s.ex: continue
            c=lambda r: s.calm(r,g) and keepz(r,p.ins[u])
            for r in range(1,32): assert (c(r) and covers(at[b][0][r],at[u][0][r])) or covers(at[b][0][r],s.ex[g][r])
            for j,m in enumerate(F): assert (c(m[0]) and c(m[2]) and covers(at[b][1][j],at[u][1][j])) or covers(at[b][1][j],line_of(m,at[b][0]))
        for r in range(1,32):
            for a,b in p.leads+p.calls: assert not s.calm(r,a) or s.calm(r,b)
            for e in p.nodes: assert not s.calm(r,e) or keepz(r,p.ins[e])
        return dead
def certificate(p,an,h,backs):
    body={h}; w=list(backs)
    while w:
        x=w.pop()
        if x in body: continue
        body.add(x); w+=[a for a,b in p.leads if b==x]
    if any(b in body and b!=h and a not in body for a,b in p.leads) or any(b in body and b!=h for a,b in p.calls): return []
    cands=[(r,f,0,0,0) for r in range(1,32) for f in(1,M-1)]+[m for m in an.F]+[((m[0],(-m[1])%M,m[2],(-m[3])%M,(-m[4])%M)) for m in an.F]
    out=[]
    for m in cands:
        off={h:0}; w=[h]; ok=True; turns=[]
        while w and ok:
            a=w.pop()
            for x,b in p.leads:
                if x!=a or b not in body: continue
                e=effect(m,p.ins[a])
                if e is None: ok=False; break
                bh=(off[a]+e)%M
                if b==h: turns.append(bh)
                elif b in off: ok=ok and off[b]==bh
                else: off[b]=bh; w.append(b)
        if not ok or not turns: continue
        # shift so that the interval starts at 0
        A,L=an.at[h]
        if m[2]==0: i=line_of(m,A)
        else:
            ks=[k for k,x in enumerate(an.F) if x[:4]==m[:4]]; i=L[ks[0]] if ks else None
            if ks: i=sum_with(i,(m[4]-an.F[ks[0]][4])%M)
            else: i=line_of(m,A)
        if i is None: continue
        width=i[1]; least=min(turns)
        if least==0 or any(t+width>=M for t in turns): continue
        quiet=set(); w=[g for u,g in p.calls if u in body]
        if any(effect(m,p.ins[u])!=0 for u,g in p.calls if u in body): continue
        good=True
        while w:
            x=w.pop()
            if x in quiet: continue
            quiet.add(x)
            if effect(m,p.ins[x])!=0: good=False; break
            w+=[b for a,b in p.leads if a==x]+[b for a,b in p.calls if a==x]
        if good and h not in quiet: out.append((width//least,m,i,least))
    return sorted(out)
if __name__=='__main__':
    p=Prog(sys.argv[1])
    L=loops(p)
    # forms: of each branch within a loop that compares two registers
    forms=[]
    for v in p.nodes:
        i=p.ins[v]
        if i[0]=='Branch' and i[2] and i[3] and i[2]!=i[3]:
            for m in ((i[2],1,i[3],M-1,0),(i[2],M-1,i[3],1,0)):
                if m not in forms: forms.append(m)
    thr={x%M for v in p.nodes for i in [p.ins[v]] if i[0]=='Imm' for x in (i[4],i[4]-1,i[4]+1,-i[4])}|{0,1,M-1,H,H-1}
    an=Ana(p,forms,thr)
    for k in range(2):
        thr|={(x+d)%M for A,_ in an.at.values() for i in A[1:] if i and i[1]<=256 for x in (i[0],i[0]+i[1]) for d in(-1,0,1)}
        an=Ana(p,forms,thr)
    dead=an.check()
    print(len(p.nodes),'nodes,',len(forms),'lines; invariant confirmed;',len(L),'loops; dead',len(dead))
    for h in sorted(L):
        if h in dead: print(hex(h),'dead'); continue
        c=certificate(p,an,h,L[h])
        print(hex(h),c[0] if c and c[0][0]<2**31 else 'no certificate')
