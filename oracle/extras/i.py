"""Writes the vectors of document 02's (i), why a cycle stopped: python3 i.py <path without suffix>.
The answers stand here as worked out by hand."""
import sys
from asm import *
MAX=2**63-1; MIN=-2**63
I64="Int64"
def one(text,ex,want,pre=(),enums=()):
    "one Int64 output v1, v1 = ex, behind the nodes pre; the first cycle: its cell, or a stop's number"
    com(text)
    f=FILE(*pre,NODE("O",[],[(1,I64)],[],[EQ(1,ex)]),enums=enums)
    ff(f,"admit 0 0 10")
    if isinstance(want,int): cyc(b"",stop(want,0,b"\0"+cI(0)))
    else: cyc(b"",ans(want,b"\1"+want))
def each(head,want,exprs):
    for t,ex in exprs: one(head+t,ex,want)
D=lambda a,b:O("Div",a,b)
M=lambda a,b:O("Mod",a,b)
SHL=lambda a,b:O("Shl",a,b)
SHR=lambda a,b:O("Shr",a,b)
ADD=lambda a,b:O("Add",a,b)
S=lambda x:CAST("Float32",F(x))
OV=ADD(I(MAX),I(1)); Z=D(I(1),I(0)); P=PRE(V(1)); W=NOT(I(1))
CNT=NODE("O",[],[(3,I64)],[],[EQ(3,ARROW(I(0),ADD(PRE(V(3)),I(1))))])
fn=lambda ex:NODE("F",[],[(3,I64)],[],[EQ(3,ex)])

com("what is written: 20 writes the moved state: v1 = n0(), v2 = 1 / v4, v4 = 0; n0 a counter; so do 21 and 18")
for no,ex,pre in [(20,D(I(1),V(4)),[]),(21,NOT(V(4)),[]),(18,CALL(1),[fn(PRE(V(3)))])]:
    f=FILE(CNT,*pre,NODE("O",[],[(1,I64),(2,I64)],[(4,I64)],[EQ(1,CALL(0)),EQ(2,ex)]))
    ff(f,"admit 0 0 38")
    for i in range(3): cyc(b"",stop(no,1,b"\0"+cI(0)*3+b"\1"+cI(i)))

one("pre: pre (v1 + 1) in a first cycle is 18",PRE(ADD(V(1),I(1))),18)
com("pre: 0 -> pre (v1 + 1) is 0, then 21")
f=FILE(NODE("O",[],[(1,I64)],[],[EQ(1,ARROW(I(0),PRE(ADD(V(1),I(1)))))]))
ff(f,"admit 0 0 10"); cyc(b"",ans(cI(0),b"\1"+cI(0))); cyc(b"",stop(21,0,b"\1"+cI(0)))
com("pre: pre v1 is 18 for ever")
f=FILE(NODE("O",[],[(1,I64)],[],[EQ(1,P)]))
ff(f,"admit 0 0 10")
for i in range(3): cyc(b"",stop(18,0,b"\0"+cI(0)))
com("pre: of a variant is 18 in a first cycle, then 21")
f=FILE(NODE("O",[],[(1,0)],[],[EQ(1,PRE(V(5)))]),enums=[[5,6]])
ff(f,"admit 0 0 10"); cyc(b"",stop(18,0,b"\0"+cE(5)))
f=FILE(NODE("O",[],[(1,0)],[],[EQ(1,ARROW(V(6),PRE(V(5))))]),enums=[[5,6]])
ff(f,"admit 0 0 10"); cyc(b"",ans(cE(6),b"\1"+cE(6))); cyc(b"",stop(21,0,b"\1"+cE(6)))
com("pre: of a constant is 18 in a first cycle too")
f=FILE(NODE("O",[],[(1,I64)],[],[EQ(1,PRE(V(5)))]),consts=[(5,I64,I(8))])
ff(f,"admit 0 0 19"); cyc(b"",stop(18,0,cI(8)+b"\0"+cI(0)))

com("first cycle: a Function is always at its first: n0 has v1 = pre v1; v2 = if v3 = 0 then 5 else n0(), v3 counts")
f=FILE(NODE("F",[],[(1,I64)],[],[EQ(1,P)]),
       NODE("O",[],[(2,I64)],[(3,I64)],[EQ(3,ARROW(I(0),ADD(PRE(V(3)),I(1)))),EQ(2,IF(O("Eq",V(3),I(0)),I(5),CALL(0)))]))
ff(f,"admit 0 0 19"); cyc(b"",ans(cI(5)+cI(0),b"\1"+cI(5)+cI(0))); cyc(b"",stop(18,1,b"\1"+cI(5)+cI(0)))
com("first cycle: an operator that fails goes back to fresh and is cold again: n0(d) has v2 = 10 / d, v3 = if d = 5 then pre v3 else 1")
K=NODE("O",[(1,I64)],[(2,I64)],[(3,I64)],[EQ(2,D(I(10),V(1))),EQ(3,IF(O("Eq",V(1),I(5)),PRE(V(3)),I(1)))])
f=FILE(K,NODE("O",[(4,I64),(5,"Bool")],[(6,I64)],[],[EQ(6,IF(V(5),I(0),CALL(0,V(4))))])); ff(f,"admit 0 0 56")
kf=b"\0"+cI(0)*3
m=cI(5)+cB(0); cyc(m,stop(18,0,b"\0"+cI(0)+cB(0)+cI(0)+kf))
m=cI(1)+cB(0); main=b"\1"+m+cI(10); cyc(m,ans(m+cI(10),main+b"\1"+cI(1)+cI(10)+cI(1)))
m=cI(5)+cB(0); main=b"\1"+m+cI(2); cyc(m,ans(m+cI(2),main+b"\1"+cI(5)+cI(2)+cI(1)))
m=cI(0)+cB(1); main=b"\1"+m+cI(0); cyc(m,ans(m+cI(0),main+kf))
m=cI(5)+cB(0); cyc(m,stop(18,0,main+kf))
com("first cycle: an operator first entered in main's second cycle is cold there: v1 = 0 -> n0(pre v1), n0(v2) has v3 = pre v3")
f=FILE(NODE("O",[(2,I64)],[(3,I64)],[],[EQ(3,PRE(V(3)))]),NODE("O",[],[(1,I64)],[],[EQ(1,ARROW(I(0),CALL(0,P)))]))
ff(f,"admit 0 0 29"); nf=b"\0"+cI(0)*2
cyc(b"",ans(cI(0),b"\1"+cI(0)+nf)); cyc(b"",stop(18,0,b"\1"+cI(0)+nf)); cyc(b"",stop(18,0,b"\1"+cI(0)+nf))

each("zero divisor: ",20,[("1 / 0",Z),("5 mod 0",M(I(5),I(0))),("0 / 0",D(I(0),I(0))),("0 mod 0",M(I(0),I(0))),("the lowest number / 0",D(I(MIN),I(0))),
    ("the lowest number mod 0",M(I(MIN),I(0))),("1.0 / 0.0",D(F(1.0),F(0.0))),("1.0 / -0.0",D(F(1.0),F(-0.0))),("0.0 / 0.0",D(F(0.0),F(0.0))),("NaN / 0.0",D(F(float("nan")),F(0.0))),
    ("an infinity / 0.0",D(F(float("inf")),F(0.0))),("single 1.0 / double 0.0",D(S(1.0),F(0.0))),("double 1.0 / single 0.0",D(F(1.0),S(0.0))),("singles",D(S(1.0),S(-0.0)))])
each("zero divisor: overflow is another matter: ",19,[("the lowest number / -1",D(I(MIN),I(-1))),("the lowest number mod -1",M(I(MIN),I(-1)))])
each("count: ",20,[("1 shl 64",SHL(I(1),I(64))),("1 shl -1",SHL(I(1),I(-1))),("1 shr 64",SHR(I(1),I(64))),("1 shr -1",SHR(I(1),I(-1))),("0 shl 64",SHL(I(0),I(64))),("1 shr the lowest number",SHR(I(1),I(MIN)))])
one("count: 1 shl 63",SHL(I(1),I(63)),cI(MIN)); one("count: 1 shr 0",SHR(I(1),I(0)),cI(1))
one("count: 1 shl 0",SHL(I(1),I(0)),cI(1)); one("count: -1 shr 63",SHR(I(-1),I(63)),cI(-1))
each("kinds: ",21,[("true / 0",D(B(1),I(0))),("0 / false",D(I(0),B(0))),("1 / 0.0",D(I(1),F(0.0))),("1.0 / 0",D(F(1.0),I(0))),("single 1.0 / 0",D(S(1.0),I(0))),("true shl 64",SHL(B(1),I(64))),
    ("1 shl 64.0",SHL(I(1),F(64.0))),("1.0 shl 64",SHL(F(1.0),I(64))),("1.0 shl 64.0",SHL(F(1.0),F(64.0))),("1 shr true",SHR(I(1),B(1))),
    ("5.0 mod 0.0",M(F(5.0),F(0.0))),("5.0 mod 2.0",M(F(5.0),F(2.0))),("singles mod 0.0",M(S(5.0),S(0.0))),("5.0 mod 0",M(F(5.0),I(0))),("5 mod 0.0",M(I(5),F(0.0)))])
one("kinds: a variant / 0",D(V(5),I(0)),21,enums=[[5,6]])
each("other: ",21,[("not 1",W),("-true",NEG(B(1))),("1 + 1.0",ADD(I(1),F(1.0))),("true < false",O("Lt",B(1),B(0))),("1 and 2",O("And",I(1),I(2))),("if 1",IF(I(1),I(2),I(3))),
    ("1 to Bool",CAST("Bool",I(1))),("1 to Char",CAST("Char",I(1))),("true to Int8",CAST("Int8",B(1)))])
one("other: 1 to an enum",CAST(0,I(1)),21,enums=[[5,6]]); one("other: a variant to Int8",CAST("Int8",V(5)),21,enums=[[5,6]])

for t,ex,n in [("(1 / 0) + pre v1",ADD(Z,P),20),("pre v1 + (1 / 0)",ADD(P,Z),18),("pre v1 + overflow",ADD(P,OV),18),("overflow + pre v1",ADD(OV,P),19),
    ("not 1 + (1 / 0)",ADD(W,Z),21),("(1 / 0) + not 1",ADD(Z,W),20),("true + (1 / 0)",ADD(B(1),Z),20),("if 1 / 0",IF(Z,I(1),I(2)),20),("if pre v1",IF(P,I(1),I(2)),18),("if overflow",IF(OV,I(1),I(2)),19),
    ("not (1 / 0)",NOT(Z),20),("-(pre v1)",NEG(P),18),("(1 / 0) to Bool",CAST("Bool",Z),20),("(1 / 0) / (not 1)",D(Z,W),20),("(not 1) / 0",D(W,I(0)),21)]: one("first failure: "+t,ex,n)
com("first failure: v1, v2 = (pre v1, 1 / 0), and the other way round; n0(1 / 0, pre v1), n0(pre v1, not 1)")
for no,ex in [(18,TUP(P,Z)),(20,TUP(Z,P))]:
    ff(FILE(NODE("O",[],[(1,I64),(2,I64)],[],[EQ([1,2],ex)])),"admit 0 0 19"); cyc(b"",stop(no,0,b"\0"+cI(0)*2))
for no,a in [(20,(Z,P)),(18,(P,W))]:
    ff(FILE(NODE("F",[(3,I64),(4,I64)],[(5,I64)],[],[EQ(5,V(3))]),NODE("O",[],[(1,I64)],[],[EQ(1,CALL(0,*a))])),"admit 0 0 10"); cyc(b"",stop(no,0,b"\0"+cI(0)))

com("calls: the cause goes up: v2 = n1(), n1 = n0(), n0 a Function with 1 / 0; with not 1; with pre")
for no,ex in [(20,Z),(21,W),(18,PRE(V(3)))]:
    f=FILE(fn(ex),fn(CALL(0)),NODE("O",[],[(1,I64)],[(2,I64)],[EQ(1,I(4)),EQ(2,CALL(1))]))
    ff(f,"admit 0 0 19"); cyc(b"",stop(no,1,b"\0"+cI(0)*2))
com("calls: for 20, 21 and 18 alike the failed operator's record, its child's too, goes back to fresh, and a sibling stays moved:")
com("v6 = n0(), v5 = n2(v4); n0 counts, n1 is pre v3, n2(v1) has v7 = n0(), v2 = if v1 = 0 then 1 / 0 else if v1 = 1 then not 1 else if v1 = 2 then n1() else v7")
is_=lambda k:O("Eq",V(1),I(k))
K=NODE("O",[(1,I64)],[(2,I64)],[(7,I64)],[EQ(7,CALL(0)),EQ(2,IF(is_(0),Z,IF(is_(1),W,IF(is_(2),CALL(1),V(7)))))])
f=FILE(CNT,fn(PRE(V(3))),K,NODE("O",[(4,I64)],[(5,I64),(6,I64)],[],[EQ(6,CALL(0)),EQ(5,CALL(2,V(4)))]))
ff(f,"admit 0 0 76")
def st(m,sib,k): return m+b"\1"+cI(sib)+k
kfresh=b"\0"+cI(0)*3+b"\0"+cI(0)
main=b"\0"+cI(0)*3
sib=kid=0
for d,no in [(9,0),(9,0),(0,20),(9,0),(9,0),(1,21),(9,0),(2,18),(9,0)]:
    if no: kid=0; cyc(cI(d),stop(no,1,st(main,sib,kfresh)))
    else:
        v=cI(d)+cI(kid)+cI(sib); main=b"\1"+v
        cyc(cI(d),ans(v,st(main,sib,b"\1"+cI(d)+cI(kid)+cI(kid)+b"\1"+cI(kid)))); kid+=1
    sib+=1
com("calls: a failed argument enters nothing, by whatever cause, and what stepped in an earlier one stays: v1 = n1(n0(), not 1); v1 = n1(n0(), pre v1)")
for no,ex in [(21,W),(18,P)]:
    f=FILE(CNT,NODE("O",[(1,I64),(2,I64)],[(3,I64)],[],[EQ(3,V(1))]),NODE("O",[],[(1,I64)],[],[EQ(1,CALL(1,CALL(0),ex))]))
    ff(f,"admit 0 0 48")
    for i in range(2): cyc(b"",stop(no,0,b"\0"+cI(0)+b"\0"+cI(0)*3+b"\1"+cI(i)))

for t,ex,want in [("1 / 0",Z,cI(3)),("a pre",PRE(V(3)),cI(3)),("not 1",W,cI(3)),("an overflow",OV,19)]:
    one("untaken: if true then 3 else n0(), n0 with "+t,IF(B(1),I(3),CALL(0)),want,[fn(ex)])

for t,ex in [("1 / 0",Z),("overflow",OV),("pre",PRE(I(1))),("not 1",W),("1 shl 64",SHL(I(1),I(64)))]:
    com("constant: one that fails by any cause is 12: "+t)
    ff(FILE(NODE("O",[],[(1,I64)],[],[]),consts=[(9,I64,ex)]),"admit 12 3 0")
open(sys.argv[1]+".txt","w").write("\n".join(out)+"\n")
open(sys.argv[1]+".expected","w").write("\n".join(exp)+"\n")
