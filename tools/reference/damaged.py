# An independent reading of task tables, for comparison: the refusal that each damage of the program `damaged` must meet.
#   python3 tools/reference/damaged.py | diff - crates/damaged/stdout
T,F,ATOM,EQ,NOT,AND,OR,IMPLY,FORALL,EXISTS,OBJ,VAR,WHEN,FACT,TYPE,PRED,OPER,PARAM,ACTION,ST,SF,ALW=range(22)
base=[
 ("a type with objects 0 and 1",TYPE,3),("an empty type",TYPE,0),
 ("a predicate of arity 1",PRED,1),("a predicate of arity 2",PRED,2),("a predicate of arity 0",PRED,0),
 ("fact",ATOM,0),("",OBJ,0),
 ("fact",ATOM,1),("",OBJ,0),("",OBJ,2),
 # goal at 10
 ("goal",AND,2),("",FORALL,0),("",IMPLY,0),("",ATOM,0),("",VAR,0),("",EXISTS,1),("",ATOM,1),("",VAR,0),("",VAR,1),("",NOT,0),("",EQ,0),("",OBJ,1),("",OBJ,2),
 # operator at 23
 ("operator",OPER,2),("",PARAM,0),("",PARAM,0),("pre",OR,2),("",T,0),("",ATOM,2),
 # effect at 29
 ("effect",AND,3),("",ATOM,0),("",VAR,0),("",NOT,0),("",ATOM,1),("",VAR,0),("",VAR,1),
 ("",FORALL,0),("",WHEN,0),("",ATOM,1),("",VAR,0),("",VAR,2),("",AND,2),("",ATOM,2),("",NOT,0),("",ATOM,0),("",VAR,2),
]
SZ=[3,2,3,2,1,len(base)]
perm={"type":{TYPE},"pred":{PRED},"fact":{ATOM},"oper":{OPER},"param":{PARAM},"formula":set(range(10)),"term":{OBJ,VAR},"effect":{2,4,5,8,12},"cons":{2,4,5},"neg":{2}}
class Bad(Exception): pass
def load(sz,K,O):
    n,t,p,f,o,e=sz
    lim=[(1,32),(0,32),(0,32),(0,4096),(0,32),(1,16384)]
    for i,(a,b) in enumerate(lim):
        if not a<=sz[i]<=b: return (1,i)
    if len(K)<e: return (2,len(K))
    if len(O)<e: return (2,len(O))
    pos=[0]
    def head(place,start,v,q):
        i=pos[0]
        if i>=e: raise Bad((4,i))
        k,x=K[i],O[i]
        if k not in perm[place]: raise Bad((3,i))
        if start is not None and i-start>=256: raise Bad((6,i))
        if k in(8,9) and q>=3: raise Bad((6,i))
        ok={2:x<p,5:True,6:True,8:x<t,9:x<t,17:x<t,10:x<n,11:x<v,14:x<2**n,15:x<4,16:x<5}.get(k,x==0)
        if not ok: raise Bad((5,i))
        pos[0]+=1
        return k,x
    def terms(c,start,v,q):
        for _ in range(c): head("term",start,v,q)
    def formula(start,v,q):
        k,x=head("formula",start,v,q)
        if k==2: terms(O[t+x],start,v,q)
        elif k==3: terms(2,start,v,q)
        elif k==4: formula(start,v,q)
        elif k in(5,6):
            for _ in range(x): formula(start,v,q)
        elif k==7: formula(start,v,q); formula(start,v,q)
        elif k in(8,9): formula(start,v+1,q+1)
    def change(k,x,start,v,q):
        if k==4: k,x=head("neg",start,v,q)
        terms(O[t+x],start,v,q)
    def cons(start,v,q):
        k,x=head("cons",start,v,q)
        if k==5:
            for _ in range(x): cons(start,v,q)
        else: change(k,x,start,v,q)
    def effect(start,v,q):
        k,x=head("effect",start,v,q)
        if k==5:
            for _ in range(x): effect(start,v,q)
        elif k==8: effect(start,v+1,q+1)
        elif k==12: formula(start,v,q); cons(start,v,q)
        else: change(k,x,start,v,q)
    try:
        for _ in range(t): head("type",None,0,0)
        s=0
        for _ in range(p):
            i=pos[0]; k,x=head("pred",None,0,0); s+=n**x
            if s>65536: raise Bad((7,i))
        for _ in range(f):
            k,x=head("fact",None,0,0); terms(O[t+x],None,0,0)
        formula(pos[0],0,0)
        for _ in range(o):
            k,x=head("oper",None,0,0)
            for _ in range(x): head("param",None,0,0)
            formula(pos[0],x,0); effect(pos[0],x,0)
        if pos[0]<e: raise Bad((4,pos[0]))
    except Bad as b: return b.args[0]
    return None
K=[b[1] for b in base]; O=[b[2] for b in base]
assert load(SZ,K,O) is None
dam=[
 ("nothing",0,TYPE,3),
 ("a type with a bit for no object",0,TYPE,8),
 ("a type with a bit beyond 32 bits of objects",1,TYPE,4294967295),
 ("a predicate where a type should stand",1,PRED,0),
 ("a predicate of arity 4",2,PRED,4),
 ("a type where a predicate should stand",2,TYPE,1),
 ("a predicate of arity 0 with an argument in its fact",2,PRED,0),
 ("a predicate of arity 3 with two arguments in its fact",3,PRED,3),
 ("a fact of no predicate",5,ATOM,3),
 ("a fact that is TRUE",5,T,0),
 ("a fact of an object that is not there",6,OBJ,3),
 ("a variable in a fact",6,VAR,0),
 ("an action as the goal",10,ACTION,0),
 ("a kind that does not exist",10,22,0),
 ("the highest kind",10,255,0),
 ("a goal with one part too many",10,AND,3),
 ("a goal with one part too few",10,AND,1),
 ("a quantifier over no type",11,FORALL,2),
 ("IMPLY with an operand",12,IMPLY,1),
 ("a variable that is not yet known",14,VAR,1),
 ("a WHEN in a formula",15,WHEN,0),
 ("the inner variable used outside",17,VAR,2),
 ("a formula where a term should stand",18,T,0),
 ("NOT with an operand",19,NOT,7),
 ("EQUAL of an object that is not there",22,OBJ,3),
 ("an operator with five parameters",23,OPER,5),
 ("an operator with one parameter, and two",23,OPER,1),
 ("a parameter of no type",25,PARAM,2),
 ("a fact of a book in a precondition",27,FACT,0),
 ("an effect that is an OR",29,OR,3),
 ("an effect that is a truth",30,T,0),
 ("an effect that is an EXISTS",36,EXISTS,0),
 ("NOT NOT in an effect",33,NOT,0),
 ("a FORALL in a consequent",41,FORALL,0),
 ("a WHEN in a consequent",41,WHEN,0),
 ("an AND after NOT in a consequent",44,AND,0),
 ("the last variable one too far",45,VAR,3),
 ("a consequent with one part too many",41,AND,3),
 ("an effect with no operand for its FORALL's type",36,FORALL,9),
]
sizes=[("no objects",0,0),("33 objects",0,33),("33 types",1,33),("33 predicates",2,33),("4097 facts",3,4097),("33 operators",4,33),("no entries",5,0),("16385 entries",5,16385),("one entry fewer",5,len(base)-1),("one entry more",5,len(base)+1),("one type more",1,3),("one fact more",3,3),("one operator more",4,2),("one operator fewer",4,0)]
out=[]
for w,a,k,x in dam:
    K2=K[:];O2=O[:];K2[a]=k;O2[a]=x
    r=load(SZ,K2,O2); out.append(f"{w}: "+("loads" if r is None else f"refused {r[0]} task {r[1]}"))
for w,i,v in sizes:
    s=SZ[:]; s[i]=v; r=load(s,K,O); out.append(f"{w}: "+("loads" if r is None else f"refused {r[0]} task {r[1]}"))
print("\n".join(out))
