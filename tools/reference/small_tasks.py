# An independent run of small tasks, for comparison: what each call that the program `small_tasks` plays must answer.
#   python3 tools/reference/small_tasks.py | diff - crates/small_tasks/stdout
T,F,ATOM,EQ,NOT,AND,OR,IMPLY,FORALL,EXISTS,OBJ,VAR,WHEN=range(13)
TYPE,PRED,OPER,PARAM=14,15,16,17
# trees: ('true',) ('false',) ('atom',p,[terms]) ('eq',a,b) ('not',f) ('and',[..]) ('or',[..]) ('imply',f,g) ('forall',ty,f) ('exists',ty,f); term ('o',n)/('v',n)
def wt(t): return [(OBJ if t[0]=='o' else VAR,t[1])]
def wf(f):
    k=f[0]
    if k=='true': return [(T,0)]
    if k=='false': return [(F,0)]
    if k=='atom': return [(ATOM,f[1])]+sum((wt(t) for t in f[2]),[])
    if k=='eq': return [(EQ,0)]+wt(f[1])+wt(f[2])
    if k=='not': return [(NOT,0)]+wf(f[1])
    if k in('and','or'): return [(AND if k=='and' else OR,len(f[1]))]+sum((wf(x) for x in f[1]),[])
    if k=='imply': return [(IMPLY,0)]+wf(f[1])+wf(f[2])
    return [(FORALL if k=='forall' else EXISTS,f[1])]+wf(f[2])
# effects: ('add',p,ts) ('del',p,ts) ('and',[..]) ('forall',ty,e) ('when',f,c)
def we(e):
    k=e[0]
    if k=='add': return [(ATOM,e[1])]+sum((wt(t) for t in e[2]),[])
    if k=='del': return [(NOT,0),(ATOM,e[1])]+sum((wt(t) for t in e[2]),[])
    if k=='and': return [(AND,len(e[1]))]+sum((we(x) for x in e[1]),[])
    if k=='forall': return [(FORALL,e[1])]+we(e[2])
    return [(WHEN,0)]+wf(e[1])+we(e[2])
class Task:
    def __init__(s,n,types,ar,facts,goal,ops): s.n,s.types,s.ar,s.facts,s.goal,s.ops=n,types,ar,facts,goal,ops
    def write(s):
        es=[(TYPE,t) for t in s.types]+[(PRED,a) for a in s.ar]
        for p,a in s.facts: es+=[(ATOM,p)]+[(OBJ,o) for o in a]
        es+=wf(s.goal)
        for ps,pre,eff in s.ops: es+=[(OPER,len(ps))]+[(PARAM,t) for t in ps]+wf(pre)+we(eff)
        return es
    def sizes(s): return [s.n,len(s.types),len(s.ar),len(s.facts),len(s.ops),len(s.write())]
    def atoms(s): return sum(s.n**a for a in s.ar)
    def num(s,p,args):
        d=0
        for a in args: d=d*s.n+a
        return sum(s.n**a for a in s.ar[:p])+d
    def mem(s,t): return [o for o in range(s.n) if s.types[t]>>o&1]
    def val(s,st,sh,f):
        k=f[0]; ob=lambda t: t[1] if t[0]=='o' else sh[t[1]]
        if k=='true': return True
        if k=='false': return False
        if k=='atom': return s.num(f[1],[ob(t) for t in f[2]]) in st
        if k=='eq': return ob(f[1])==ob(f[2])
        if k=='not': return not s.val(st,sh,f[1])
        if k=='and': return all(s.val(st,sh,x) for x in f[1])
        if k=='or': return any(s.val(st,sh,x) for x in f[1])
        if k=='imply': return (not s.val(st,sh,f[1])) or s.val(st,sh,f[2])
        if k=='forall': return all(s.val(st,sh+[o],f[2]) for o in s.mem(f[1]))
        return any(s.val(st,sh+[o],f[2]) for o in s.mem(f[1]))
    def lits(s,st,sh,e):
        k=e[0]; ob=lambda t: t[1] if t[0]=='o' else sh[t[1]]
        if k in('add','del'): return [(k=='add',s.num(e[1],[ob(t) for t in e[2]]))]
        if k=='and': return sum((s.lits(st,sh,x) for x in e[1]),[])
        if k=='forall': return sum((s.lits(st,sh+[o],e[2]) for o in s.mem(e[1])),[])
        return s.lits(st,sh,e[2]) if s.val(st,sh,e[1]) else []
    def run(s,calls,size):
        st=None;n=None;out=[];cur=set()
        A=s.atoms()
        for c in calls:
            if c[0]=='begin':
                if size<A: out.append(f"refused 21 run {A}")
                else: cur=set(s.num(p,a) for p,a in s.facts); n=0; out.append("done")
            elif n is None: out.append("no run")
            elif c[0]=='perform':
                op,obs=c[1],c[2]
                if n>=65535: out.append("refused 26 run 65535"); continue
                if not(op<len(s.ops) and len(obs)==len(s.ops[op][0]) and all(o in s.mem(t) for o,t in zip(obs,s.ops[op][0])) and len(set(obs))==len(obs)): out.append("refused 23 run 0"); continue
                if not s.val(cur,list(obs),s.ops[op][1]): out.append(f"refused 24 run {n}"); continue
                ls=s.lits(cur,list(obs),s.ops[op][2])
                cur=(cur-{a for b,a in ls if not b})|{a for b,a in ls if b}; n+=1; out.append("done")
            elif c[0]=='holds': out.append(str(c[1] in cur).lower() if c[1]<A else f"refused 25 run {c[1]}")
            elif c[0]=='goal': out.append(str(s.val(cur,[],s.goal)).lower())
            else: out.append(f"{n} steps"); n=None
        return out
o=lambda i:('o',i); v=lambda i:('v',i)
at=lambda p,*ts:('atom',p,list(ts)); add=lambda p,*ts:('add',p,list(ts)); dl=lambda p,*ts:('del',p,list(ts))
TRUE=('true',)
B=('begin',);G=('goal',);E=('end',);P=lambda op,*os:('perform',op,list(os));H=lambda k:('holds',k)
cases=[]
def case(w,t,*calls): cases.append((w,t,list(calls)))
def formula(w,goal,facts=((0,(0,)),),n=3,types=(3,0,7)): case(w,Task(n,list(types),[1,2,0],[(p,list(a)) for p,a in facts],goal,[]),B,G,E)
formula("FORALL over an empty type",('forall',1,('false',)))
formula("EXISTS over an empty type",('exists',1,TRUE))
formula("OR of nothing",('or',[]))
formula("AND of nothing",('and',[]))
formula("EQUAL of one object",('eq',o(1),o(1)))
formula("EQUAL of two objects",('eq',o(0),o(1)))
formula("IMPLY from false",('imply',('false',),('false',)))
formula("IMPLY from true to false",('imply',TRUE,('false',)))
formula("IMPLY from true to true",('imply',TRUE,TRUE))
formula("an atom that is a fact",at(0,o(0)))
formula("an atom that is no fact",at(0,o(1)))
formula("FORALL with one member false",('forall',0,at(0,v(0))))
formula("EXISTS with one member true",('exists',0,at(0,v(0))))
formula("every object has another",('forall',2,('exists',2,('not',('eq',v(0),v(1))))))
formula("some object is every other",('exists',0,('forall',0,('eq',v(0),v(1)))))
formula("three quantifiers",('forall',0,('exists',0,('forall',0,('or',[('eq',v(0),v(1)),('not',('eq',v(1),v(2)))])))))
formula("an atom of two quantified objects",('exists',2,('exists',2,at(1,v(0),v(1)))),facts=((1,(2,0)),))
formula("its arguments the other way round",('exists',0,at(1,v(0),o(2))),facts=((1,(2,0)),))
formula("an atom with no arguments",at(2),facts=((2,()),))
formula("a fact given twice",at(0,o(0)),facts=((0,(0,)),(0,(0,))))
bl=lambda eff,pre=TRUE,facts=():Task(1,[],[0,0,0],[(p,[]) for p in facts],at(0),[([],pre,eff)])
case("adding and deleting one atom",bl(('and',[add(0),dl(0)])),B,P(0),G,H(0),E)
case("deleting and adding one atom",bl(('and',[dl(0),add(0)]),facts=(0,)),B,P(0),G,E)
case("a WHEN judged before the deletes",bl(('and',[dl(1),('when',at(1),add(0))]),facts=(1,)),B,P(0),G,H(1),E)
case("a WHEN that does not count",bl(('when',at(1),add(0))),B,P(0),G,E)
case("a precondition that is false, then true",Task(1,[],[0,0],[],at(0),[([],at(1),add(0)),([],TRUE,add(1))]),B,P(0),P(1),P(0),G,E)
case("an effect of nothing",bl(('and',[])),B,P(0),G,E)
two=Task(2,[2,3],[1],[],('forall',1,at(0,v(0))),[([0,0],TRUE,add(0,v(0))),([1,1],TRUE,add(0,v(1)))])
case("a name with an object twice",two,B,P(0,1,1),G,E)
case("names that do not fit",two,B,P(2),P(1,0),P(1,0,2),P(1,0,1,1),P(1,1,0),H(0),E)
each=Task(4,[15,6],[1],[(0,[3])],('forall',0,at(0,v(0))),[([],TRUE,('forall',1,add(0,v(0)))),([1],('not',at(0,v(0))),('forall',0,('when',('not',('eq',v(0),v(1))),('and',[add(0,v(1)),dl(0,v(0))]))))])
case("FORALL in an effect",each,B,P(0),H(0),H(1),H(2),H(3),G,E)
case("FORALL and WHEN in an effect",each,B,P(1,2),H(0),H(1),H(2),H(3),E)
case("calls with no run",two,P(1,0,1),H(0),G,E,B,P(1,0,1),E,P(1,1,0),B,H(1),E)
case("a begin during a run",two,B,P(1,0,1),H(1),B,H(1),P(1,0,1),P(1,1,0),G,E)
case("an atom that is not there",two,B,H(1),H(2),E)
big=Task(9,[1],[2],[],TRUE,[])
case("a store that is too small",big,B,G,E)
for w,t,cs in cases: print(w+": "+", ".join(t.run(cs,64)))
