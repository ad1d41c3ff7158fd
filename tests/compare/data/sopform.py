# Writes sopform.txt: random functions of 1 to 6 columns, and the rows that SOPform of SymPy gives for each.
import random, itertools
from sympy import symbols, Or, And, Not, true, false
from sympy.logic.boolalg import SOPform
random.seed(7)
def rows(e, xs):
    if e == true: return ['-'*len(xs)]
    if e == false: return []
    terms = e.args if isinstance(e, Or) else (e,)
    out=[]
    for t in terms:
        lits = t.args if isinstance(t, And) else (t,)
        r=['-']*len(xs)
        for l in lits:
            if isinstance(l, Not): r[xs.index(l.args[0])]='0'
            else: r[xs.index(l)]='1'
        out.append(''.join(r))
    return out
seen=set()
lines=[]
for n in (1,2,3,4,5,6):
    xs=list(symbols(' '.join('x%d'%i for i in range(n)))) if n>1 else [symbols('x0')]
    want={1:9,2:40,3:80,4:120,5:80,6:20}[n]
    k=0
    while k<want:
        w=random.choice(['01','01-','0-1-','0001-','011-'])
        s=''.join(random.choice(w) for _ in range(2**n))
        if (n,s) in seen:
            if n>1: continue
        seen.add((n,s)); k+=1
        pts=list(itertools.product([0,1],repeat=n))
        on=[list(p) for p,c in zip(pts,s) if c=='1']; dc=[list(p) for p,c in zip(pts,s) if c=='-']
        e=SOPform(xs,on,dc) if on else false
        lines.append(' '.join([str(n),s]+rows(e,xs)))
print('\n'.join(dict.fromkeys(lines)))
