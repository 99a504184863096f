#!/usr/bin/env python3
"""theorems.py OLD NEW: the declarations of the lemma files (proofs/*.antt and proofs/**/ that are no function's Proof/Answers/Invariants) of two trees, by file and name: gone, changed signature."""
import os,re,sys
NAME=r'[^\s(){}.;,@"«»:]+'
def decls(p):
    out={}
    cur=None
    mod=[]
    for l in open(p,encoding='utf-8'):
        s=l.rstrip('\n')
        t=s.strip()
        if t.startswith('--') or not t: 
            continue
        m=re.match(r'(\s*)((?:abbrev |unfoldable )?(?:pub )?(?:abbrev |unfoldable )?)((?:data|record) )?('+NAME+r')((?: [({].*?[)}])*) : (.*)$',s)
        if m and not t.startswith(('use ','let ','|','λ','(','module','open')):
            name=m.group(4)
            if name in('let','in','elim'): cur=None; continue
            k=name
            i=2
            while k in out: k=f'{name}#{i}'; i+=1
            out[k]=[m.group(2).strip()+' '+(m.group(3) or '')+m.group(5)+' : '+m.group(6)]
            cur=k; ind=len(m.group(1)); data=bool(m.group(3)); continue
        if cur is not None:
            li=len(s)-len(s.lstrip())
            if data and li>ind: out[cur].append(t); continue
            if li>ind and not re.match(r'unfolding ',t): 
                # continuation of a signature: only before the first equation
                if not out[cur][-1].endswith('=') and getattr(decls,'sig',True) and not t.startswith(('=')):
                    if re.search(r'(→|×|:|,|\()$',out[cur][-1]) or t.startswith(('→','×')): out[cur].append(t); continue
            cur=None
        m=re.match(r'\s*module _ (.*) where',s)
        if m:
            out['module#'+str(len(out))+m.group(1)]=[m.group(1)]
    return {k:' '.join(' '.join(v).split()) for k,v in out.items()}
def files(r):
    o={}
    for d,ds,fs in os.walk(r+'/crates'):
        ds[:]=[x for x in ds if x not in('out','target')]
        for f in fs:
            p=os.path.join(d,f)
            if f.endswith('.antt') and ('/specs' in d or '/proofs' in d) and f not in('Proof.antt',):
                rel=os.path.relpath(p,r)
                if f in('Answers.antt','Invariants.antt') and '/proofs/' in d+'/' and not d.endswith('/proofs'): continue
                o[rel]=p
    return o
A,B=sys.argv[1:3]
fa,fb=files(A),files(B)
only=set(sys.argv[3:])
n=c=0
for f in sorted(fa):
    crate=f.split('/')[1]
    if only and crate not in only: continue
    if f not in fb: print('FILE GONE',f); continue
    a,b=decls(fa[f]),decls(fb[f])
    for k in a:
        if k.startswith('module#'): continue
        n+=1
        if k not in b: print('GONE',f,k,'|',a[k][:300]); c+=1
        elif a[k]!=b[k]: print('CHANGED',f,k,'\n   -',a[k][:600],'\n   +',b[k][:600]); c+=1
    ma=[k for k in a if k.startswith('module#')]; mb=[k for k in b if k.startswith('module#')]
    if [a[k] for k in ma]!=[b[k] for k in mb]: print('MODULES',f,[a[k] for k in ma if a[k] not in b.values()],[b[k] for k in mb if b[k] not in a.values()])
print(n,'declarations,',c,'gone or changed')
