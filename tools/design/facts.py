import re,glob,collections
# requires/ensures that stand word for word (names of parameters apart) in three or more functions, and parameters (by name and type) that travel together
cl=collections.defaultdict(list); par=collections.defaultdict(list)
for f in sorted(glob.glob('crates/*/src/*.rt')):
    t=open(f).read()
    for m in re.finditer(r'(?:^|\n)\s*(?:pub(?:\(crate\))? )?(?:extern "C" )?fn (\w+)\s*(?:<[^>]*>)?\(',t):
        k=m.end(); d=1; j=k
        while d: d+={'(':1,')':-1}.get(t[j],0); j+=1
        ps=t[k:j-1]; e=t.find('\n{',j); e2=t.find('\n    {',j); 
        ends=[x for x in (e,e2) if x>0]; 
        # contract: up to the line that is only '{'
        mm=re.compile(r'\n\s*\{\n').search(t,j); sig=t[j:mm.start()] if mm else ''
        b=re.search(r'\{\n',t[j:]); 
        if 'fn ' in sig: sig=''
        P=[re.sub(r'\s+',' ',p).strip() for p in re.split(r',(?![^\[]*\])',ps) if p.strip()]
        names=[p.split(':')[0] for p in P]
        who='%s %s'%(f.replace('crates/','').replace('/src',''),m.group(1))
        for c in re.finditer(r'(requires|ensures)[^{]*\{((?:[^{}]|\{[^{}]*\})*)\}',sig):
            s=re.sub(r'\s+',' ',c.group(2)).strip()
            for part in re.split(r' × ',s):
                x=part.strip()
                if x.startswith('(') and x.endswith(')') : x=x[1:-1]
                for i,nm in enumerate(names):
                    ty=P[i].split(':')[1].strip() if ':' in P[i] else ''
                    x=re.sub(r'\b%s\b'%re.escape(nm.replace('mut ','')),'‹%s›'%ty,x)
                cl[(c.group(1),x)].append(who)
        S=sorted(set(P))
        for a in range(len(S)):
            for b2 in range(a+1,len(S)):
                par[(S[a],S[b2])].append(who)
print('== clauses in 3 or more')
for (k,x),v in sorted(cl.items(),key=lambda z:-len(z[1])):
    if len(v)>=3: print(len(v),k,x,'::','; '.join(v))
print('== pairs of parameters in 3 or more')
for (a,b),v in sorted(par.items(),key=lambda z:-len(z[1])):
    if len(v)>=3: print(len(v),a,'+',b,'::','; '.join(v))
