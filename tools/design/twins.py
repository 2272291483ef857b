import re,glob,collections
# functions of crates/*/src/*.rt whose text (signature, contract, body) is the same up to names, literals and the paths before ::
out=collections.defaultdict(list)
for f in sorted(glob.glob('crates/*/src/*.rt')):
    t=open(f).read(); lines=t.split('\n'); i=0
    while i<len(lines):
        m=re.match(r'^(\s*)(pub(\(crate\))? )?(extern "C" )?fn (\w+)',lines[i])
        if not m: i+=1; continue
        j=i
        while lines[j]!=m.group(1)+'}' and j+1<len(lines): j+=1
        body=[l for l in lines[i:j+1] if not l.strip().startswith('//')]
        # contract lines out: they name the definition
        body=[l for l in body if not re.match(r'\s*(requires|ensures)',l)]
        s=' '.join(body); s=re.sub(r'(pub(\(crate\))? )','',s)
        names={}
        KW=set('fn let mut if else match return for in while true false as bool u8 u16 u32 u64 usize i32 i64 f32 self ref'.split())
        def rn(m):
            w=m.group(0)
            if re.match(r'^(0x[0-9A-Fa-f_]+|\d[\d_]*)$',w): return 'N'
            if w in KW: return w
            if re.match(r'^[A-Z]',w): return 'T'
            return names.setdefault(w,'v%d'%len(names))
        s=re.sub(r'[A-Za-z0-9_]+',rn,s); s=re.sub(r'\s+','',s)
        s=re.sub(r'\b[uif](8|16|32|64)\b','W',s)
        out[s].append((f,i+1,m.group(5),j-i+1)); i=j+1
n=0
for s,v in sorted(out.items(),key=lambda x:(-len(x[1]),x[1][0])):
    if len(v)<2: continue
    n+=1
    print('%d x, %d lines:'%(len(v),v[0][3]), ', '.join('%s:%d %s'%(f.replace('crates/','').replace('/src',''),l,nm) for f,l,nm,_ in v))
print('groups',n,'functions',sum(len(v) for v in out.values() if len(v)>1))
