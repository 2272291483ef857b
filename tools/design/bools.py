import re,glob
# functions of crates/*/src/*.rt with a bool parameter
for f in sorted(glob.glob('crates/*/src/*.rt')):
    t=open(f).read()
    for m in re.finditer(r'\bfn (\w+)[^(]*\(([^{]*?)\)\s*(->|\n|\{)',t):
        b=re.findall(r'(\w+): bool',m.group(2))
        if b: print(f.replace('crates/','').replace('/src',''),m.group(1),','.join(b))
