#!/usr/bin/env python3
"""Lists pairs of parameters, by name and type, that three or more functions of src/ have; run it at the top of a checkout."""
import re,sys,glob,collections
pairs=collections.defaultdict(list)
fns=[]
for f in sorted(glob.glob('crates/*/src/*.rt')):
    if '_tests' in f: continue
    s=open(f).read()
    for m in re.finditer(r'fn (\w+)(<[^>]*>)?\(([^{]*?)\)\s*(->|\n|ensures|requires|\{)',s):
        ps=[p.strip() for p in m.group(3).replace('\n',' ').split(',') if ':' in p]
        ps=[re.sub(r"\s+",' ',p) for p in ps]
        ps=[re.sub(r"&mut |&|'a ","",p) for p in ps]
        fns.append((f,m.group(1),ps))
        for i in range(len(ps)):
            for j in range(i+1,len(ps)):
                pairs[tuple(sorted((ps[i],ps[j])))].append(f.split('/')[1]+'::'+m.group(1))
for k,v in sorted(pairs.items(),key=lambda kv:-len(kv[1])):
    if len(v)>=3: print(len(v),k,' '.join(v))
