#!/usr/bin/env python3
"""Lists pairs of functions of src/ whose bodies are alike once names and numbers are blanked; run it at the top of a checkout.

A line: how alike the bodies are with names and numbers blanked, how alike as they stand, the two functions."""
import re,glob,difflib,itertools
fs=[]
for f in sorted(glob.glob('crates/*/src/*.rt')):
    if '_tests' in f: continue
    s=open(f).read()
    s=re.sub(r'//[^\n]*','',s)
    for m in re.finditer(r'\bfn (\w+)',s):
        i=m.end(); 
        # body: first '{' at line start or after contract
        b=re.compile(r'\n( *)\{\n|\) (?:-> [^{]*)?\{\n').search(s,i)
        if not b: continue
        j=s.index('{',b.start())
        d=0;k=j
        while k<len(s):
            if s[k]=='{':d+=1
            if s[k]=='}':
                d-=1
                if d==0:break
            k+=1
        body=s[j:k+1]
        toks=re.findall(r'\w+|[^\w\s]',body)
        norm=[('N' if re.match(r'\d',t) else 'w') if re.match(r'\w',t) and t not in('match','for','if','else','return','let','mut','in','Some','None','Ok','Err') else t for t in toks]
        if len(toks)>=18: fs.append((f.split('/')[1]+'::'+m.group(1),toks,norm))
out=[]
for a,b in itertools.combinations(fs,2):
    if abs(len(a[1])-len(b[1]))>0.35*max(len(a[1]),len(b[1])): continue
    r=difflib.SequenceMatcher(None,a[2],b[2],autojunk=False).ratio()
    q=difflib.SequenceMatcher(None,a[1],b[1],autojunk=False).ratio()
    if r>0.9 and q>0.55: out.append((round(r,2),round(q,2),a[0],b[0]))
for o in sorted(out,reverse=True): print(*o)
