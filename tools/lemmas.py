#!/usr/bin/env python3
"""Lists the lemmas and definitions of specs/ and proofs/ whose statement is another: usage: lemmas.py OLD NEW, two checkouts."""
import re,sys,os,glob,subprocess
def decls(root):
    out={}
    for f in sorted(glob.glob(root+'/crates/*/proofs/*.antt'))+sorted(glob.glob(root+'/crates/*/specs/*.antt')):
        crate=f.split('/crates/')[1].split('/')[0]; mod=f.split('/')[-2]+'/'+os.path.basename(f)
        lines=open(f).read().split('\n')
        ctx=''
        i=0
        while i<len(lines):
            l=lines[i]
            m=re.match(r'^( *)(?:abbrev )?(pub )?(?:abbrev )?(?:pub )?([A-Za-z_][\w\'≡≢-]*) :(?: (.*))?$',l)
            if m and not l.strip().startswith('--') and len(m.group(1))<=2:
                ind=len(m.group(1)); t=m.group(4) or ''
                j=i+1
                while j<len(lines) and (lines[j].startswith(' '*(ind+2)) and lines[j].strip()) and not re.match(r'^ *%s\b.*='%re.escape(m.group(3)),lines[j]) and not lines[j].strip().startswith('unfolding'):
                    t+=' '+lines[j].strip(); j+=1
                if ind==0: modctx=''
                out.setdefault((crate,mod,m.group(3)),(bool(m.group(2)),' '.join(t.split())))
            i+=1
    return out
a=decls(sys.argv[1]); b=decls(sys.argv[2])
kb={}
for k,v in b.items(): kb.setdefault(k[2],[]).append((k,v))
gone=[];chg=[];moved=[]
for k,v in a.items():
    if k in b:
        if b[k][1]!=v[1]: chg.append((k,v,b[k]))
    else:
        same=[x for x in kb.get(k[2],[]) if x[1][1]==v[1]]
        if same: moved.append((k,same[0][0]))
        else: gone.append((k,v))
new=[k for k in b if k not in a]
print('GONE',len(gone)); 
for k,v in gone: print('  ','/'.join(k[:2]),k[2],'pub' if v[0] else '',':',v[1][:230])
print('MOVED',len(moved)); 
for x in moved: print('  ',x)
print('CHANGED',len(chg))
for k,v,w in chg: print('  ','/'.join(k[:2]),k[2],'\n      -',v[1][:400],'\n      +',w[1][:400])
print('NEW',len(new)); print('  ',' '.join('/'.join(k) for k in new))
