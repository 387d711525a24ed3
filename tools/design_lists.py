#!/usr/bin/env python3
"""Prints the lists of docs/DESIGN-PASS.md, old and new text side by side: usage: design_lists.py OLD NEW, two checkouts."""
import glob,json,os,re,subprocess,sys
OLD,NEW=sys.argv[1:3]
here=os.path.dirname(os.path.abspath(__file__))
j=json.loads(subprocess.run(['python3','/opt/rattle/port/contracts.py',OLD,NEW,'--json'],capture_output=True,text=True).stdout)
lem=subprocess.run(['python3',os.path.join(here,'lemmas.py'),OLD,NEW],capture_output=True,text=True).stdout
out=[]
def clauses(req,ens):
    r=[]
    for n,t in req: r.append(('requires '+n).strip()+' { '+t+' }')
    for n,t in ens: r.append(('ensures '+n).strip()+' { '+t+' }')
    return r
def short(name):
    p=name.split(' ')
    return p[0]+'  '+p[1].replace('src/','')+'  '+' '.join(p[2:])
out+=['## Signatures, old and new','','Of every function whose text is another, private ones too; by crate, file and name.','','```']
for n,a,b in sorted(j['signatures changed']):
    out+=[short(n),'  - '+re.sub(r'\s+',' ',a),'  + '+re.sub(r'\s+',' ',b)]
out+=['```','','## Clauses, old and new','','`requires` that are gone have no line in the new text.','','```']
for n,ra,ea,rb,eb in sorted(j['contracts changed']):
    out+=[short(n)]+['  - '+x for x in clauses(ra,ea)]+['  + '+x for x in clauses(rb,eb)]
out+=['```','','## Ghost members, definitions and lemmas of specs/, old and new','','Of a lemma the statement is shown; one whose proof alone is another is not listed.','','```']
g=j['ghost items and constants']
for c,t,n,a,b in g['changed']:
    out+=[f'{c}  {t} {n}']+['  - '+x for x in a]+['  + '+x for x in b]
def stated(t,n):
    if re.match(r'(abbrev|unfoldable|data|record|pub data|pub record)\b',t) or ' : ' not in t: return t
    h,r=t.split(' : ',1)
    return re.split(r' '+re.escape(n)+r' ',r,maxsplit=1)[0]
for c,n,a,b in sorted(j['definitions']['changed']):
    a=[stated(t,n) for t in a]; b=[stated(t,n) for t in b]
    if a==b: continue
    out+=[f'{c}  {n}']+['  - '+x for x in a]+['  + '+x for x in b]
out+=['```','']
# lemmas in proofs
out+=['## Lemmas of proofs/, old and new','','Whose statement is another (a proof alone is not listed):','','```']
blk=lem[lem.index('CHANGED'):lem.index('NEW')].split('\n')[1:]
i=0
while i+2<len(blk):
    nm=blk[i].strip()
    if '/proofs/' in nm: out+=[nm,blk[i+1].rstrip().replace('      ','  '),blk[i+2].rstrip().replace('      ','  ')]
    i+=3
out+=['```','']
out+=['## Must-fail edits, old and new text','','Each has its name and its wrong meaning; the others stand as they stood, `missing_object_is_held_as_a_normal_file` of `lookup`','but for its blanks, and `cut_store_is_done` moved from `journal` to `device` with `put`.','','```']
for c,n,a,b in sorted(j['edits and outputs']['changed']):
    if 'must-fail' not in n: out+=[f'{c}  {n}: see above']; continue
    out+=[f"{c}  {n.replace('must-fail/','').replace('.edit','')}",'  - '+re.sub(r'\s+',' ',a),'  + '+re.sub(r'\s+',' ',b)]
out+=['```','']
names=lambda r:{os.path.basename(f):f for f in glob.glob(r+'/crates/*/must-fail/*.edit')}
o,n=names(OLD),names(NEW)
new=sorted((f for k,f in n.items() if k not in o))
out+=['New, of public functions that are new or were without one:','','```']
for f in new:
    out+=[f.split('/crates/')[1].split('/')[0]+'  '+os.path.basename(f)[:-5],'    '+re.sub(r'\s+',' ',open(f).read())]
out+=['```','']
assert not [k for k in o if k not in n]
print('\n'.join(out))
