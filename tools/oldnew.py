#!/usr/bin/env python3
"""Prints what changed between two trees, old and new one behind the other, as docs/DESIGN-PASS.md ends: `tools/oldnew.py OLD NEW`.

Functions, types and constants of src/ (but for the programs), definitions of specs/, and the statements of the theorems that README.md or docs/ of
the old tree name.
"""
import collections
import pathlib
import re
import sys

OLD, NEW = pathlib.Path(sys.argv[1]), pathlib.Path(sys.argv[2])
PROG={'stand','make_case','trial_parts','trial_calls','trial_reader','trial_designs','trial_sheets','trial_pace'}
def strip_comments(t): return re.sub(r'//[^\n]*','',t)
def rt_items(root):
    out={}
    for f in sorted(root.glob('crates/*/src/**/*.rt')):
        crate=f.relative_to(root/'crates').parts[0]
        if crate in PROG: continue
        t=f.read_text()
        impl=None; impls=[]
        for m in re.finditer(r'^impl(?:<[^>]*>)? ([^{]*?) \{|^pub trait (\w+)[^{]*\{',t,re.M):
            end=re.compile(r'^\}',re.M).search(t,m.end())
            impls.append((m.start(),end.start() if end else len(t),(m.group(1) or 'trait '+(m.group(2) or '')).strip()))
        for m in re.finditer(r'^( *)pub (?:extern "C" )?(?:const )?fn (\w+)',t,re.M):
            ind=m.group(1)
            at=re.compile(r'^%s\{$| \{$|;$'%ind,re.M).search(t,m.end())
            head=t[m.start():at.start()]
            own=next((n for s,e,n in impls if s<=m.start()<e),None)
            name=(own+'::' if own else '')+m.group(2)
            name=re.sub(r"<'a>",'',name)
            head=re.sub(r'\s*\n\s*(requires|ensures)',r'\n    \1',strip_comments(head))
            head=re.sub(r'[ \t]+',' ',head); head=re.sub(r'\n (?!requires|ensures)\s*',' ',head)
            head=re.sub(r'\(\s+','(',head); head=re.sub(r',\s*\)',')',head)
            out[(crate,'fn',name)]=re.sub(r'\n ?(requires|ensures)',r'\n    \1',head.strip())
        for m in re.finditer(r'^pub (struct|enum|const|trait|type) (\w+)[^\n]*',t,re.M):
            kind,name=m.group(1),m.group(2)
            if kind=='const' or m.group(0).rstrip().endswith(';'): txt=m.group(0)
            else:
                end=re.compile(r'^\}',re.M).search(t,m.end()); txt=t[m.start():end.end()]
                txt=strip_comments(txt); txt=re.sub(r'\s+',' ',txt)
            out[(crate,kind,name)]=txt
        for m in re.finditer(r'^impl (?:Model|From<\w+>) for (\w+[\w:]*)',t,re.M):
            end=re.compile(r'^\}',re.M).search(t,m.end()); txt=re.sub(r'\s+',' ',strip_comments(t[m.start():end.end()]))
            txt=re.sub(r' fn from\(.*','',txt)
            out[(crate,'impl',m.group(0)[5:])]=txt
    return out
def norm_opt(s):
    strs=re.findall(r'"[^"]*"',s); s=re.sub(r'"[^"]*"','\x00',s)
    s=norm_bare(s)
    for t in strs: s=s.replace('\x00',t,1)
    return s
def norm_bare(s):
    s=re.sub(r'(?<![\w.\-])some(?![\w\-])','Some',s); s=re.sub(r'(?<![\w.\-])none(?![\w\-])','None',s)
    return s
def antt_items(root,where):
    out={}
    for f in sorted(root.glob(f'crates/*/{where}/*.antt')):
        crate=f.relative_to(root/'crates').parts[0]
        t='\n'.join(l for l in f.read_text().split('\n') if not l.lstrip().startswith('--'))
        for b in re.split(r'\n\s*\n',t):
            b=b.strip('\n')
            m=re.search(r'^\s*(?:abbrev |unfoldable )?(?:abbrev )?pub (?:record |data |abbrev |unfoldable )?([^\s:({]+)',b,re.M)
            if not m or b.startswith('use') or b.startswith('pub use') or b.startswith('pub mod'): continue
            name=m.group(1)
            out.setdefault((crate,f.stem,name),b)
    return out
def stmt(b):
    # statement of a theorem: up to the first defining equation
    m=re.search(r'(?:^|\n)(\s*)pub ([^\s:]+) :',b)
    if not m: return re.sub(r'\s+',' ',b)
    name=re.escape(m.group(2))
    e=re.search(r'\n\s*(?:unfolding[^\n]*\n\s*)?%s\b'%name,b[m.end():])
    u=re.search(r'\n\s*unfolding',b[m.end():])
    ends=[x.start() for x in (e,u) if x]
    s=b[m.start():m.end()+(min(ends) if ends else len(b))]
    return re.sub(r'\s+',' ',s).strip()
if __name__=='__main__':
    o,n=rt_items(OLD),rt_items(NEW)
    P=print
    P('### Functions, types and constants of src/\n')
    crates=[l.split(':')[0].split()[0] for l in (NEW/'crates.txt').read_text().split('\n') if l and not l.startswith('#')]
    for c in crates:
        ch=[]
        keys=sorted({k for k in list(o)+list(n) if k[0]==c},key=lambda k:(k[2]))
        for k in keys:
            a,b=o.get(k),n.get(k)
            if a and b and re.sub(r'\s+',' ',a)==re.sub(r'\s+',' ',b): continue
            ch.append((k,a,b))
        if not ch: continue
        P(f'#### `{c}`\n')
        for k,a,b in ch:
            if a is None: P(f'New:\n'); P('    '+b.replace('\n','\n    ')+'\n')
            elif b is None: P(f'Gone:\n'); P('    '+a.replace('\n','\n    ')+'\n')
            else:
                P('Old, new:\n'); P('    '+a.replace('\n','\n    ')); P('    '+b.replace('\n','\n    ')+'\n')
    P('### Definitions of specs/\n')
    o,n=antt_items(OLD,'specs'),antt_items(NEW,'specs')
    on={(k[0],k[2]):v for k,v in o.items()}; nn={(k[0],k[2]):v for k,v in n.items()}
    opt=collections.defaultdict(list)
    w=lambda s:re.sub(r'\s+',' ',s)
    for c in crates:
        ch=[]
        for k in sorted({k for k in list(on)+list(nn) if k[0]==c}):
            a,b=on.get(k),nn.get(k)
            if a and b and w(a)==w(b): continue
            if a and b and w(norm_opt(a)).replace(' map ',' option_map ')==w(b).replace(' map ',' option_map '): opt[c].append(k[1]); continue
            ch.append((k,a,b))
        if not ch: continue
        P(f'#### `{c}`\n')
        for k,a,b in ch:
            lab='New:' if a is None else 'Gone:' if b is None else 'Old, new:'
            P(lab+'\n')
            if a: P('    '+a.replace('\n','\n    '))
            if a and b: P('')
            if b: P('    '+b.replace('\n','\n    '))
            P('')
    P('In these, `none`, `some` and `map` became `None`, `Some` and `option_map`, and nothing else changed:\n')
    for c in crates:
        if opt[c]: P(f'- `{c}`: '+', '.join(f'`{x}`' for x in opt[c]))
    P('')
    P('### Theorems that README.md or docs/ name\n')
    docs=' '.join(p.read_text() for p in [OLD/'README.md']+[q for q in OLD.glob('docs/*.md') if q.name!='PORT.md'])
    named=set(re.findall(r'`([A-Za-z][\w\-]*)`',docs))
    o,n=antt_items(OLD,'proofs'),antt_items(NEW,'proofs')
    on={(k[0],k[2]):stmt(v) for k,v in o.items()}; nn={(k[0],k[2]):stmt(v) for k,v in n.items()}
    same=0; gone=[]; opt2=[]
    # patterns like `order_explained`; also families `.._once`
    fam=[f for f in re.findall(r'`(?:face_)?\.\.(_\w+)`',docs) if f not in ('_start','_turn','_end','_below','_length')]
    rows=[]
    for k,a in sorted(on.items()):
        if not (k[1] in named or any(k[1].endswith(f) for f in fam)): continue
        b=nn.get(k)
        if b is None: gone.append(k); continue
        if a==b: same+=1; continue
        if norm_opt(a)==b: opt2.append(k); continue
        rows.append((k,a,b))
    P(f'{same} are the same word for word. In {len(opt2)} only `none` and `some` became `None` and `Some`: '+', '.join(f'`{k[1]}`' for k in opt2)+'.\n')
    for k,a,b in rows:
        P(f'`{k[0]}`:\n'); P('    '+a); P('    '+b+'\n')
    if gone: P('NOT FOUND: '+', '.join(map(str,gone)))
