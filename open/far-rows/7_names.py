#!/usr/bin/env python3
"""Whether each name that is imported from far_rows, far_forms, far_events or far_core stands there and is pub. usage: 7_names.py ROOT"""
import re,pathlib,sys
R=pathlib.Path(sys.argv[1])/'crates'
cs='far_forms|far_rows|far_events|far_core'
cache={}
def defs(p):
    if p in cache: return cache[p]
    pub,priv=set(),set()
    for l in p.read_text().split('\n'):
        m=re.match(r'\s*((?:(?:abbrev|unfoldable|pub|record|data) )*)([^\s(){}:]+)(?: :| \(|$| [a-z])',l)
        if m and re.match(r'\s*((?:(?:abbrev|unfoldable|pub|record|data) )*)([^\s(){}:]+) [:(]',l):
            (pub if 'pub' in m[1].split() else priv).add(m[2])
    for m in re.finditer(r'pub use ([\w.\-]+)\.\{([^}]*)\}',p.read_text()):
        for n in m[2].split(','): pub.add(n.strip().split(' as ')[-1].strip())
    # constructors of pub data
    t=p.read_text()
    for m in re.finditer(r'^pub data .*?(?=^\S)',t+'\nX',re.M|re.S):
        for n in re.findall(r'^  ([^\s:]+) :',m[0],re.M): pub.add(n)
        for n in re.findall(r'^  ([^\s:]+)$',m[0],re.M): pub.add(n)
    cache[p]=(pub,priv); return cache[p]
bad=0
for f in sorted(R.rglob('*')):
    if f.suffix not in('.antt','.rt') or 'out' in f.parts: continue
    for m in re.finditer(r'use Rattle\.('+cs+r')\.((?:specs|proofs)\.[\w.]+)\.\{([^}]*)\}',f.read_text()):
        c,mod,names=m.groups()
        if '.declared' in mod or '.contracts' in mod or mod.endswith(('.Goals','.Given','.Code','.Statement')): continue
        p=R/c/(mod.replace('.','/')+'.antt')
        if not p.exists(): print('NOFILE',f.relative_to(R),m[0]); continue
        pub,priv=defs(p)
        for n in names.split(','):
            n=n.strip().split(' as ')[0].strip()
            if n not in pub: print('NOTPUB',f.relative_to(R),mod,n); bad+=1


def behind_alias() -> int:
    """Names that stand behind a module's short name, as in cells.body."""
    wrong = 0
    for f in sorted(R.rglob("*")):
        if f.suffix not in (".antt", ".rt") or "out" in f.parts:
            continue
        t = f.read_text()
        for m in re.finditer(r"use Rattle\.(" + cs + r")\.((?:specs|proofs)\.[\w.\-]+)(?: as (\S+?))?;?$", t, re.M):
            c, mod, alias = m.groups()
            if ".declared" in mod or ".contracts" in mod or mod.endswith(("Goals", "Given", "Code", "Statement", "Met")):
                continue
            p = R / c / (mod.replace(".", "/") + ".antt")
            short = alias or mod.split(".")[-1]
            for n in sorted(set(re.findall(r"(?<![\w.\-'#])" + re.escape(short) + r"\.([A-Za-z_][\w\-']*)", t))):
                if not p.exists() or n not in defs(p)[0]:
                    print("ALIAS", f.relative_to(R), f"{short}.{n}")
                    wrong += 1
    return wrong


bad += behind_alias()
print(bad)
