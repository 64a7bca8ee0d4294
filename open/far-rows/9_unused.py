#!/usr/bin/env python3
"""Imports whose names stand nowhere in their file; with --fix they go. usage: 9_unused.py ROOT CRATE,CRATE.. [--fix]"""
import re,sys,pathlib
R=pathlib.Path(sys.argv[1])/'crates'; fix='--fix' in sys.argv
import collections
n=0; per=collections.Counter()
for c in (sys.argv[2].split(',')):
    for f in sorted((R/c).rglob('*')):
        if f.suffix not in('.antt','.rt') or 'out' in f.parts: continue
        t=f.read_text()
        uses=list(re.finditer(r'^[ \t]*(?:ghost use|use) Rattle\.([\w.\-]+)\.\{([^}]*)\}[^\n]*\n',t,re.M))
        body=re.sub(r'^[ \t]*(?:pub )?(?:ghost use|use) Rattle\.[^\n]*\n','',t,flags=re.M)
        toks=set(re.findall(r"[^\s(){}\[\],.;:]+",body))|set(re.findall(r"[\w']+",body))
        new=t
        for m in uses:
            names=[x.strip() for x in m[2].split(',')]
            unused=[]
            for x in names:
                y=x.split(' as ')[-1].strip()
                parts=[p for p in y.split('◌') if p]
                if not parts or y=='[]': continue
                if all((p in toks or ('◌' in y and p in body)) for p in parts): continue
                unused.append(x)
            if unused:
                n+=1; per[c]+=1
                print(f.relative_to(R),m[1],unused)
                if fix:
                    keep=[x for x in names if x not in unused]
                    new=new.replace(m[0], m[0].replace('{'+m[2]+'}','{'+', '.join(keep)+'}') if keep else '')
        if fix and new!=t: f.write_text(new)
print(n,per)
