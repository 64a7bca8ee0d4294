#!/usr/bin/env python3
"""far_rows without folders `memory` and `state`; the two crates' pages; imports in order. usage, at the top: 8_flat.py"""
import os,re,subprocess
root='crates/far_rows'
def mv(a,b):
    os.makedirs(os.path.dirname(b),exist_ok=True); os.rename(a,b)
# sources
for d,_,fs in list(os.walk(root+'/src/memory')):
    for f in fs:
        a=d+'/'+f; mv(a,a.replace('/src/memory/','/src/'))
os.remove(root+'/src/memory.rt')
for d,_,fs in list(os.walk(root+'/proofs/memory')):
    for f in fs:
        a=d+'/'+f; mv(a,a.replace('/proofs/memory/','/proofs/'))
for f in os.listdir(root+'/specs/state'):
    mv(root+'/specs/state/'+f, root+'/specs/'+f)
os.rename(root+'/specs/state.antt', root+'/specs/Lib.antt')
for f in os.listdir(root+'/planted'):
    if f.startswith('memory.'): os.rename(root+'/planted/'+f, root+'/planted/'+f[len('memory.'):])
for d in ('src/memory','proofs/memory','specs/state'):
    subprocess.call(['find',root+'/'+d,'-type','d','-empty','-delete'])
subs=[('far_rows.specs.state.','far_rows.specs.'),('far_rows.specs.declared.memory.','far_rows.specs.declared.'),
 ('far_rows.specs.contracts.memory.','far_rows.specs.contracts.'),('far_rows.proofs.memory.','far_rows.proofs.'),('far_rows.src.memory.','far_rows.src.')]
own=[('crate::memory::','crate::'),('crate::specs::state::','crate::specs::'),('crate::specs::declared::memory::','crate::specs::declared::'),('crate::proofs::memory::','crate::proofs::'),
 ('proofs::memory::','proofs::')]
for top in ('crates','bench','docs','scripts','c_api'):
    for d,ds,fs in os.walk(top):
        if '/out' in d or 'open/far-rows' in d: continue
        for f in fs:
            p=d+'/'+f
            try: t=open(p).read()
            except UnicodeDecodeError: continue
            o=t
            for a,b in subs: t=t.replace(a,b)
            if d.startswith(root):
                for a,b in own: t=t.replace(a,b)
            else:
                t=t.replace('far_rows::specs::state::','far_rows::specs::').replace('far_rows/src/memory/','far_rows/src/').replace('far_rows/specs/state/','far_rows/specs/').replace('far_rows/proofs/memory/','far_rows/proofs/')
            if t!=o: open(p,'w').write(t)

ROWS='''# far_rows

The rows of which a `Memory` of [far_events](../far_events) is made. What a row says is a function; a call changes it at one place, or along one range.

- `Words`: one row of bytes, so that a range is copied in one piece. `Bits`: 64 in a word.
- `Jobs`, `Task`: jobs, and what each copier has read and written; no room where none may have one.
- `StoredRows`: the words of what went far. `Stored`: the same for clauses alone, without bytes.

Each `new` that takes memory is refused `AllocError` alone.
'''
FORMS='''# far_forms

What needs no memory: events and replies of [far_events](../far_events) as data, and what words say by themselves. Nothing is refused.

- src/event.rt: `Event`, with each guard in words; `Reply`, `Kind`. src/shape.rt: how large a heap may be.
- src/naming.rt: `Naming::of` a cell's old and new word: which of six forms they make, if any.
- src/cells.rt, job_words.rt, places.rt: a cell, a job's word, a place.
'''

import glob
def change(path, pairs):
    text=open(path).read()
    for old,new in pairs:
        assert old in text,(path,old)
        text=text.replace(old,new)
    open(path,'w').write(text)
change(root+'/src/lib.rt',[("mod memory;\nmod task;","mod bits;\nmod jobs;\nmod stored;\nmod stored_rows;\nmod task;\nmod words;"),("pub use memory::","pub use "),
 ("pub use words::Words;\npub use task::Task;","pub use task::Task;\npub use words::Words;")])
for p in glob.glob(root+'/planted/*.edits'):
    text=open(p).read(); open(p,'w').write(text.replace('file: src/memory/','file: src/'))
for p in glob.glob('crates/**/*.rt',recursive=True):
    text=open(p).read(); new=re.sub(r'(?m)^(\s*(?:pub )?use [a-z_:]+::)\{([A-Za-z_]+)\};',r'\1\2;',text)
    if new!=text: open(p,'w').write(new)
change('crates/far_events/src/memory/copying.rt',[("use far_rows::Task;\nuse crate::memory::Memory;\nuse far_forms::{first_word, is_loose, offered_in};\n","use crate::memory::Memory;\nuse far_forms::{first_word, is_loose, offered_in};\nuse far_rows::Task;\n")])
change('crates/far_events/src/lib.rt',[("pub use memory::steps::{done_or_word, is_naming};\npub use memory::Memory;","pub use memory::Memory;\npub use memory::steps::{done_or_word, is_naming};")])
text=open('crates/far_forms/src/lib.rt').read()
lines=text.split('\n'); uses=sorted(l for l in lines if l.startswith('pub use'))
open('crates/far_forms/src/lib.rt','w').write('\n'.join([l for l in lines if not l.startswith('pub use')]).rstrip('\n')+'\n\n'+'\n'.join(uses)+'\n')
open(root+'/README.md','w').write(ROWS)
open('crates/far_forms/README.md','w').write(FORMS)
