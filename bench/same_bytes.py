#!/usr/bin/env python3
"""Compares what two builds write for Markdown: same_bytes.py OLD NEW COUNT [TEXT ..]

COUNT random texts (tables, code, words, signs) and the files are written by `markdown` at 80, 41 and 20 columns, in the skins `none` and `dark`. Each
text that differs is named, and the first eight are put into the current folder.
"""
import random
import subprocess
import sys
from pathlib import Path
old,new,count=sys.argv[1],sys.argv[2],int(sys.argv[3])
R=random.Random(77)
A=list('ab. *_`~[]()!<>\\&#-+1.|:\t \n\n"@=')
W=['word','a longer word','**bold**','*it*','`co de`','``x y``','[l](u)','[r]','[r]: http://x/y "t"\n','![i](p)','![](p.png)','<b>','</b>','<br>','http://a.b/c','www.x.y','m@x.yz','&amp;','&#x41;','\\*','é','日本語','👍🏽','\u00ad','\u200d','\u0085','  \n','\n','\n\n','- ','1. ','> ','    ','\t','# ','```\n','```rust\n','let x = "a b"; // c\n','~~~\n','|','|a|b|\n|-|:-:|\n|c|d\\|e|\n','---\n','===\n','<div>\n','x\u0301','…','\x1b[1m','\x7f','verylongwordthatdoesnotfitintotwentycolumnsatall','~~s~~','***','_u_','~','  ',' ','\u3000','e.g.','ww.x','a:/b']
C=['','a','a b','long words in a cell that has to be wrapped somewhere','**b**','*i* and b','`c d`','[l](u) x','![p](q)','é','日本','x\u0301','a\\|b','\\','  sp  ','<br>','a<br>b','www.x.y','m@x.y','http://a.b/c d','&amp;','~~s~~ t','**a** **b**','**a**b','end.','\u200d','👍🏽','…','[r]','-','a `b` *c* **d** [e](f)','http://x.y','1','-1.5','\u00a0x']
def table():
    n=R.randint(1,5)
    rows=['|'+'|'.join(R.choice(C) for _ in range(n))+'|']
    rows.append('|'+'|'.join(R.choice(['-',':-','-:',':-:']) for _ in range(n))+'|')
    for _ in range(R.randint(0,6)): rows.append('|'+'|'.join(' '+' '.join(R.choice(C) for _ in range(R.randint(1,3)))+' ' for _ in range(n+R.choice([0,0,0,1,-1]) or 1))+'|')
    return R.choice(['','> ','- '])+('\n'.join(rows))+'\n'
def code():
    lines=[R.choice(['',' ','    ','\t','  \t'])+' '.join(R.choice(['let','x','=','"a b"','1','//c','\t','é','日本','\u200d','\x1b[1m','a\tb','fn','{','}','verylongwordthatdoesnotfitintotwentycolumnsatall']) for _ in range(R.randint(0,14))) for _ in range(R.randint(0,6))]
    if R.random()<.3: return ''.join('    '+l+'\n' for l in lines)
    return '```'+R.choice(['','rust','python','sh','text'])+'\n'+'\n'.join(lines)+'\n```\n'
ins=[]
for i in range(count):
    k=i%8
    if k in (0,1,2): t='\n'.join([table() for _ in range(R.randint(1,2))]+['[r]: http://d "t"\n'])
    elif k==3: t=code()
    elif k==4: t=''.join(R.choice(A) for _ in range(R.randint(1,60)))
    elif k==5: t=' '.join(R.choice(W) for _ in range(R.randint(1,40)))
    elif k==6: t=''.join(R.choice(W)+R.choice(['',' ','\n']) for _ in range(R.randint(1,40)))
    else: t='\n\n'.join(R.choice([table,code,lambda:' '.join(R.choice(W) for _ in range(12))])() for _ in range(3))
    ins.append(t.encode())
for f in sys.argv[4:]: ins.append(Path(f).read_bytes())
def run(b,t,words):
    r=subprocess.run([b,'markdown',*words],input=t,stdout=subprocess.PIPE,stderr=subprocess.PIPE)
    return r.returncode,r.stdout,r.stderr
bad=n=0
for i,t in enumerate(ins):
    for w in ('80','41','20'):
        for s in ('none','dark'):
            n+=1
            if run(old,t,[w,s])!=run(new,t,[w,s]):
                bad+=1
                if bad<=8: print('differs',i,w,s,repr(t[:200])); Path(f'bad{bad}.md').write_bytes(t)
    if i%500==499: print(i+1,'texts',n,'runs',bad,'differ',flush=True)
print('all:',len(ins),'texts',n,'runs',bad,'differ')
