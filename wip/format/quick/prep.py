import re,sys,os
def strip(s):
    s=re.sub(r'^\s*ghost use [^;]*;\s*\n','',s,flags=re.M)
    s=re.sub(r'#!\[tactic.*?\]\n(?=\n|//|mod|use|pub)','',s,flags=re.S)
    s=re.sub(r'#\[tactic[^\n]*\]\n','',s)
    out=[];i=0
    pat=re.compile(r'\b(requires|ensures\*?|ghost)\b( \w+)?( [=:])?( ?:)? ?\{')
    pat2=re.compile(r'(?m)^([ \t]*)(requires|ensures\*?|ghost|decreases)\b[^\n{]*\{')
    while True:
        m=pat2.search(s,i)
        if not m: out.append(s[i:]); break
        out.append(s[i:m.start()])
        j=m.end(); d=1
        while d:
            c=s[j]
            d+= c=='{'; d-= c=='}'; j+=1
        while j<len(s) and s[j] in ',;': j+=1
        i=j
    s=''.join(out)
    def der(m):
        l=[x.strip() for x in m.group(1).split(',') if x.strip()!='Drop']
        return '#[derive(%s)]'%', '.join(l) if l else ''
    s=re.sub(r'#\[derive\(([^)]*)\)\]',der,s)
    s=s.replace('use std::alloc::','use rstd::')
    s=re.sub(r'impl<T: Drop>','impl<T>',s)
    s+='\n#[allow(unused_imports)] use rstd::{Vec, String};\n'
    return s
src,dst=sys.argv[1:3]
os.makedirs(dst,exist_ok=True)
for f in os.listdir(src):
    if f.endswith('.rt') and f!='tests.rt':
        t=strip(open(os.path.join(src,f)).read())
        if f=='lib.rt': t=t.replace('#[cfg(test)]\nmod tests;','')
        open(os.path.join(dst,f[:-2]+'rs'),'w').write(t)
