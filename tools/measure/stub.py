"""One function of the parser's cycle alone: writes a copy of the crate in which each other function of the cycle only refuses, so that
its contract is taken as it stands. A check of it takes 10 to 60 seconds, where one of the whole cycle takes minutes.

    stub.py CRATE COPY [FUNCTION]

CRATE is crates/recursive_descent, COPY the same folder of a copy of the repository (with the other crates' out/). Its answers and invariants are
taken from proofs/parser/Parser/+grammar of CRATE, by their names; with no FUNCTION all of the cycle refuse, for a check of another
function. In COPY: rt check --only parser::Parser::FUNCTION --allow-holes
"""
import re,glob,sys,shutil,os
src,base=(it.rstrip('/')+'/' for it in sys.argv[1:3])
keep=set(sys.argv[3:])
for d in ('specs','proofs'):
    shutil.rmtree(base+d,ignore_errors=True); shutil.copytree(src+d,base+d)
G=base+'proofs/parser/Parser/+grammar/'
def split(path):
    # header and entries by 'pub NAME : goal...' or 'abbrev pub NAME'
    if not os.path.exists(path): return '',[]
    t=open(path).read()
    parts=re.split(r'\n\n(?=(?:abbrev pub|pub|--|[a-z_]+[-\w]* :))',t)
    return parts[0],parts[1:]
def plain(k,text):
    # goals without the function in front, and without the measure
    return re.sub(r'(?:(?<=goal\.)|(?<![-\w+.]))'+k+r'-(?=[a-z])','',text)
def needed(text):
    # without the imports that nothing uses
    body='\n'.join(x for x in text.split('\n') if not x.startswith('use '))
    def line(x):
        m=re.match(r'use (\S+)\.\{(.*)\}$',x)
        if m is None: return x
        names=[n for n in m.group(2).split(', ') if '◌' in n or re.search(r'(?<![-\w+])'+re.escape(n.split(' as ')[-1])+r'(?![-\w+])',body)]
        return 'use '+m.group(1)+'.{'+', '.join(names)+'}' if names else None
    return '\n'.join(y for y in map(line,text.split('\n')) if y is not None)
asked={}
for f in glob.glob(src+'src/*.rt'):
    for m in re.finditer(r'fn (\w+)(?:[^{;]|\{(?!\n))*?(?=\n\s*\{\n)',open(f).read()):
        asked[m.group(1)]=re.findall(r'\n\s*requires (\w*) ?\{',m.group(0))
def fields(text,count):
    # what a call asks, (measure, (one, (two, three))), clause by clause
    text=text.strip()
    if count==1: return [text]
    depth=0
    for i,c in enumerate(text):
        depth+=(c in '([{')-(c in ')]}')
        if depth==1 and text.startswith(', ',i): return [text[1:i]]+fields(text[i+2:-1],count-1)
    return [text]
def record(e,k):
    # the third form of answers of the cycle (lib.rt), as a stub has it
    m=re.search(r'(?ms)^'+k+r'-(\w+)-requires t c =.*?(?=\(search rules, )',e)
    if m is None or not asked.get(m.group(1)): return e
    names=asked[m.group(1)]
    parts=fields(e[m.end():],len(names)+1)[1:]
    if names==['']: return e[:m.end()]+parts[0]
    return e[:m.end()]+'record { '+'; '.join(a+' = '+b for a,b in zip(names,parts))+' }'
for k in keep:
    own=k=='read_symbols'
    for f in ('Answers','Invariants'):
        h,es=split(G+f+'.antt')
        mine=[]
        for e in es:
            m=re.search(r'(?:^|\n)(?:abbrev )?pub ([\w\-\+]+) :',e)
            if m is None:
                if re.search(r'(?m)^[a-z]\w* :',e): mine.append(e)
                continue
            nm=m.group(1)
            if nm.startswith(k+'-') or nm=='invariant-'+k or nm.startswith('invariant-'+k+'-') or nm.startswith('decreases-'+k+'-') or nm=='decreases-'+k and own:
                if nm.startswith(('invariant-'+k+'-','decreases-'+k+'-')): e=e.replace(nm,nm.replace('-'+k+'-','-',1))
                if not own:
                    e=record(e,k)
                    e=re.sub(r'(?m)^([\w\-\+]+) t c =',r'\1 c =',e)
                    e=re.sub(r'(returns-[\w+-]*) t c\)',r'\1 c)',e)
                mine.append(e)
        if any('pub ' in e for e in mine):
            d=base+'proofs/parser/Parser/'+('+'+k if own else k); os.makedirs(d,exist_ok=True)
            def used(x):
                if 'Goals.{' not in x: return x
                names=[n for n in x[x.index('{')+1:x.rindex('}')].split(', ') if any(re.search(r'(?<![-\w+.])'+re.escape(n)+r'(?![-\w+])',e) for e in mine)]
                return x[:x.index('{')+1]+', '.join(names)+'}' if names else None
            h2='\n'.join(x for x in map(used,h.split('\n')) if x is not None)
            out='\n\n'.join([h2]+mine)
            out=plain(k,out)
            out=needed(out)
            open(d+'/'+f+'.antt','w').write(out.replace('.+grammar.','.'+('+'+k if own else k)+'.')+'\n')
shutil.rmtree(G,ignore_errors=True)
for f in glob.glob(src+'src/*.rt'):
    s=open(f).read()
    out='';pos=0
    while True:
        i=s.find('#[cycle(grammar)]',pos)
        if i<0: out+=s[pos:];break
        out+=s[pos:i]
        m=re.compile(r'\n(\s*)\{\n').search(s,i)
        ind=m.group(1)
        e=s.index('\n'+ind+'}\n',m.end()-1)
        head=s[i+len('#[cycle(grammar)]'):m.start()]
        fn=re.search(r'fn (\w+)',head).group(1)
        body=s[m.start():e+len('\n'+ind+'}\n')]
        if fn=='read_symbols' and fn in keep: out+='#[cycle(read_symbols)]'+head+body
        elif fn in keep: out+=head.replace('#[inline(never)]','').lstrip()+body
        else: out+=head.replace('#[inline(never)]','').lstrip()+'\n'+ind+'{\n'+ind+'    Err(Fault::OutOfMemory)\n'+ind+'}\n'
        pos=e+len('\n'+ind+'}\n')
    open(base+'src/'+os.path.basename(f),'w').write(out)
