import json,subprocess,sys,difflib,os,re
sys.path.insert(0,'/tmp/fmt')
from rows_fast import run
seed,dens,n=sys.argv[1:4]; show=int(sys.argv[4]) if len(sys.argv)>4 else 5; off=int(sys.argv[5]) if len(sys.argv)>5 else 0
tag=f'st_{seed}_{n}_{off}'
if not os.path.exists(f'/tmp/fmt/{tag}.json'):
    open('/tmp/fmt/st_files.txt','w').write('\n'.join(open('/tmp/fmt/files.txt').read().split('\n')[off:]))
    subprocess.run(['node','--stack-size=8000','/tmp/fmt/model/strew2.js','/tmp/fmt/st_files.txt',seed,dens,n,f'/tmp/fmt/{tag}_in.txt',f'/tmp/fmt/{tag}.json'],check=True,env={**os.environ,'NODE_PATH':'/usr/share/nodejs'})
texts=open(f'/tmp/fmt/{tag}_in.txt',newline='').read().split('\n@@@@\n')[:-1]
model=json.load(open(f'/tmp/fmt/{tag}.json'))
outs=run(texts,tag); again=run([o[:-1] for o in outs],tag+'b')
assert len(outs)==len(texts)==len(model)==len(again)
same=ref=lost=unst=bad=0;shown=0;com=0;diffs=[]
words=lambda t: re.findall(r'/\*\*?\s*\*?\s*\d+|//\d+',t)
for t,o,m,g in zip(texts,outs,model,again):
    if o.startswith('!refused'): ref+=1; continue
    if o.startswith('!lost'): lost+=1; print('LOST'); continue
    a=re.findall(r'(?:/\*\*?[\s*]*|//)(\d+)',t); b=re.findall(r'(?:/\*\*?[\s*]*|//)(\d+)',o)
    if a!=b: com+=1
    if g!=o:
        unst+=1
        if g.startswith('!'): bad+=1
        if shown<show: shown+=1; print('UNSTABLE'); print('\n'.join(list(difflib.unified_diff(o.split('\n'),g.split('\n'),lineterm='',n=3))[:30]))
    if o==m: same+=1
    else:
        d=list(difflib.unified_diff(m.split('\n'),o.split('\n'),'model','ours',lineterm='',n=3)); diffs.append((sum(1 for l in d if l[0] in '+-'),d))
print('texts',len(texts),'refused',ref,'lost',lost,'same as the model',same,'differ',len(diffs),'unstable',unst,'of them refused again',bad,'comments changed',com)
diffs.sort(key=lambda x:x[0])
for k,d in diffs[:show]: print('=====',k); print('\n'.join(d[:45]))
