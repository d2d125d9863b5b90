# compare.py FROM TO [show N]: published files beside the model
import json,subprocess,sys,difflib
sys.path.insert(0,'/tmp/fmt')
from rows_fast import run
a,b=int(sys.argv[1]),int(sys.argv[2]); show=int(sys.argv[3]) if len(sys.argv)>3 else 0
files=open('/tmp/fmt/files.txt').read().split('\n')[a:b]
texts=[];names=[]
for f in files:
    try: t=open(f,newline='').read()
    except Exception: continue
    if '\r' in t or '@@@@' in t or '\ufeff' in t or '\t' in t and False: continue
    if t.endswith('\n'): t=t[:-1]
    texts.append(t);names.append(f)
outs=run(texts,f'pub_{a}_{b}')
import os
again=run([o[:-1] for o in outs],f'pub2_{a}_{b}') if not os.environ.get('QUICK') else outs
mo=f'/tmp/fmt/model_{a}_{b}.json'
if not os.path.exists(mo):
    open('/tmp/fmt/files_in.txt','w',newline='').write(''.join(t+'\n@@@@\n' for t in texts))
    subprocess.run(['node','--stack-size=8000','/tmp/fmt/model/many.js','/tmp/fmt/files_in.txt',mo],check=True,env={**os.environ,'NODE_PATH':'/usr/share/nodejs'})
model=json.load(open(mo))
assert len(outs)==len(texts)==len(model)==len(again),(len(outs),len(texts),len(model),len(again))
same=ref=unst=lost=0;lines=dl=0;shown=0;diffs=[]
for n,o,m,g in zip(names,outs,model,again):
    if o.startswith('!refused'): ref+=1; continue
    if o.startswith('!lost'): lost+=1; print('LOST',n,m[:80] if m[0]=='!' else ''); continue
    if m.startswith('!'): print('model',n,m.strip()); continue
    if g!=o:
        unst+=1
        if shown<show:
            print('UNSTABLE',n); print('\n'.join(list(difflib.unified_diff(o.split('\n'),g.split('\n'),lineterm='',n=2))[:25])); shown+=1
    lines+=m.count('\n')
    if o==m: same+=1
    else:
        d=list(difflib.unified_diff(m.split('\n'),o.split('\n'),'model','ours',lineterm='',n=3))
        k=sum(1 for l in d if l.startswith('+') and not l.startswith('+++'))
        dl+=k; diffs.append((k,n,d))
print('files',len(texts),'refused',ref,'lost',lost,'same',same,'differ',len(diffs),'lines',lines,'other lines',dl,'unstable',unst)
diffs.sort(key=lambda x:x[0])
for k,n,d in diffs[:show]:
    print('=====',k,n); print('\n'.join(d[:40]))
