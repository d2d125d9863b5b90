# rows through the rustc build: rows_fast.py [all|WORD]
import json,subprocess,sys
rows=[json.loads(l) for l in open('/tmp/fmt/rows_u.jsonl')]
def run(texts, tag):
    open(f'/tmp/fmt/{tag}.txt','w',newline='').write(''.join(t+'\n@@@@\n' for t in texts))
    import hashlib,os
    h=hashlib.sha1(open(f'/tmp/fmt/{tag}.txt','rb').read()).hexdigest()
    k=f'/tmp/fmt/{tag}.hash'
    if not (os.path.exists(k) and open(k).read()==h):
        subprocess.run(['/tmp/fmt/dumper'],stdin=open(f'/tmp/fmt/{tag}.txt','rb'),stdout=open(f'/tmp/fmt/{tag}.dump','wb'))
        open(k,'w').write(h)
    out=subprocess.run(['/tmp/fmt/shim/fmt',f'/tmp/fmt/{tag}.txt',f'/tmp/fmt/{tag}.dump'],stdout=subprocess.PIPE).stdout.decode()
    return out.split('@@@@\n')[:-1]
if __name__=='__main__':
    outs=run([r['in'] for r in rows],'rows')
    again=run([o[:-1] if o.endswith('\n') else o for o in outs],'again')
    assert len(outs)==len(rows),(len(outs),len(rows)); assert len(again)==len(rows),len(again)
    ok=0;by={};unst=0
    w=sys.argv[1] if len(sys.argv)>1 else None
    for r,o,a in zip(rows,outs,again):
        g=by.setdefault(r['about'],[0,0,0,0]);g[1]+=1
        if o==r['out']: ok+=1;g[0]+=1
        else:
            if o.startswith('!'): g[2]+=1
            if w and (w=='all' or w in r['about']): print('--- ',r['about']);print(r['in']);print('+++ want');print(r['out'],end='');print('=== got');print(o,end='')
        if not o.startswith('!') and a!=o:
            g[3]+=1;unst+=1
            if w: print('### unstable',r['about']);print(o,end='');print('=== again');print(a,end='')
    print(ok,'of',len(rows),'unstable',unst)
    for k,v in by.items(): print('  ',k,v[0],'of',v[1],'refused',v[2],'unstable',v[3])
