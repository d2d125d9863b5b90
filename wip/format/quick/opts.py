import subprocess,json,os,difflib,sys
tag=sys.argv[1] if len(sys.argv)>1 else 'rows'
for env,o in (({'WIDTH':'40'},{'width':40}),({'TABS':'1'},{'tabs':True}),({'TABS':'1','INDENT':'4'},{'tabs':True,'tab':4}),({'INDENT':'4'},{'tab':4}),({'COMMAS':'none'},{'comma':'none'}),({'COMMAS':'lists'},{'comma':'lists'}),({'BARE':'1'},{'arrowParens':False}),({'WIDTH':'120'},{'width':120}),({'WIDTH':'20'},{'width':20})):
    out=subprocess.run(['/tmp/fmt/shim/fmt',f'/tmp/fmt/{tag}.txt',f'/tmp/fmt/{tag}.dump'],stdout=subprocess.PIPE,env={**os.environ,**env}).stdout.decode().split('@@@@\n')[:-1]
    subprocess.run(['node','--stack-size=8000','/tmp/fmt/model/opts.js',f'/tmp/fmt/{tag}.txt',json.dumps(o),'/tmp/fmt/opts.json'],check=True,env={**os.environ,'NODE_PATH':'/usr/share/nodejs'})
    m=json.load(open('/tmp/fmt/opts.json'))
    bad=[(a,b) for a,b in zip(m,out) if a!=b]
    print(env,len(out)-len(bad),'of',len(out))
    for a,b in bad[:3]: print('\n'.join(list(difflib.unified_diff(a.split('\n'),b.split('\n'),'model','ours',lineterm='',n=2))[:20]))
