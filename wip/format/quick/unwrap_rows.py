import json,subprocess
rows=[json.loads(l) for l in open('/work/shared/sketches/format/rows.jsonl')]
J='/work/main/release/x86_64-linux-musl/jslint'
n=0
out=[]
for r in rows:
    p=subprocess.run([J,'unwrap','--module','-'],input=r['in'].encode(),capture_output=True)
    if p.returncode: p=subprocess.run([J,'unwrap','--edition','2022','-'],input=r['in'].encode(),capture_output=True)
    t=p.stdout.decode()
    assert p.returncode==0,(r,p.stderr)
    if t!=r['in']: n+=1
    out.append({'about':r['about'],'in':t,'out':r['out']})
open('/tmp/fmt/rows_u.jsonl','w').write(''.join(json.dumps(o)+'\n' for o in out))
print(n,'changed by unwrap')
