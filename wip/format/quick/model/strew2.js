const fs=require('fs');const acorn=require('acorn');const {read,format}=require('./format.js');
const strip=(n)=>JSON.stringify(n,(k,v)=>(k==='start'||k==='end'?undefined:typeof v==='bigint'?String(v):v));
let seed=+process.argv[3]||1;const rnd=()=>(seed=(seed*1103515245+12345)%2147483648)/2147483648;
const files=fs.readFileSync(process.argv[2],'utf8').split('\n').filter(Boolean);
const density=+process.argv[4]||0.15;const max=+process.argv[5]||100;let n=0,count=0,out='';const model=[];
for(const f of files){ if(count>=max)break;
 let text=fs.readFileSync(f,'utf8').replace(/^\uFEFF/,'').replace(/\r\n?/g,'\n');if(text.length>5000||text.startsWith('#!')||text.includes('@@@@'))continue;
 let tree;try{tree=acorn.parse(text,{ecmaVersion:2022,sourceType:'module'});}catch{continue;}
 const {tokens}=read(text,'module');let o='',from=0;
 tokens.forEach((t,i)=>{o+=text.slice(from,t.start);const p=tokens[i-1];
  if(rnd()<density&&t.type!=='template'&&!(p&&p.type==='template')&&!(t.v==='`'&&p&&p.type==='template')){
   const noEnd=(p&&/^(return|throw|break|continue|yield|async)$/.test(p.v))||/^(\+\+|--|=>)$/.test(t.v)||(p&&p.v==='let');
   const k=Math.floor(rnd()*(noEnd?2:8));
   o+=[' /*'+n+++'*/ ',' ',' //'+n+++'\n','\n//'+n+++'\n','\n','\n\n',' /*'+n+++'\n*/ ','\n/**\n   * '+n+++'\n  */\n'][k];}
  o+=text.slice(t.start,t.end);from=t.end;});
 o+=text.slice(from);if(o.endsWith('\n'))o=o.slice(0,-1);
 let t2;try{t2=acorn.parse(o,{ecmaVersion:2022,sourceType:'module'});}catch{continue;}
 if(strip(t2)!==strip(tree))continue;
 count++;out+=o+'\n@@@@\n';try{model.push(format(o,{sourceType:'module'}));}catch(e){model.push('!'+e.message+'\n');}}
fs.writeFileSync(process.argv[6],out);fs.writeFileSync(process.argv[7],JSON.stringify(model));console.log(count);
