const fs=require('fs');const {format}=require('./format.js');
const texts=fs.readFileSync(process.argv[2],'utf8').split('\n@@@@\n').slice(0,-1);
const out=[];
for(const t of texts){let o=null;for(const sourceType of ['module','script']){try{o=format(t,{sourceType});break;}catch(e){o='!'+e.message.slice(0,100)+'\n';if(!/SyntaxError|\(\d+:\d+\)/.test(String(e)))break;}}out.push(o);}
fs.writeFileSync(process.argv[3],JSON.stringify(out));
