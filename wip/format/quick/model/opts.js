const fs=require('fs');const {format}=require('./format.js');
const texts=fs.readFileSync(process.argv[2],'utf8').split('\n@@@@\n').slice(0,-1);const o=JSON.parse(process.argv[3]);
fs.writeFileSync(process.argv[4],JSON.stringify(texts.map(t=>{for(const sourceType of ['module','script']){try{return format(t,{...o,sourceType})}catch(e){var m='!'+e.message}}return m})));
