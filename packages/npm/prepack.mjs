// Puts into this folder what the package takes from other places of the repository: the module, the licences, and the words that the language server shows.
import { copyFileSync, existsSync, writeFileSync } from 'node:fs';
import { fileURLToPath } from 'node:url';
import { pagesOf, textsOf } from './make-texts.mjs';

const top = new URL('../../', import.meta.url);
const here = new URL('./', import.meta.url);
const module = process.env.JSLINT_WASM ?? fileURLToPath(new URL('release/wasm/jslint.wasm', top));
if (!existsSync(module)) {
  console.error(`there is no ${module}: python3 tools/wasm/build.py makes one, which JSLINT_WASM names`);
  process.exit(1);
}
copyFileSync(module, new URL('jslint.wasm', here));
writeFileSync(new URL('lib/texts.json', here), `${JSON.stringify(textsOf(top), null, 1)}\n`);
for (const [name, text] of Object.entries(pagesOf(top))) writeFileSync(new URL(`lib/${name}`, here), text);
for (const name of ['LICENSE-APACHE', 'LICENSE-MIT']) copyFileSync(new URL(name, top), new URL(name, here));
