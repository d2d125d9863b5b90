// The words of the documents, which make-texts.mjs takes out of them.
import { readFileSync } from 'node:fs';

export const texts = JSON.parse(readFileSync(new URL('./texts.json', import.meta.url), 'utf8'));
