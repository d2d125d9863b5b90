// The hints by the table beside this file. They are shown behind the program's own words, as guesses.
import { readFileSync } from 'node:fs';
import { hintsOf } from './hinting.mjs';

export const { syntaxHint, earlyHint } = hintsOf(JSON.parse(readFileSync(new URL('./hints.json', import.meta.url), 'utf8')));
