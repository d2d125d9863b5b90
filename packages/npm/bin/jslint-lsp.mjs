#!/usr/bin/env node
// The language server, over standard input and output: an editor starts it.
import { existsSync } from 'node:fs';
import { warn, write } from './streams.mjs';

const USAGE = `usage: jslint-lsp [--stdio]

The language server of jslint, over standard input and output. An editor starts it.

  --version    the version
  --help       this
`;
// What editors say beside it.
const TAKEN = /^--(?:stdio|clientProcessId=\d+|test)$/;
const MADE = ['../jslint.wasm', '../lib/texts.json'].map((it) => new URL(it, import.meta.url));
// How long what is written may take to reach its reader at the end.
const LAST_MS = 2000;

/** Ends once what was written is with its reader, or no reader takes it. */
function exit(status) {
  process.exitCode = status;
  process.stdout.write('', () => process.exit(status));
  setTimeout(() => process.exit(status), LAST_MS);
}

async function serve(isTest) {
  const { Server } = await import('../lib/server.mjs');
  const log = (text) => warn(`jslint-lsp: ${text}\n`);
  // (whatever goes wrong in one answer, the editor keeps its server)
  process.on('uncaughtException', (error) => log(error.stack));
  process.on('unhandledRejection', (error) => log(error?.stack ?? String(error)));
  new Server(process.stdin, process.stdout, { onExit: exit, log, isTest });
}

/** The status with which to end now, or nothing where the server runs. */
async function main(words) {
  if (words.includes('--help') || words.includes('-h')) {
    write(1, USAGE);
    return 0;
  }
  if (!words.every((it) => TAKEN.test(it) || it === '--version')) {
    warn(USAGE);
    return 2;
  }
  if (!MADE.every((it) => existsSync(it))) {
    warn('jslint-lsp: jslint.wasm or lib/texts.json is missing: in the repository `node packages/npm/prepack.mjs` puts them here\n');
    return 2;
  }
  if (!words.includes('--version')) return serve(words.includes('--test'));
  const { texts } = await import('../lib/shown.mjs');
  write(1, `jslint-lsp ${texts.version}\n`);
  return 0;
}

try {
  process.exitCode = await main(process.argv.slice(2));
} catch {
  warn('jslint-lsp: write failed\n');
  process.exitCode = 2;
}
