// Answers commands by the package, for tools/tests/libraries.py: a line of JSON for each question, and one for each answer.
//
//   node answers.mjs PACKAGE
import { createInterface } from 'node:readline';
import { pathToFileURL } from 'node:url';

const { run } = await import(pathToFileURL(`${process.argv[2]}/jslint.mjs`));
for await (const line of createInterface({ input: process.stdin })) {
  const { command, text, second, language } = JSON.parse(line);
  const [first, other] = [text, second].map((it) => new Uint8Array(Buffer.from(it, 'base64')));
  process.stdout.write(`${JSON.stringify(run(command, first, other, language ?? undefined))}\n`);
}
