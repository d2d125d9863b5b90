'use strict';
// What the runners share that plant faults: a copy of the definitions, and which faults are asked for or have their turn.

const crypto = require('node:crypto');
const fs = require('node:fs');
const os = require('node:os');
const path = require('node:path');

// a copy of these crates' definitions in the temporary folder, whose files may be written
function copyOf(folder, crates) {
  const dir = fs.mkdtempSync(path.join(os.tmpdir(), 'plant-'));
  for (const c of crates) for (const part of ['specs', 'src']) fs.cpSync(path.join(folder, c, part), path.join(dir, c, part), { recursive: true });
  for (const file of filesBelow(dir)) fs.chmodSync(file, 0o644);
  return dir;
}
const filesBelow = (dir) =>
  fs.readdirSync(dir, { withFileTypes: true }).flatMap((e) => (e.isDirectory() ? filesBelow(path.join(dir, e.name)) : [path.join(dir, e.name)]));
// [I, K] of `--jobs I/K`, or of `--turns K`: there which K-th has its turn is told by a sum of the definitions in these folders
function partOf(argv, folders) {
  const value = (name) => {
    const i = argv.indexOf(name);
    return i < 0 ? null : argv[i + 1];
  };
  if (value('--turns') === null) return (value('--jobs') ?? '0/1').split('/').map(Number);
  const sum = crypto.createHash('sha256');
  for (const folder of folders) for (const file of filesBelow(folder).sort()) if (file.endsWith('.antt')) sum.update(fs.readFileSync(file));
  const of = Number(value('--turns'));
  return [sum.digest().readUInt32BE() % of, of];
}
// those whose names have one of the words between `|`, or all
const chosen = (faults, only) => faults.filter((f) => only === null || only.split('|').some((w) => f[0].includes(w)));

module.exports = { copyOf, filesBelow, chosen, partOf };
