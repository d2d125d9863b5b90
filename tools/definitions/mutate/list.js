'use strict';
// The list of mutants that mean the same (../means_the_same.txt): a line each, with tabs between the file, the clause, the change as mutate.js prints
// them, and the reason. Lines that begin with # are comments.

const fs = require('node:fs');

class ListError extends Error {}

// reasons by the mutants' keys
function readList(file) {
  const reasons = new Map();
  fs.readFileSync(file, 'utf8')
    .split('\n')
    .forEach((line, i) => {
      if (line === '' || line.startsWith('#')) return;
      const fields = line.split('\t'),
        key = fields.slice(0, 3).join('\t');
      if (fields.length !== 4 || fields[3].trim() === '')
        throw new ListError(`${file}:${i + 1}: not a file, a clause, a change and a reason, with tabs between`);
      if (reasons.has(key)) throw new ListError(`${file}:${i + 1}: stands twice`);
      reasons.set(key, { line: i + 1, reason: fields[3] });
    });
  return reasons;
}

module.exports = { readList, ListError };
