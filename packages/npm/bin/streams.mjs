// How the two commands read files and write.
import { closeSync, openSync, readSync, writeSync } from 'node:fs';

// Why a file can't be read, in the words of jslint-files.
const UNREAD = { ENOENT: 'missing', ENOTDIR: 'missing', EISDIR: 'a folder', EACCES: 'not permitted', ELOOP: 'links in a circle' };
// Characters with which a name could break a line, or have it shown in another order.
const UNSHOWN = /[\0-\x1f\x7f-\x9f\u061c\u200e\u200f\u2028-\u202e\u2066-\u2069]/g;

/** A name as a line shows it. */
export function shown(name) {
  return name.replace(UNSHOWN, (it) => {
    const code = it.charCodeAt(0).toString(16);
    return it < '\u0100' ? `\\x${code.padStart(2, '0')}` : `\\u{${code.padStart(4, '0')}}`;
  });
}

/** Writes all of a text to standard output, 1, or standard error, 2. */
export function write(to, text) {
  const bytes = Buffer.from(text);
  for (let at = 0; at < bytes.length;) {
    try {
      at += writeSync(to, bytes, at);
    } catch (error) {
      if (error.code !== 'EAGAIN') throw error;
    }
  }
}

/** Writes to standard error. Where nobody reads that, the status alone says it. */
export function warn(text) {
  try {
    write(2, text);
  } catch {
    // (there is nowhere to say so)
  }
}

/** What an open file has, but no more than so many bytes. */
function readFrom(file, most) {
  const parts = [];
  for (let left = most; left > 0;) {
    const part = Buffer.alloc(Math.min(left, 65536)),
      length = readSync(file, part);
    if (length === 0) break;
    parts.push(part.subarray(0, length));
    left -= length;
  }
  return Buffer.concat(parts);
}

/** A file's bytes, but no more than so many. */
export function read(name, most = Infinity) {
  // (a pipe that is a socket can't be opened by its name)
  if (name === '/dev/stdin') return readFrom(0, most);
  const file = openSync(name);
  try {
    return readFrom(file, most);
  } finally {
    closeSync(file);
  }
}

/** Why a file wasn't read. */
export function unread(error) {
  return Object.hasOwn(UNREAD, error.code) ? `read failed: ${UNREAD[error.code]}` : 'read failed';
}
