// What git knows of a repository beside its ignore files: where `info/exclude` is, and which file `core.excludesFile` names.
import { spawnSync } from 'node:child_process';
import { lstatSync, readFileSync, statSync } from 'node:fs';
import path from 'node:path';

// What a caller sets, which would have git speak of another repository.
const OF_CALLER = ['GIT_DIR', 'GIT_WORK_TREE', 'GIT_COMMON_DIR', 'GIT_INDEX_FILE', 'GIT_PREFIX'];
const MOST_BYTES = 65536,
  MOST_MS = 5000;

/** Whether there is anything of this name, be it a link that leads nowhere. */
export function isThere(name) {
  try {
    return lstatSync(name, { throwIfNoEntry: false }) !== undefined;
  } catch (error) {
    return error.code !== 'ENOTDIR';
  }
}

/** What a short file has, without its line end; null where there is none, or it can't be read. */
function lineOf(file) {
  try {
    const stat = statSync(file);
    return stat.isFile() && stat.size <= MOST_BYTES ? readFileSync(file, 'utf8').replace(/[\r\n]+$/, '') : null;
  } catch {
    return null;
  }
}

/** The folder that has `info` of the repository whose work tree has this top: `.git`, or where it leads to. Work trees of one repository share it. */
export function commonFolder(top) {
  const own = path.join(top, '.git'),
    said = lineOf(own),
    folder = said?.startsWith('gitdir:') ? path.resolve(top, said.slice('gitdir:'.length).trimStart()) : own;
  const shared = lineOf(path.join(folder, 'commondir'));
  return shared === null ? folder : path.resolve(folder, shared);
}

/** The path of the user's own ignore file: as git's settings name it, or where git looks without them. Null where there is none. */
export function excludesFile(top) {
  const env = Object.fromEntries(Object.entries(process.env).filter(([name]) => !OF_CALLER.includes(name)));
  const asked = spawnSync('git', ['-C', top, 'config', '--path', '-z', '--get', 'core.excludesFile'], {
    env,
    timeout: MOST_MS,
    encoding: 'utf8',
    stdio: ['ignore', 'pipe', 'ignore'],
  });
  if (asked.status === 0) return asked.stdout.length > 1 ? path.resolve(top, asked.stdout.replace(/\0$/, '')) : null;
  const { HOME, XDG_CONFIG_HOME } = process.env,
    folder = XDG_CONFIG_HOME || (HOME && path.join(HOME, '.config'));
  return folder ? path.join(folder, 'git', 'ignore') : null;
}
