// In which language a text is read: the first of those that has it, in their order, which its settings leave, and its name or package.json. jslint-files
// reads the scripts of a project so.

// All languages, in the order in which a text is tried.
const ALL = ['2020', '2022', 'module'];

/** What a package.json says that the scripts beside it and below it are: 'module', 'script', or null. */
export function kindSaid(text) {
  try {
    return { module: 'module', commonjs: 'script' }[JSON.parse(text.replace(/^\ufeff/, ''))?.type] ?? null;
  } catch {
    return null;
  }
}

/** The commands of core.mjs for texts of one language. */
export function inLanguage(commands, language) {
  const options = { language };
  return {
    ...commands,
    check: (text, more) => commands.check(text, { ...more, ...options }),
    spans: (text, more) => commands.spans(text, { ...more, ...options }),
    tree: (text, more) => commands.tree(text, { ...more, ...options }),
    fix: (text) => commands.fix(text, options),
    unwrap: (text) => commands.unwrap(text, options),
    mend: (text, more) => commands.mend(text, { ...more, ...options }),
    format: (text) => commands.format(text, options),
    treeText: (text) => commands.treeText(text, options),
    cost: (text) => commands.cost(text, options),
    same: (text, other) => commands.same(text, other, options),
    verify: (text, table) => commands.verify(text, table, options),
  };
}

/** In which languages texts are tried, by their settings. `isTaken` says whether a language goes with settings. */
export class Languages {
  constructor(isTaken) {
    Object.assign(this, { isTaken, left: new Map() });
  }

  /** The languages that settings leave; all of those that are refused, which is said elsewhere. */
  leftBy(settings) {
    if (!this.left.has(settings)) {
      const left = settings === '' ? ALL : ALL.filter((it) => this.isTaken(settings, it));
      this.left.set(settings, left.length ? left : ALL);
    }
    return this.left.get(settings);
  }

  /** The languages for a text, in the order in which they are tried. `kind` is what its name or package.json says. */
  triedFor({ settings = '', kind = null }) {
    const left = this.leftBy(settings),
      scripts = left.filter((it) => it !== 'module');
    if (kind === 'module' && left.includes('module')) return ['module'];
    return kind !== null && scripts.length ? scripts : left;
  }
}
