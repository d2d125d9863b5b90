#!/usr/bin/env node
'use strict';
// Runs all comparisons of the definitions with the model:
//   node run.js [--specs FOLDER]... [--n N] [--seed S] [--jobs J] [--only PART,..] [--text TEXT] [--fast] [--first] [--brief]
// FOLDER: a crate or a folder of crates (default tokens, tree, language, early_errors of ../../crates). N scales
// the numbers of texts (default 1000). --text checks one text alone, with its mutations. --fast takes fewer mutations,
// --first stops at the first disagreement.
// Prints counts and disagreements, smallest first, minimised where they hang on a text alone; with --brief one line for all counts.
// JOBs run side by side: as many as there are processors, at most four.

const os = require('os');
const path = require('path');
const { Worker, isMainThread, workerData, parentPort } = require('worker_threads');

const { CRATES } = require('./model.js');

function options(argv) {
  const o = { specs: [], n: 1000, seed: 1, jobs: Math.min(4, os.availableParallelism()), only: null, text: null };
  for (let i = 0; i < argv.length; i++) {
    const a = argv[i];
    if (a === '--specs') o.specs.push(argv[++i]);
    else if (a === '--n') o.n = Number(argv[++i]);
    else if (a === '--seed') o.seed = Number(argv[++i]);
    else if (a === '--jobs') o.jobs = Number(argv[++i]);
    else if (a === '--only') o.only = argv[++i].split(',');
    else if (a === '--text') o.text = argv[++i];
    else if (a === '--fast') o.fast = true;
    else if (a === '--first') o.first = true;
    else if (a === '--brief') o.brief = true;
    else {
      console.error('usage: run.js [--specs FOLDER]... [--n N] [--seed S] [--jobs J] [--only PART,..] [--text TEXT] [--fast] [--first] [--brief]');
      process.exit(2);
    }
  }
  if (o.specs.length === 0) o.specs.push(...CRATES);
  return o;
}

// ---------------------------------------------------------------- one worker

function work({ o, job }) {
  const antt = require('./antt.js');
  const { Model, PLAIN_MODEL, plainTree, copyTree, bareText, nodesOf } = require('./model.js');
  const { Derive, Reading, TooMuch } = require('./derive.js');
  const { compareCosts, compareLeast } = require('./costs.js');
  const { compareLayout } = require('./layout.js');
  const { compareEarly } = require('./early.js');
  const T = require('./texts.js');
  const { parseOnly } = require(path.join(PLAIN_MODEL, 'parse.js'));
  const brute = require(path.join(PLAIN_MODEL, 'brute.js'));
  const trees = require(path.join(PLAIN_MODEL, 'trees.js'));
  const print = require(path.join(PLAIN_MODEL, 'print.js'));
  const planner = require(path.join(PLAIN_MODEL, 'plan.js'));

  const model = new Model(o.specs);
  const derive = new Derive(model);
  const LIMITS = { maxHeight: 1e5, maxParens: 1e5 };
  const counts = {};
  const count = (k, n = 1) => {
    counts[k] = (counts[k] ?? 0) + n;
  };
  const kinds = {};
  const found = new Map(); // what -> [{text, detail}]
  const STOP = new Error('stopped at the first disagreement');
  let stopped = false;
  const report = (what, text, detail) => {
    count('disagreements');
    stopped = o.first && what !== 'example';
    const list = found.get(what) ?? [];
    list.push({ text, detail: detail.slice(0, 1500), n: 1 });
    list.sort((a, b) => a.text.length - b.text.length);
    if (list.length > 12) list.length = 12;
    found.set(what, list);
    if (stopped) throw STOP;
  };
  const parse = (text) => parseOnly(text, LIMITS);
  const parsers = require('./relaxed.js').relaxed();
  // trees that parsers with a check left out see; `own` is the bare text of the right one, or null
  function tryRelaxed(text, own, say) {
    const seen = new Set([own]);
    for (const p of parsers) {
      let r;
      try {
        r = p.parseOnly(text, LIMITS);
      } catch {
        continue;
      }
      if (!r.ok) continue;
      let tree;
      let b;
      try {
        tree = plainTree(r.tree);
        b = bareText(tree);
      } catch {
        continue;
      }
      if (seen.has(b)) continue;
      seen.add(b);
      count('trees of parsers with a check left out');
      const d = tryDerive(text, tree, { places: false });
      if (d !== null && d.length > 0)
        say(
          own === null ? 'refused text derives' : 'another tree is derived, check left out',
          `check "${p.name}", tree ${b}${own === null ? '' : `, model ${own}`}`
        );
    }
  }
  const keyed = (r) => r.pairs.map((p) => `${p.left}-${p.right}`).join(' ');
  const tryDerive = (text, tree, opt) => {
    try {
      return derive.derive(text, tree, opt);
    } catch (error) {
      if (error instanceof TooMuch) {
        count('derivation searches given up');
        return null;
      }
      throw error;
    }
  };
  // the token lists of all readings, at most 8
  const readings = (text) => {
    const R = new Reading(model, text);
    const out = [];
    let cut = false;
    const go = (c, list) => {
      if (out.length >= 8) return;
      if (list.length > 32) {
        cut = true;
        return;
      }
      if (c.t === null) {
        out.push(list);
        return;
      }
      for (const d of R.over(c)) go(d, [...list, c.t.v]);
    };
    for (const c of R.begin()) go(c, [model.beginning]);
    return cut || out.length >= 8 ? null : out;
  };

  // Everything of one text alone: [{what, detail}]; info.tree where the model accepts
  function check(text, seed, info = {}) {
    const out = [];
    const say = (what, detail) => out.push({ what, detail });
    const random = T.randomSource(seed);
    const r = parse(text);
    if (!r.ok) {
      info.refused = true;
      if (r.fault.kind !== 'Syntax') return out;
      tryRelaxed(text, null, say);
      return out;
    }
    const plain = plainTree(r.tree);
    const root = model.tree(plain);
    info.tree = plain;
    info.result = r;
    info.nodes = nodesOf(plain);
    if (text.length <= 600) tryRelaxed(text, bareText(plain), say);
    const want = keyed(r);
    info.want = want;
    for (const places of [true, false]) {
      if (!places && text.length > 3000) continue;
      const d = tryDerive(text, plain, { places });
      if (d === null) continue;
      count(places ? 'derivations searched' : 'derivations searched without places');
      const name = places ? '' : ' (places aside)';
      if (d.length === 0) say('accepted text has no derivation' + name, `tree ${bareText(plain)}`);
      else if (d.length > 1) say('several lists of pairs' + name, d.map((x) => `[${x.key}]`).join(' '));
      else if (d[0].key !== want) say('other pairs' + name, `definitions [${d[0].key}], model [${want}]`);
      else if (d[0].open !== r.openParens) say('other number of open parentheses' + name, `definitions ${d[0].open}, model ${r.openParens}`);
    }
    for (const n of info.nodes) if (!model.is_lean(n.spec)) say('text or flags that the kind has no use for', `${n.kind} ${n.start}-${n.stop}`);
    if (model.height(root) !== r.height) say('height', `definitions ${model.height(root)}, model ${r.height}`);
    if (info.nodes.length <= 6000) {
      count('trees for costs, layout, early errors');
      const c = compareCosts(model, r.tree, root, random);
      out.push(...c.out);
      out.push(...compareLeast(model, root));
      info.plan = c.pl;
      if (c.pl !== undefined) out.push(...compareLayout(model, r.tree, root, c.pl, random));
      if (info.nodes.length <= 800) { // the fixed text derives the same tree with `least` pairs
        const fixed = antt.text(model.fixed_text(root));
        const own = bareText(plain);
        const again = parse(fixed);
        const d = tryDerive(fixed, plain, { places: false });
        const least = model.least(root, model.script);
        count('fixed texts derived');
        if (!again.ok || bareText(plainTree(again.tree)) !== own) say('fixed text has another tree', JSON.stringify(fixed));
        else if (d !== null && (d.length !== 1 || String(d[0].pairs.length) !== String(least.a[0])))
          say('fixed text: pairs', `${JSON.stringify(fixed)} ${d.map((x) => x.key).join('|')}, least ${least.a[0]}`);
        else if (antt.text(model.fixed_text(model.tree(plainTree(again.tree)))) !== fixed) say('fixed text changes when fixed again', JSON.stringify(fixed));
      }
      const e = compareEarly(model, r.tree, root);
      out.push(...e.out);
      info.errors = e.errors;
    }
    if (text.length <= 90) {
      const lists = readings(text);
      if (lists !== null) {
        count('texts for the search of the definitions');
        const keys = new Set();
        for (const list of lists) {
          for (let x = model.spelled(root, model.script, antt.fromArray(list)); x !== null; x = x.t) {
            const [rest, P] = x.h;
            if (rest.t === null)
              keys.add(
                antt
                  .toArray(P)
                  .map((p) => `${p.left}-${p.right}`)
                  .join(' ')
              );
          }
        }
        if (keys.size !== 1 || !keys.has(want)) say('the search of the definitions', `found ${[...keys].map((k) => `[${k}]`).join(' ')}, model [${want}]`);
      }
    }
    return out;
  }

  function note(text, list) {
    for (const { what, detail } of list) report(what, text, detail);
  }

  // A text with mutations of its tree and of its tokens.
  function full(text, random, trees, tokens) {
    const info = {};
    count('texts');
    note(text, check(text, random.below(1e9), info));
    if (info.tree === undefined) {
      count('texts refused');
      return;
    }
    count('texts accepted');
    for (const n of info.nodes) kinds[n.kind] = (kinds[n.kind] ?? 0) + 1;
    for (const e of info.errors ?? []) {
      const k = e.split(' ')[0];
      kinds[k] = (kinds[k] ?? 0) + 1;
    }
    if (info.nodes.length > 400) return;
    const own = bareText(info.tree);
    for (let k = 0; k < trees; k++) {
      const t = T.mutateTree(info.tree, random);
      const b = bareText(t);
      if (b === own) continue;
      model.tree(t);
      count('mutated trees');
      const d = tryDerive(text, t, { places: false });
      if (d !== null && d.length > 0) report('another tree is derived', text, `model ${own}\n   derived ${b}`);
      spelled(t, b, random);
    }
    for (let k = 0; k < Math.ceil(trees / 4); k++) { // places changed
      const t = copyTree(info.tree);
      const n = random.pick(nodesOf(t));
      if (random.chance(50)) n.start = Math.max(0, n.start + random.pick([-1, 1]));
      else n.stop = Math.max(0, n.stop + random.pick([-1, 1]));
      count('trees with other places');
      const same = JSON.stringify(nodesOf(t).map((x) => [x.start, x.stop])) === JSON.stringify(info.nodes.map((x) => [x.start, x.stop]));
      const d = tryDerive(text, t);
      if (!same && d !== null && d.length > 0) report('other places are derived', text, `${n.kind} ${n.start}-${n.stop}`);
    }
    spelled(info.tree, own, random);
    const list = T.pieces(text);
    for (let k = 0; k < tokens; k++) {
      const changed = T.mutateText(list, random, extras).join('');
      tokenMutation(changed, info.tree, own, random);
    }
  }
  function tokenMutation(changed, tree, own, random) {
    const sub = {};
    count('mutated texts');
    note(changed, check(changed, random.below(1e9), sub));
    if (sub.tree !== undefined) count('mutated texts accepted');
    for (const e of sub.errors ?? []) {
      const k = e.split(' ')[0];
      kinds[k] = (kinds[k] ?? 0) + 1;
    }
    const d = tryDerive(changed, tree, { places: false });
    if (d === null) return;
    const same = sub.tree !== undefined && bareText(sub.tree) === own;
    if ((d.length > 0) !== same)
      report(
        d.length > 0 ? 'the old tree is derived from a changed text' : 'the old tree is not derived from a changed text',
        changed,
        `tree ${own}, model ${sub.tree ? bareText(sub.tree) : 'refuses'}`
      );
  }
  // Texts that the definitions spell a tree with, whatever the tree is.
  function spelled(tree, own, random) {
    const text = T.spellText(model, tree.spec, random);
    if (text === null) {
      count('trees without a spelling');
      return;
    }
    count('texts spelled by the definitions');
    const r = parse(text);
    const d = tryDerive(text, tree, { places: false });
    if (d === null) return;
    const theirs = r.ok ? bareText(plainTree(r.tree)) : 'refuses';
    if (d.length > 0) count('of these derived');
    if ((d.length > 0) !== (theirs === own))
      report(d.length > 0 ? 'a spelled text is read otherwise' : 'a text of this tree is not derived', text, `tree ${own}\n   model ${theirs}`);
    else if (d.length > 1) report('several lists of pairs (places aside)', text, d.map((x) => `[${x.key}]`).join(' '));
    else if (d.length === 1 && d[0].key !== keyed(r)) report('other pairs (places aside)', text, `definitions [${d[0].key}], model [${keyed(r)}]`);
  }

  const { ALPHABETS, PIECES, oddWords } = T.lists();
  const PROGRAMS = T.programs();
  const pool = PROGRAMS.flatMap(T.pieces).filter((p) => p.trim() !== '');
  const extras = [...oddWords, ...pool];
  const random = T.randomSource(o.seed * 1000 + job);
  const mine = (list) => list.filter((_, i) => i % o.jobs === job);
  const share = Math.ceil(o.n / o.jobs);
  const wants = (part) => o.only === null || o.only.includes(part);
  const timed = (name, f) => {
    if (stopped || !wants(name)) return;
    const t = Date.now();
    try {
      f();
    } catch (error) {
      if (error !== STOP) throw error;
    }
    count('ms ' + name, Date.now() - t);
  };

  if (o.text !== null) {
    try {
      full(o.text, random, 400, 400);
    } catch (error) {
      if (error !== STOP) throw error;
    }
    return finish();
  }

  if (job === 0) {
    const e = model.spec.runExamples();
    count('examples of the definitions', e.count);
    for (const [name, what] of e.bad) report('example', name, what);
    if (o.specs.join() === CRATES.join()) {
      const { out, count: texts } = require('./sources.js').compareSources(model.spec);
      count('texts of examples read as tokens', texts);
      for (const p of out) report('example', p.text, `${p.what}: ${p.detail}`);
    }
  }
  timed('tokens', () => {
    const { compareReading, compareTemplate, randomText, allTexts, TEMPLATES } = require('./reading.js');
    const info = { count };
    const look = (text) => {
      count('texts read as tokens');
      note(text, compareReading(model, text, info));
    };
    const all = allTexts(model);
    mine(o.fast ? all.filter((_, i) => i >= 0x3100 || i < 0x100 || i % 7 === 0 || /[\u1680\u2000-\u2030\u205f\u3000]/.test(all[i])) : all).forEach(look);
    for (let k = 0; k < Math.max(share * 20, 1500); k++) look(randomText(random));
    for (let k = 0; k < Math.max(share * 20, 1500); k++) {
      const characters = Array.from({ length: random.below(8) }, () => random.pick(TEMPLATES)).join('');
      note(characters, compareTemplate(model, characters, info));
    }
  });
  timed('odd', () => {
    for (const t of mine(T.ODD)) full(t, random, o.fast ? 6 : 40, o.fast ? 2 : 20);
  });
  timed('rows', () => {
    for (const t of mine(T.rowTexts())) full(t, random, 12, 6);
  });
  timed('programs', () => {
    for (const t of mine(PROGRAMS)) full(t, random, Math.ceil(o.n / 10), Math.ceil(o.n / 10));
  });
  timed('sentences', () => { // of brute.js's grammar
    for (let k = 0; k < share * 2; k++) {
      const words = brute.sample(random.next, 10 + random.below(60));
      if (words.length > 80) continue;
      const breaks = random.pick([0, 0.05, 0.3]);
      full(words.map((t, i) => (t === ';' && random.below(3) === 0 ? '\n' : (i > 0 ? (random.next() < breaks ? '\n' : ' ') : '') + t)).join(''), random, 6, 3);
    }
  });
  timed('generated', () => { // random trees of trees.js
    for (let k = 0; k < share * 2; k++) {
      const g = new trees.Generator(random.below(1e9) + 1);
      const program = g.program(3 + random.below(14));
      const pl = planner.plan(program);
      const wrapped = new Set(pl.wrapped);
      for (const r of pl.rows) if (random.chance(10)) wrapped.add(r.node);
      full(print.layout(program, wrapped), random, 4, 2);
    }
  });
  timed('early', () => { // pieces made for early errors
    for (const name of Object.keys(PIECES)) {
      for (let k = 0; k < share / 2; k++) {
        const text = Array.from({ length: 1 + random.below(7) }, () => random.pick(PIECES[name])).join('');
        let list = check(text, 1, {});
        count('texts of pieces');
        const info = {};
        list = check(text, 1, info);
        if (info.tree !== undefined) {
          count('texts of pieces accepted');
          for (const e of info.errors ?? []) {
            const key = e.split(' ')[0];
            kinds[key] = (kinds[key] ?? 0) + 1;
          }
        }
        note(text, list);
      }
    }
  });
  timed('alphabets', () => {
    for (const name of Object.keys(ALPHABETS)) {
      for (let k = 0; k < share / 2; k++) {
        const glue = random.pick([' ', ' ', '', '\n']);
        const text = Array.from({ length: 1 + random.below(8) }, () => random.pick(ALPHABETS[name])).join(glue);
        count('texts of alphabets');
        const info = {};
        note(text, check(text, 1, info));
        if (info.tree !== undefined) {
          count('texts of alphabets accepted');
          if (k % 4 === 0) full(text, random, 4, 2);
        }
      }
    }
  });
  return finish();

  function finish() {
    // minimise what hangs on a text alone
    const results = [];
    const until = Date.now() + (o.first ? 0 : o.fast ? 2000 : 60000);
    for (const [what, list] of found) {
      const one = list[0];
      let text = one.text;
      let detail = one.detail;
      const holds = (t) => {
        if (/^(token, goal|value of|line and column|raw value|cooked value|whether a part)/.test(what)) return null;
        for (const seed of [1, 2, 3]) {
          let l;
          try {
            l = check(t, seed, {});
          } catch {
            return null;
          }
          const hit = l.find((p) => p.what === what);
          if (hit) return hit.detail;
        }
        return null;
      };
      if (Date.now() < until && holds(text) !== null) {
        let ps = T.pieces(text);
        for (let changed = true; changed && Date.now() < until;) {
          changed = false;
          for (let size = Math.max(1, ps.length >> 1); size >= 1 && !changed; size >>= 1) {
            for (let i = 0; i + size <= ps.length; i++) {
              const fewer = [...ps.slice(0, i), ...ps.slice(i + size)];
              const d = holds(fewer.join(''));
              if (d !== null) {
                ps = fewer;
                detail = d;
                changed = true;
                break;
              }
            }
          }
        }
        text = ps.join('');
      }
      results.push({ what, text, detail, others: list.slice(1, 6).map((x) => x.text), n: list.length });
    }
    const called = {};
    for (const [k, v] of model.spec.called) called[k] = v;
    const all = [...model.spec.modules.values()].flatMap((m) => m.definitions.filter((d) => !d.skip).map((d) => m.name + '.' + d.name));
    parentPort.postMessage({ counts, kinds, results, called, all, skipped: model.spec.skipped.filter(([n, w]) => w === 'a type').map(([n]) => n) });
  }
}

// ---------------------------------------------------------------- the whole

const seconds = (started) => Math.round((Date.now() - started) / 1000);

function tellBriefly(counts, definitions, started) {
  const n = (k) => counts[k] ?? 0;
  console.log(
    `${definitions} definitions and ${n('examples of the definitions')} examples of them, run beside the model on ${n('texts')} texts, ${n('mutated texts')} mutated ones, ` +
      `${n('mutated trees')} mutated trees, ${n('tokens looked for (place and goal)')} places for tokens; ${seconds(started)} s`
  );
}

function tell(counts, kinds, { all, skipped }, called, started) {
  for (const [k, v] of Object.entries(counts)) if (!k.startsWith('ms ')) console.log(String(v).padStart(9), k);
  console.log(
    'nodes and early errors seen:',
    Object.entries(kinds)
      .sort()
      .map(([k, v]) => `${k} ${v}`)
      .join(', ')
  );
  const never = all.filter((n) => !called[n]);
  console.log(
    'definitions never run:',
    never
      .map((n) => n.replace(/^Rattle\.\w+\.specs\./, ''))
      .filter((n) => !/^(Examples|Rows|EarlyRows|Nest)\./.test(n))
      .join(' ') || 'none'
  );
  console.log('types, not run (the search stands for Step, Spells, Runs):', skipped.map((n) => n.split('.').pop()).join(' '));
  console.log(
    `${seconds(started)} s (${Object.entries(counts)
      .filter(([k]) => k.startsWith('ms '))
      .map(([k, v]) => `${k.slice(3)} ${Math.round(v / 1000)}`)
      .join(', ')} s of work)`
  );
}

async function main() {
  const o = options(process.argv.slice(2));
  if (o.text !== null) o.jobs = 1;
  const started = Date.now();
  const answers = await Promise.all(
    Array.from(
      { length: o.jobs },
      (_, job) =>
        new Promise((resolve, reject) => {
          const w = new Worker(__filename, { workerData: { o, job }, resourceLimits: { stackSizeMb: 900, maxOldGenerationSizeMb: 3000 } });
          w.on('message', resolve);
          w.on('error', reject);
        })
    )
  );
  const counts = {};
  const kinds = {};
  const called = {};
  const found = new Map();
  for (const a of answers) {
    for (const [k, v] of Object.entries(a.counts)) counts[k] = (counts[k] ?? 0) + v;
    for (const [k, v] of Object.entries(a.kinds)) kinds[k] = (kinds[k] ?? 0) + v;
    for (const [k, v] of Object.entries(a.called)) called[k] = (called[k] ?? 0) + v;
    for (const r of a.results) {
      const old = found.get(r.what);
      if (old === undefined) found.set(r.what, { ...r });
      else {
        if (r.text.length < old.text.length) {
          r.others.push(old.text);
          found.set(r.what, { ...r, others: [...r.others, ...old.others] });
        } else old.others.push(r.text, ...r.others);
      }
    }
  }
  if (o.brief) tellBriefly(counts, answers[0].all.length, started);
  else tell(counts, kinds, answers[0], called, started);
  console.log(`${o.brief ? "" : "\n"}${found.size} kinds of disagreement`);
  for (const r of [...found.values()].sort((a, b) => a.text.length - b.text.length)) {
    console.log(`\n* ${r.what}: ${JSON.stringify(r.text)}\n   ${r.detail}`);
    const others = [...new Set(r.others)]
      .filter((t) => t !== r.text)
      .sort((a, b) => a.length - b.length)
      .slice(0, 6);
    if (others.length > 0) console.log('   also ' + others.map((t) => JSON.stringify(t.slice(0, 120))).join('  '));
  }
  process.exitCode = found.size > 0 ? 1 : 0;
}

if (isMainThread)
  main().catch((error) => {
    console.error(error);
    process.exitCode = 2;
  });
else work(workerData);
