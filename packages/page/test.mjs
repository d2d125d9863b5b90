// The page in headless Chromium, from a folder without a server: types scripts, reads what each tab answers, and goes by the keyboard alone.
//
//   node test.mjs [--chromium CHROMIUM] [--pictures FOLDER] PAGE.html
//
// Chromium is spoken to by its own protocol over a pipe. The last line is 'N as wanted, M not'; status 1 where M isn't 0.
import { spawn } from 'node:child_process';
import { mkdtempSync, readFileSync, readdirSync, rmSync, writeFileSync } from 'node:fs';
import { tmpdir } from 'node:os';
import { join, resolve } from 'node:path';
import { setTimeout as pause } from 'node:timers/promises';
import { pathToFileURL } from 'node:url';
import { parseArgs } from 'node:util';

const { values, positionals } = parseArgs({
  allowPositionals: true,
  options: { chromium: { type: 'string', default: 'chromium' }, pictures: { type: 'string' } },
});

/** A browser with one page, spoken to by messages that end with a 0. */
class Browser {
  constructor(program, profile) {
    this.profile = profile;
    const words = [
      '--headless',
      '--no-sandbox',
      '--disable-gpu',
      '--remote-debugging-pipe',
      `--user-data-dir=${profile}`,
      '--window-size=1400,900',
      'about:blank',
    ];
    this.process = spawn(program, words, { stdio: ['ignore', 'ignore', 'ignore', 'pipe', 'pipe'] });
    this.ended = new Promise((done) => this.process.on('exit', done));
    this.waiting = new Map();
    this.events = [];
    this.rest = '';
    this.process.stdio[4].on('data', (bytes) => this.read(String(bytes)));
  }

  read(text) {
    const messages = `${this.rest}${text}`.split('\0');
    this.rest = messages.pop();
    for (const message of messages.map((it) => JSON.parse(it))) {
      const asked = this.waiting.get(message.id);
      if (asked === undefined) this.events.push(message);
      else if (message.error) asked.reject(new Error(JSON.stringify(message.error)));
      else asked.resolve(message.result);
    }
  }

  send(method, params = {}) {
    const id = this.waiting.size + 1;
    const answer = new Promise((resolve, reject) => {
      this.waiting.set(id, { resolve, reject });
    });
    this.process.stdio[3].write(`${JSON.stringify({ id, method, params, ...(this.session ? { sessionId: this.session } : {}) })}\0`);
    return answer;
  }

  async open(url) {
    const { targetId } = await this.send('Target.createTarget', { url: 'about:blank' });
    this.session = (await this.send('Target.attachToTarget', { targetId, flatten: true })).sessionId;
    for (const it of ['Runtime', 'Page', 'Network', 'Log']) await this.send(`${it}.enable`);
    await this.send('Page.navigate', { url });
  }

  async evaluate(expression) {
    const { result, exceptionDetails } = await this.send('Runtime.evaluate', { expression, awaitPromise: true, returnByValue: true });
    if (exceptionDetails) throw new Error(exceptionDetails.exception?.description ?? exceptionDetails.text);
    return result.value;
  }

  /** Waits until an expression holds, five seconds at most. */
  async until(expression) {
    for (let tries = 0; tries < 100 && !await this.evaluate(expression); tries++) await pause(50);
  }

  async press(key, modifiers = 0) {
    const codes = { Tab: 9, Enter: 13, End: 35, Home: 36, ArrowLeft: 37, ArrowRight: 39, a: 65 };
    const text = key === 'Enter' ? { text: '\r' } : {};
    for (const type of ['keyDown', 'keyUp'])
      await this.send('Input.dispatchKeyEvent', { type, key, code: key, windowsVirtualKeyCode: codes[key], modifiers, ...text });
  }

  /** The processor time of its pages so far, in milliseconds: waiting for other programs isn't counted. */
  computed() {
    const timeOf = (it) => {
      try {
        const words = readFileSync(`/proc/${it}/cmdline`, 'latin1');
        if (!words.includes('--type=renderer') || !words.includes(this.profile)) return 0;
        const fields = readFileSync(`/proc/${it}/stat`, 'latin1').split(') ')[1].split(' ');
        return (Number(fields[11]) + Number(fields[12])) * 10;
      } catch {
        return 0;
      }
    };
    return readdirSync('/proc')
      .filter((it) => /^\d+$/.test(it))
      .reduce((sum, it) => sum + timeOf(it), 0);
  }

  async picture(name) {
    if (!values.pictures) return;
    const { data } = await this.send('Page.captureScreenshot', { format: 'png' });
    writeFileSync(join(values.pictures, `${name}.png`), Buffer.from(data, 'base64'));
  }
}

const counts = { well: 0, not: 0 };
function expect(what, got, wanted) {
  const isWell = wanted instanceof RegExp ? wanted.test(got) : JSON.stringify(got) === JSON.stringify(wanted);
  counts[isWell ? 'well' : 'not']++;
  if (!isWell) console.log(`${what}: ${JSON.stringify(got)} where ${wanted instanceof RegExp ? wanted : JSON.stringify(wanted)} is wanted`);
}

const SHOWN = "document.getElementById('panel').innerText";
const STATE = "document.getElementById('state').textContent";
const FOCUSED = "document.activeElement.id || document.activeElement.className || document.activeElement.tagName";

/** Types a text in place of a field's, as a person does, and waits for the answer. */
async function type(browser, field, text) {
  await browser.evaluate(
    `{ const it = document.getElementById('${field}'); it.focus(); it.select(); document.getElementById('state').textContent = 'typed'; }`
  );
  await browser.send('Input.insertText', { text });
  await browser.until("document.getElementById('state').textContent !== 'typed'");
  return browser.evaluate(SHOWN);
}

/** Chooses a language, and waits for the answer. */
async function choose(browser, language) {
  await browser.evaluate(
    `{ const it = document.getElementById('language'); document.getElementById('state').textContent = 'typed'; it.value = '${language}'; it.dispatchEvent(new Event('input')); }`
  );
  await browser.until("document.getElementById('state').textContent !== 'typed'");
  return browser.evaluate(SHOWN);
}

async function click(browser, tab) {
  await browser.evaluate(`document.getElementById('tab-${tab}').click()`);
  await browser.picture(tab);
  return browser.evaluate(SHOWN);
}

async function answers(browser) {
  expect('the page is ready', await browser.evaluate('document.documentElement.dataset.ready'), 'yes');
  expect('reports', await click(browser, 'check'), /1:5 prefer-const 'x' is never reassigned[^]*\^[^]*1:9 no-extra-parens unnecessary parentheses/);
  expect('the fixed text', await click(browser, 'fix'), /for \(y = \(a in b && c in d\);;\) ;[^]*\(a\?\.b\)\.c;/);
  expect(
    'the unwrapped text',
    await click(browser, 'unwrap'),
    /^let x = 1; x;[^]*for \(y = \(a in b && c in d\);;\); \/\/ two pairs\n\(a\?\.b\)\.c; "use strict"; 1 \.toString\(\);/
  );
  expect(
    'the formatted text',
    await click(browser, 'format'),
    /^let x = \(1\);\nx;\n\{\n {2}let x = 2;\n {2}x = 3;\n\}\nfor \(y = \(a in b\) && \(c in d\);;\); \/\/ two pairs\n/
  );
  expect('the tree', await click(browser, 'tree'), /Program 0\.\.\d+[^]*body: \[/);
  expect('the cost table', await click(browser, 'cost'), /The script has \d+ grouping pairs\. No text with its tree has fewer than \d+[^]*MemberExpression/);
  await click(browser, 'check');
  expect('a typed script', await type(browser, 'script', 'debugger; (a)'), /1:1 no-debugger debugger statement[^]*1:11 no-extra-parens/);
  expect('no report', await type(browser, 'script', '"use strict";'), 'No report.');
  expect('a character of two units', await type(browser, 'script', "'\u{1f600}'; debugger;"), /1:6 no-debugger/);
  expect('settings', await type(browser, 'settings', '[rules]\nno-debugger = false\n'), 'No report.');
  expect('a warning', await type(browser, 'settings', 'rules.no-debugger = "warn"'), /1:6 no-debugger debugger statement \(warning\)/);
  expect('a set', await type(browser, 'settings', 'extends = "none"'), 'No report.');
  expect('a rule over a set', await type(browser, 'settings', 'extends = "none"\nrules.no-debugger = 2'), /1:6 no-debugger debugger statement(?! \(warning)/);
  expect('one rule alone', await type(browser, 'settings', 'only = ["no-var"]'), 'No report.');
  expect('a refused option', await type(browser, 'settings', 'rules.no-undef = { typeof = 1 }'), /^Refused: bad settings/);
  expect('refused settings', await type(browser, 'settings', 'x'), 'Refused: bad settings at 1:2');
  await type(browser, 'settings', '');
}

async function languages(browser) {
  expect(
    'a module in the base profile',
    await type(browser, 'script', 'export let a = (1);'),
    /^Refused: syntax error at 1:1\s+perhaps: 'export' makes this a module, which --module reads\s+read it as a module/
  );
  await browser.evaluate("document.querySelector('.read').click()");
  await browser.until(`!${SHOWN}.startsWith('Refused')`);
  expect('a module by the button of a hint', await browser.evaluate(`[${SHOWN}.slice(0, 17), ${FOCUSED}]`), ['1:12 prefer-const', 'language']);
  await choose(browser, '');
  expect('a module', await choose(browser, 'module'), /1:12 prefer-const[^]*1:16 no-extra-parens/);
  expect('its fixed text', await click(browser, 'fix'), 'export let a = 1;\n');
  expect('a script of 2022', await choose(browser, '2022'), /^Refused: syntax error at 1:1\s/);
  await choose(browser, '');
  for (const [text, tab, wanted] of [
    ['source-type = "module"', 'unwrap', 'export let a = 1;'],
    ['edition = 2022', 'tree', /^Refused: syntax error/],
    ['source-type = "module"', 'cost', /^The script has 1 grouping pair/],
  ]) {
    await click(browser, tab);
    expect(`settings, ${tab}`, await type(browser, 'settings', text), wanted);
  }
  await click(browser, 'check');
  expect('settings, check', await browser.evaluate(SHOWN), /1:12 prefer-const/);
  expect('words that leave no language', await choose(browser, '2020'), /^Refused: syntax error at 1:1\s/);
  expect('for a script that is taken', await type(browser, 'script', 'a;'), 'Refused: bad settings');
  await choose(browser, '');
  await type(browser, 'settings', '');
}

async function refusals(browser) {
  expect('a syntax error', await type(browser, 'script', 'let x = ;'), /^Refused: syntax error at 1:9\s+1:9[^]*let x = ;\n {8}\^/);
  await browser.picture('refused');
  expect('it is said that it was refused', await browser.evaluate(STATE), /^refused: 9 characters/);
  expect('an early error', await type(browser, 'script', 'let a; let a;'), /^Refused: early error E3 at 1:12/);
  const deep = `${'('.repeat(1200)}a${')'.repeat(1200)}`;
  expect('1,200 pairs', await type(browser, 'script', deep), /^(1:1 no-extra-parens|Refused: out of stack)/);
  expect('one more', await type(browser, 'script', `(${deep})`), /^Refused: (nested too deep|out of stack)/);
  const tall = `${'['.repeat(590)}${']'.repeat(590)}`;
  expect('590 arrays', await type(browser, 'script', tall), /^(No report\.|Refused: out of stack)/);
  expect('after that the next one is answered', await type(browser, 'script', 'debugger'), /1:1 no-debugger/);
}

/** A script of so many lines with reports in each. */
const many = (lines) => Array.from({ length: lines }, (_, at) => `if (a == ${at}) { b${at}((c + ${at})); } // (a comment)\n`).join('');
const click_ = (selector) => `document.querySelector('${selector}').click()`;

/** How long the page computes for a key in a script, in milliseconds. */
async function key(browser) {
  await browser.evaluate(
    "{ const it = document.getElementById('script'); it.focus(); it.setSelectionRange(0, 0); document.getElementById('state').textContent = 'typed'; }"
  );
  const begun = browser.computed();
  await browser.send('Input.insertText', { text: ' ' });
  for (let tries = 0; tries < 3000 && await browser.evaluate(`${STATE} === 'typed'`); tries++) await pause(10);
  await browser.evaluate('new Promise((done) => requestAnimationFrame(() => setTimeout(done)))');
  return browser.computed() - begun;
}

/** Large scripts: no pass over the text for each report, pieces of what is long, and the place of a report in view. */
async function large(browser) {
  const put = (text) => browser.evaluate(`{ const it = document.getElementById('script'); it.value = ${JSON.stringify(text)}; it.scrollTop = 0; }`),
    least = [];
  for (const lines of [5000, 20000]) {
    await put(many(lines));
    await key(browser);
    least.push(Math.min(await key(browser), await key(browser)));
    expect(`reports of ${lines} lines`, await browser.evaluate(STATE), new RegExp(`^answered: ${lines * 5} reports, `));
  }
  // (in four times as much text; a pass for each report would take sixteen times as long, and some minutes)
  expect(`a key takes ${least} ms`, least[0] > 0 && least[1] < 6 * least[0] && least[1] < 4000, true);
  expect(
    'the first reports, and a button for more',
    await browser.evaluate("[document.querySelectorAll('.place').length, document.querySelector('.more').textContent]"),
    [200, '200 more of 99800']
  );
  expect(
    'more of them',
    await browser.evaluate(`(${click_('.more')}, [document.querySelectorAll('.place').length, document.querySelector('.more').textContent])`),
    [400, '200 more of 99600']
  );
  for (let number = 0; number < 3; number++) await browser.evaluate(click_('.more'));
  const seen =
    "(() => { const it = document.getElementById('script'), line = it.value.slice(0, it.selectionStart).split('\\n').length - 1, top = line * parseFloat(getComputedStyle(it).lineHeight); return top >= it.scrollTop && top < it.scrollTop + it.clientHeight - 20; })()";
  const place = await browser.evaluate("(() => { const it = [...document.querySelectorAll('.place')].at(-1); it.click(); return it.textContent; })()");
  expect('the last of them is far below', Number(place.split(':')[0]) > 150, true);
  expect('its place is in view, and selected', await browser.evaluate(`[${seen}, document.getElementById('script').scrollTop > 500, ${FOCUSED}]`), [
    true,
    true,
    'script',
  ]);
  await browser.picture('far');
  await put(`a;${' '.repeat(4000)}(b);`);
  await click(browser, 'check');
  await browser.evaluate("[...document.querySelectorAll('.place')].at(-1).click()");
  expect('a place far to the right is in view', await browser.evaluate("document.getElementById('script').scrollLeft > 1000"), true);
  await put(many(5000));
  expect(
    'a tree in pieces',
    await browser.evaluate(
      `(${click_('#tab-tree')}, [document.querySelectorAll('#panel *').length < 6000, document.querySelectorAll('.more').length > 0, ${STATE}.slice(0, 26)])`
    ),
    [true, true, 'answered: 5000 statements,']
  );
  expect(
    'a closed part is made when it is opened',
    await browser.evaluate(
      "(async () => { const it = [...document.querySelectorAll('details:not([open])')][0], before = it.children.length; it.querySelector('summary').click(); await new Promise((done) => setTimeout(done, 100)); return [before, it.children.length]; })()"
    ),
    [1, 2]
  );
  expect(
    'a text in pieces',
    await browser.evaluate(
      `(${click_('#tab-unwrap')}, [document.querySelectorAll('pre').length, document.getElementById('panel').textContent === document.getElementById('script').value.replaceAll('((', '(').replaceAll('))', ')')])`
    ),
    [26, true]
  );
  expect(
    'a table in pieces',
    await browser.evaluate(`(${click_('#tab-cost')}, [document.querySelectorAll('tr').length, document.querySelectorAll('.more').length])`),
    [301, 1]
  );
  await click(browser, 'check');
}

/** What goes to the clipboard. */
async function copying(browser) {
  await browser.send('Browser.grantPermissions', { permissions: ['clipboardReadWrite', 'clipboardSanitizedWrite'] });
  await type(browser, 'script', 'debugger; (a)');
  for (const [tab, wanted] of [
    ['check', '1:1 no-debugger debugger statement\n1:11 no-extra-parens unnecessary parentheses\n1:12 no-undef \'a\' is not defined\n'],
    ['fix', 'debugger;\na;\n'],
    ['unwrap', 'debugger; a'],
    ['format', 'debugger;\n(a);\n'],
    ['cost', /^jslint-cost 2\n[^]*total 0\n$/],
    ['tree', /^\{"body":/],
  ]) {
    await click(browser, tab);
    await browser.send('Page.bringToFront');
    await browser.evaluate(click_('#copy'));
    await browser.until(`!${STATE}.startsWith('answered')`);
    expect(`copied from ${tab}`, await browser.evaluate('navigator.clipboard.readText()'), wanted);
    expect('and said', await browser.evaluate(STATE), /^copied: \d+ characters$/);
  }
  await click(browser, 'check');
}

/** As wide as a telephone: nothing is wider than the page. */
async function narrow(browser) {
  await browser.send('Emulation.setDeviceMetricsOverride', { width: 390, height: 800, deviceScaleFactor: 1, mobile: true });
  await type(browser, 'script', `${'let averylongname = ((1)); '.repeat(20)}\nx = ;`);
  expect(
    'nothing is wider than 390',
    await browser.evaluate(
      "[document.documentElement.scrollWidth, ...['select', '[role=tablist]', '#panel', '.below'].map((it) => document.querySelector(it).getBoundingClientRect().right)].every((it) => it <= 390)"
    ),
    true
  );
  expect(
    'each tab is in view',
    await browser.evaluate("[...document.querySelectorAll('[role=tab], #copy')].every((it) => it.getBoundingClientRect().right <= 390)"),
    true
  );
  expect(
    'there is room for the script and for what comes out',
    await browser.evaluate("['script', 'panel'].every((it) => document.getElementById(it).clientHeight >= 200)"),
    true
  );
  await browser.picture('narrow');
  await browser.send('Emulation.clearDeviceMetricsOverride');
}

/** By the keyboard alone, and what a screen reader is told. */
async function keys(browser) {
  await browser.evaluate("document.getElementById('tab-check').focus()");
  await browser.press('ArrowRight');
  expect('the next tab', await browser.evaluate(`[${FOCUSED}, ${SHOWN}]`), ['tab-fix', 'debugger;\n']);
  await browser.press('ArrowRight');
  expect('the one after that', await browser.evaluate(`[${FOCUSED}, ${SHOWN}]`), ['tab-unwrap', 'debugger']);
  await browser.press('End');
  expect('the last tab', await browser.evaluate(FOCUSED), 'tab-cost');
  await browser.press('ArrowRight');
  expect('round to the first', await browser.evaluate(`[${FOCUSED}, document.querySelectorAll('[aria-selected=true]').length]`), ['tab-check', 1]);
  await browser.press('Tab');
  expect('from the tab to its panel', await browser.evaluate(FOCUSED), 'panel');
  await browser.press('Tab');
  expect('to a report', await browser.evaluate(FOCUSED), 'place');
  await browser.press('Enter');
  expect('from there to its place in the script', await browser.evaluate(`[${FOCUSED}, document.getElementById('script').selectionStart]`), ['script', 0]);
  const { nodes } = await browser.send('Accessibility.getFullAXTree');
  const told = nodes.filter((it) => !it.ignored).map((it) => `${it.role?.value} ${it.name?.value ?? ''}`.trim());
  const wanted = [
    'textbox Script',
    'textbox Settings of the rules (TOML)',
    'tablist Commands',
    'tab Reports',
    'tab Fixed',
    'tab Unwrapped',
    'tab Tree',
    'tab Cost table',
    'tabpanel Reports',
    'button go to line 1, column 1',
  ];
  for (const it of wanted) expect(`a screen reader is told of ${it}`, told.includes(it), true);
  expect('and of what goes on', told.some((it) => it.startsWith('status')), true);
  expect('and of how many reports there are', await browser.evaluate(STATE), /^answered: 1 report, 8 characters, [\d.]+ ms$/);
}

async function main(page) {
  const profile = mkdtempSync(join(tmpdir(), 'jslint-chromium-'));
  const browser = new Browser(values.chromium, profile);
  try {
    await browser.open(pathToFileURL(resolve(page)).href);
    await browser.until('document.documentElement?.dataset.ready');
    await answers(browser);
    await languages(browser);
    await refusals(browser);
    await keys(browser);
    await large(browser);
    await copying(browser);
    await narrow(browser);
    const wrong = browser.events.filter(
      (it) => it.method === 'Runtime.exceptionThrown' || (it.method === 'Log.entryAdded' && it.params.entry.level === 'error')
    );
    expect('nothing went wrong in the page', wrong.map((it) => JSON.stringify(it.params)), []);
    const asked = browser.events
      .filter((it) => it.method === 'Network.requestWillBeSent')
      .map((it) => it.params.request.url)
      .filter((it) => !/^(file|data):/.test(it));
    expect('nothing was asked of a server', asked, []);
  } finally {
    browser.process.kill();
    await browser.ended;
    rmSync(profile, { recursive: true, force: true, maxRetries: 5, retryDelay: 200 });
  }
  console.log(`${counts.well} as wanted, ${counts.not} not`);
  return counts.not === 0 ? 0 : 1;
}

process.exitCode = await main(positionals[0]);
