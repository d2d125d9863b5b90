'use strict';
// The texts that this project's description works through, refused ones among them, and the settings that some go with.
// Its rows are laid out by hand.

// The table of `a + (b);` in the first of the two formats.
const TABLE = ['jslint-cost 1', '1 BinaryExpression 0 0 0 0 0 - - -', '2 Identifier 0 0 0 0 0 0 0 0', '3 Identifier 0 0 0 0 0 0 0 0', 'total 0', ''].join('\n');

// Whole scripts and what is next to them.
const SCRIPTS = [
  '', '((((a))))', 'for (x = (a in b) && (c in d);;);', '(a?.b).c; (a?.b);', '("use strict"); (\'x\')', '(-a) ** b', '2 ** (3 ** 4)', '(2 ** 3) ** 4',
  '(a ?? b) || c', '(a ?? b) ?? c', 'a ?? (b ?? c)', 'new (f().x)()', 'new (a.b)()', 'x => ({}).a', '({a} = b);', '(function () {})()',
  'a\n(b)', 'a = () => {}\n(b)', 'a++\n(b)', 'a\n/b/g', 'var a\n/b/g', 'if (a) /b/.c()', '(1).toString()', '-(-a)', '[(a)] = b', '({a}) = b', '[...a,] = b',
  'a = (b', '`abc', "'abc", "'\\08'", '1.a', '-a ** b', 'a ?? b || c', 'return a',
  'let a; { var a }', 'delete ((x));', 'function f(a = 1) { "use strict"; }', 'if (a) if (b) c; else d', 'if(a){b}else c',
  'a + (b);', '({}).a;', 'a;', 'var a = b == 1;', 'let x = (1); x; { let x = 2; x = 3; }', 'if (a) b; else c',
];
// Sums, tokens, expressions and covers.
const EXPRESSIONS = [
  'a * (b + (c));', '(a - b) - c; a - (b - c);', '((a, b)); (a, b), c;', 'a + ;', '1a;', '007;', '(a;', 'if;',
  'a?.5:1', 'a?.b', '/=x/', '}x${', '/*\n*/ x', '3in', '010', '\\u0061', "'\\u{1F600}'", 'é b', 'a\u2028b', 'a\r\nb',
  '(a) => b;', '({a = 1}) => a;', '({a = 1} = b);', '({a,} = b);', '[(a)] = b;', '(a.b) = 1;', '({a: (b)} = c);', '2 ** -1;', 'new new a()();', '[...a,];', '(a,) => a;', 'import(a);',
  '({a = 1});', '((a)) => b;', '[({a})] = b;', '(a?.b) = 1;', 'f() = 1;', '[a] += b;', '-a ** b;', 'a ?? b && c;', '++a++;', 'new a?.b();', 'new import(a);', '(a,);', '();', '(a, ...b);', 'x\n=> y;',
  '(a).b;', 'a.b;', '(a?.b).c;', 'a?.b.c;', 'x => ({}).a;', 'for (x = {}.a;;);', 'new {}.a();',
];
// Statements, functions, classes and implicit semicolons.
const STATEMENTS = [
  'a\n++\nb', 'a++\n+b', '(a++)\n(b)', 'a = b\n/c/.d', 'a\n/=x/', 'a++\n/=x/', 'a + b\n/=x/', 'var a\n/=x/', 'a = () => {}\n/=x/', 'do a; while (b) c', 'do a\nwhile (b)',
  'do a while (b)', 'if (a)', 'throw\na', 'for (a;b);', 'async\nfunction f() {}', 'async function f() {}', 'for (async of a);', 'for (x in a, b);', 'for ((a in b);;);',
  'for (a in b;;);', 'for (a of b, c);', 'for (var i = 0 in a);', 'if (a) let b;', 'if (a) class B {}', 'x: function f() {}', 'let [a];', 'class A { get() {} set() {} static() {} }',
  'class A { a = 1 }', 'function* f() {}', '({set a(...b) {}});', '({set a(b,) {}});',
];
// Early errors, and texts beside them that have none.
const EARLY = [
  'eval = 1', 'let a; let a', 'let eval; var eval', 'for (const a;;);', '(a, a) => a', 'function f(a) { let a }', 'while (a) { (() => { break })() }', 'a: { continue a }', 'a: a: b',
  'try {} catch (e) { var e }', 'for (let a of b) { var a }', 'super.a', 'class A { constructor() { super() } }', '() => new.target', 'class A { constructor() {} constructor() {} }',
  'class A { get constructor() {} }', 'class A { static prototype() {} }', '`\\1`', '/a/gg', 'let a; eval = 1; { var a }', 'a: { while (b) continue a }',
  'a: () => { a: b }', 'delete a.b', 'a`\\1`', '({ m() { super.a } })', 'try {} catch (e) { { let e } }', 'function f() { new.target }',
];
// Trees, layout and the fewest pairs.
const LAID_OUT = [
  'a?.b;', '(1n)', "'a'", "a = '\\uD800'", 'for (x = (a in b) || (c in d) && (e in f);;);', 'for ((a in b) + (c in d), e;;);', '(function () {}.a)', 'a ? (b, c) : (d => e)', '[a,,]; [,]',
  '(0x1).a; (1n).a; (1)[a]; -(--a)', 'switch (a) { case 1: b; default: }', 'class A { static get b() {} ; c() {} }', 'if(a);else if(b)c', 'x = {m() {a}}', 'do a; while(b) new c',
];
// The additions of the 12th edition.
const LATER = [
  'a &&= (b ??= c)', '(a ||= b) || c', '[a] &&= b', 'a?.b ??= c', 'a && = b', 'eval ||= 1', '(1_000).a; 0xF_F; 1_0n; .5_0e1_0', '1__0', '1_', '0_1', '0x_F', '1_.5', '1._5', '1e_5', 'let x = 1; x ??= 2;',
];
// What `check` looks at, with its settings.
const CHECKED = [
  ['(function f() { f; });', ''], ['typeof a; typeof b.c;', ''], ['let _a = 1; for (const b of []) { }', 'ignore-underscore = true'], ['if (a == null) { /* x */ }', 'globals = ["a"]\nallow-null = true'],
  ['var a = b == 1;', 'globals = ["b"]\n[rules]\nno-var = false\n'], ];
// Texts at the limits of height and of open parentheses, one beyond them, and the same of limits that held before.
const nest = (open, count, inner, close) => open.repeat(count) + inner + close.repeat(count);
const LIMITS = [nest('[', 598, '', ']'), nest('[', 599, '', ']'), nest('(', 1200, 'a', ')'), `a${' + a'.repeat(597)}`, nest('f(', 450, nest('(', 600, 'a', ')'), ')'), `${'a;\n'.repeat(300)})`];
const NEAR_LIMITS = [nest('[', 498, '', ']'), nest('[', 499, '', ']'), ...[1000, 1001, 1201].map((it) => nest('(', it, 'a', ')')), ...[497, 498, 598].map((it) => `a${' + a'.repeat(it)}`)];

// Other scripts, of all forms.
const FORMS = [
  'a = ((b, c), d)', '[[a, {b: [c]}] = d] = e;', '[a = [b = (c)] = d] = e;', '({a, b: c = (d), [e]: f.g, ...h.i} = j);', '([a, {b = (c)}], d = e, ...[f]) => g;',
  '(a = (b)) => (c);', '(((a) => b))((c));', '() => () => {};', 'async(a); async => async;', 'a ? b => (c) : d => e;', 'a = b = c ? d : e;', 'a?.b?.[c]?.(d).e(f)[g];',
  'super.a; super[b]; super(c, ...d);', 'new super.a; new a.b.c; new a[b](c).d;', 'new.target; new new.target;', 'a`b`; a`b${(c)}d${e}f`.g; `h`;',
  'typeof void delete a.b; - + ~ ! c;', '++a.b; --(c); d++; (e)--;', 'a = /b[/]c/g; a / b / c; a /= d;',
  '({get a() {}, set b(c) {}, d() {}, get: e, set, get f() {}, [g]() {}, \'h\': i, 1: j, ...k});', '({get() {}, set() {}, static() {}, get \'a\'() {}, set 1(b) {}});',
  '(function () {}); (function a(b, {c}, [d] = e, ...f) {});', '(class {}); (class a extends b.c() { d() {} static e() {} });', '[,]; [a,,]; [,,a, ...b, c];',
  'f(...a, b, ...c,);', 'a ?? b ?? c; a || b && c; a | b ^ c & d;', 'a in b instanceof c < d;', '({a: 1, b: 2}).c;', 'yes: no => {};', '(a, b => c, d);',
  'b?c:()=>{}\n/=x/', 'b?c:d=>e=>{}\n/=x/', 'b?c:d=()=>{}\n/=x/', 'class A { static static() {} static get a() {} get\nb() {} ; \'constructor\'() {} }',
  'a: b: while (c) { break a; continue\nb }', 'switch (a) { case b: c; default: d\n e; case f: }',
  'try {} catch {} try {} finally {} try {} catch ([a, {b}]) {} finally {}', 'for (;;) ; for (a;;) ; for (var b = c, d;;) ; for (let [e] = f;;) ;',
  'for (var a in b) ; for (let {c} of d) ; for (const [e] in f) ; for ([g, h.i] of j) ;', 'for (let of of a) ; for (a.b in c) ; for ((d) of e) ;',
  'var a, b = 1, [c] = d, {e, f: g = 1, ...h} = i\nlet j\nconst k = l', 'function f(a, {b} = c, ...[d]) { return\n a }',
  'function f() { return a\n return /b/\n return }', 'if (a) ; else if (b) ; else c', 'while (a) b\n{} ; debugger\nthrow a', '\'use strict\'; \'a\'\n"b"', '{ a } b',
  'let a\nlet\nb', 'a\n: b', 'await: a', '/* */ // a\n a <!--b\n',
];

const TEXTS = [...new Set([...SCRIPTS, ...EXPRESSIONS, ...STATEMENTS, ...EARLY, ...LAID_OUT, ...LATER, ...CHECKED.map(([text]) => text), ...FORMS, ...LIMITS, ...NEAR_LIMITS])];

// The settings of a text, where it has some that are none of the refused.
const SECOND = new Map(CHECKED.filter(([, settings]) => settings !== ''));

module.exports = { EXPRESSIONS, NEAR_LIMITS, SECOND, TABLE, TEXTS };
