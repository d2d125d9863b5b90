'use strict';
// Texts to compare on, and mutations of texts and trees.
// Its rows are laid out by hand.

const path = require('path');
const { randomSource } = require('../model/random.js');
const { PLAIN_MODEL, FLAGS, FORM, copyTree, nodesOf, noFlags } = require('./model.js');
const { AROUND, KINDS, LIKE } = require(path.join(PLAIN_MODEL, 'kinds.js'));
const { OPERATORS } = require(path.join(PLAIN_MODEL, 'operators.js'));

// ---------------------------------------------------------------- corpora

// Texts of worked rows: accepted and refused ones.
function rowTexts() {
  const shapes = new Map();                // of texts that only repeat more often, two
  return require('./rows.json').filter((t) => {
    const shape = t.replace(/([^]{1,24}?)\1{4,}/g, '$1*');
    shapes.set(shape, (shapes.get(shape) ?? 0) + 1);
    return (shapes.get(shape) <= 2 || t.length < 40) && t.length < 2500;
  });
}
// Texts at the edges of what the definitions say in words.
const ODD = [
  "class A { 'constructor'() {} }", "class A { '\\x63onstructor'() {} }", "class A { '\\u0063onstructor'() {} constructor() {} }", "class A { get '\\x63onstructor'() {} }", "class A { static '\\x70rototype'() {} }",
  "class A { static 'prototype'() {} static prototype() {} static ['prototype']() {} }", "class A extends B { 'constructor'() { super(); } }", "class A extends B { '\\x63onstructor'() { super(); } }",
  "class A { static constructor() {} static constructor() {} }", "class A { ['constructor']() {} ['constructor']() {} }", "class A { get 'constructor'() {} set constructor(a) {} static get constructor() {} }",
  "'use\\x20strict'; function f(a = 1) {}", "function f(a = 1) { 'use\\x20strict' }", "function f(a = 1) { 'use strict' }", "function f([a]) { 'b'; \"use strict\"; 'c' }", "function f(a = 1) { ('use strict') }", "(a = 1) => { 'use strict' }",
  "({ set a(b = 1) { 'use strict' } })", '`a\r\nb\rc${d}\re`', "'a\\\nb'", "'\u2028'", '`\\u`', 'a`\\u`', '`${`\\u`}`', 'a`${`\\u`}`', '/a/gg', '/a/x', '[/[/]/g, /a/gimsuy]', 'é = 𝒜.ñ', 'a\u2028b', 'a /* é */ + (b)', '"é" + (a)',
  'eval = 1', '[eval] = a', '({eval} = a)', '({a: arguments} = b)', '({eval = 1} = a)', '[...eval] = a', 'eval++', '--arguments', 'for (eval in a);', 'for ([eval] of a);', 'for (var eval in a);', 'let eval', 'function eval() {}', 'function f(eval) {}', 'eval => a', '({a(eval) {}})', 'class eval {}', '(class eval {})', '(function arguments() {})', 'try {} catch (eval) {}', 'try {} catch ([eval]) {}', '(eval) = 1', '(eval).a = 1',
  'delete a', 'delete (a)', 'delete a.b', 'delete ((a))', 'let a, a', 'let [a, a] = b', 'for (let [a, a] of b);', 'for (let a, a;;);', 'const a = 1, a = 2', 'let a; class a {}', 'function a() {} function a() {}', '{ function a() {} function a() {} }', 'let a; var a', 'let a; function a() {}', '{ let a; { var a } }', 'switch (a) { case b: let a; case c: var a }', 'switch (a) { case b: let a; default: let a }',
  '() => { function a() {} var a; let a }', 'function f(a) { let a }', 'function f(a) { function a() {} }', 'function f(a) { class a {} }', 'function f(a) { { let a } }', '(a, [a]) => a', 'function f(a, a) {}', '({set a([b, b]) {}})', 'for (const a;;);', 'for (const a of b);', 'for (const a = 1;;);', 'const a', 'const a, b = 1, c', 'for (let a of b) { var a }', 'for (let a;;) var a', 'for (var a of b) { var a }', 'for (let a of b) { let a }', 'for (let a in b) { function c() { var a } }', 'for (const a = () => { var a };;) { }',
  'try {} catch (a) { let a }', 'try {} catch (a) { var a }', 'try {} catch (a) { function a() {} }', 'try {} catch ([a, a]) {}', 'try {} catch (a) { { let a } }', 'try {} catch (a) { for (var a of b); }', 'try {} catch {}', 'break', 'continue', 'while (a) () => { break }', 'switch (a) { case b: continue }', 'while (a) switch (b) { case c: continue }', 'switch (a) { case () => { break }: }', 'switch (function () { b }) {}', 'while (function () { break }) ;', 'for (;; () => { continue }) ;', 'for (a of function () { while (b) break }) { break }',
  'a: break a', 'a: { break a }', 'a: { continue a }', 'a: b: while (c) { continue a; continue b; break a }', 'a: while (b) () => { break a }', 'a: { a: b }', 'a: a: b', 'a: () => { a: b }', 'a: b; a: c', 'a: { b: { break a; break b; break c } }', 'a: while (b) { b: { continue a; continue b } }', 'a: switch (b) { case c: break a; break; continue a }', 'a: if (b) while (c) continue a', 'a: do continue a; while (b)', 'a: for (b in c) continue a', 'a: class B { m() { break a } }', 'do break; while (() => { break })', 'while (a) { class B { [(() => { break })()]() { break } } }',
  'super.a', '({a() { super.b; super(); () => super.c }})', '({a: () => super.b})', '({a: function () { super.b }})', '({a() { function f() { super.b } }})', '({get a() { super.b }, [super.c]: 1})', '({a(b = super.c) {}})', 'class A { [super.a]() {} }', 'class A extends B { constructor() { super(); () => super(); function f() { super() } } m() { super() } static constructor() { super() } }', 'class A { constructor() { super() } }', 'class A extends super.b {}', 'class A extends B { constructor() { class C extends super.d { constructor() { super() } [super.e]() {} } } }', 'class A extends B { constructor() { class C { constructor() { super() } [super()]() {} } } }', 'class A extends B { constructor(a = super()) {} }', 'class A extends B { constructor() { ({m() { super() }}) } }', 'class A extends B { constructor() { class C extends super() {} } }', '({m() { class A extends super.b { [super.c]() {} } }})', '({m() { ({[super.a]: super.b, get [super.c]() { super.d }}) }})', '({m() { class A { x() { } static get [super.a]() {} } }})', 'new super.a', '({m() { new super.a(); super.b`c`; super[d](...e) }})',
  'new.target', '() => new.target', 'function f() { new.target; () => new.target }', '({a() { new.target }, [new.target]: 1})', 'function f(a = new.target) {}', 'class A { [new.target]() { new.target } }', 'class A extends new.target {}', 'function f() { class A { [new.target]() {} } }', 'function f() { ({[new.target]: new.target}) }', 'new new.target', 'class A { constructor() {} constructor() {} "constructor"() {} }', 'class A { get constructor() {} }', 'class A { static prototype() {} get prototype() {} }', 'class A { static get prototype() {} static set ["prototype"](a) {} }',
  'const {a = function () { const b }} = c', 'for (const a = () => { const b };;);', 'for (const {[() => { const b }]: a} of c);', 'for (const a of () => { const b });', 'for (const a in b) { const c }', 'for (const {a = class { m() { const b } }} of c);', 'for (let [a = () => { const b }] in c);', 'for (const a of b) for (const c of d) const_', 'function f() { return\na }', 'a = b ? c : () => {}\n/=x/', 'a => {}\n/=x/.d', 'var a\n/=x/', 'a++\n/=x/', 'throw a\n++b', 'do a\nwhile (b) c', 'do ; while (a) /b/', 'do a; while (b)\n(c)', 'if (a) do b; while (c) else d', 'a\n?.b', 'a\n`b`', 'let a\n`b`', 'let a = b\n`c`', 'break_\n(a)', 'while (a) break\n(b)', 'while (a) { continue\n/b/ }', 'debugger\n(a)', 'debugger\n/=/', '({}).a\n(b)', '(a++)\n/b/g', '(a => {})\n(b)', '-a++\n(b)', 'a = (b++)\n(c)', '(() => {})\n/a/g', 'a, b++\n(c)', 'a ? b : c++\n[d]', 'a ? b++ : c\n+d', 'typeof a++\n(b)', 'a => b++\n(c)', 'a => (b++)\n(c)', 'a => b => {}\n(c)', 'var a = () => {}\n(b)', 'var a = b++\n[c]', 'var a = (b++)\n/c/g', 'return_', 'x = y => ({})\n(z)', '!() => {}', 'delete a++\n(b)', 'new a\n(b)', 'a = function () {}\n(b)', 'a = class {}\n(b)', 'class A {}\n(b)', 'function f() {}\n(b)', 'throw a++\n(b)', 'throw () => {}\n(b)', 'throw (() => {})\n(b)',
  'if (a) ; else ;', 'if (a) if (b) ; else ; else ;', 'if (a) while (b) if (c) ; else ;', 'if (a) l: if (b) c\nelse d', 'if (a) { if (b) c } else d', 'for (a in b) for (c of d) if (e) f; else g', 'if (a) b: for (;;) while (c) if (d) ; else if (e) ; else ;', 'if (a) try {} finally {} else b', 'if (a) do if (b) c; while (d); else e', 'switch (a) { case b: if (c) d; default: ; case e: }', 'switch (a) { default: default: }', 'for (let in a);', 'for (var a = 1 in b);', 'for (var [a] = b of c);', 'for (var a, b of c);', 'for (a, b of c);', 'for (a of b, c);', 'for (async of a);', 'for (let of of of);', 'for (var of of of);', 'for (of of of);', 'for (const in of a);', 'for (a => b in c;;);', 'for (a = () => { b in c };;);', 'for (a ? b in c : d;;);', 'for (`${a in b}`;;);', 'for (var a = [b in c], {d = e in f} = g;;);', 'for (let a = b ? c in d : e;;);', 'for ((a in b) of c);', 'for ({a: b.c} of d);', 'for ({a = b in c} of d);', 'for ([a = b in c] of d);', 'for (a.b[c in d] in e);', 'for (new a(b in c).d in e);', 'for (a?.b of c);', 'for ((a?.b).c of d);', 'for (f() of a);', 'for ((a) of b);', 'for (((a.b)) in c);', 'for (([a]) of b);', 'for ({a} = b;;);', 'for (var {a} = b;;);', 'for (var {a};;);', 'for (function () {} ;;);', 'for (class {};;);', 'for ({}.a;;);', 'for ({} in a;;);', 'for ({};;);', 'for (let [a] = b, c;;) ;',
  '({a, b: (c), d: [e], ...f.g} = h)', '({...{a}} = b)', '({...[a]} = b)', '({...(a)} = b)', '({...(a.b)} = c)', '[...(a)] = b', '[...[a]] = b', '[...{a}] = b', '[...([a])] = b', '[...a = b] = c', '[...a,] = b', '[a,,] = b', '[,] = a', '[] = {} = a', '({}) = a', '([a]) = b', '[(a = b)] = c', '[(a) = b] = c', '[([a])] = b', '({a: (b = c)} = d)', '({a: (b) = c} = d)', '({(a)} = b)', '({a = 1})', '({a = 1}).b', '[{a = 1}].b', '[{a = 1}] = b', '[{a = 1}.b] = c', '({a: {b = 1}} = c)', 'f({a = 1})', '({a = 1}) => b', '({a = 1}, b) => c', '([{a = 1}]) => b', '({a: b.c}) => d', '([a.b]) => c', '((a)) => b', '([(a)]) => b', '(a, ...b) => c', '(...a, b) => c', '(...a,) => b', '(...[a]) => b', '(...a = b) => c', '(a,) => b', '(,) => a', '() => {} || a', '() => a || b', 'a || () => b', 'a ? () => {} : b', 'a\n=> b', '(a)\n=> b', '(a) => b => c', 'async => async', 'async (a)', 'async\n(a) => b', 'await => await', 'async(a)(b)', 'let => a', '(yield) => a', '(a = b, [c] = d, {e} = f, ...g) => h', '({a() {}}) => b', '({get a() {}}) => b', '({[a]: b}) => c', "({'a': b, 1: c, if: d}) => e", '({if}) => a', '({if: a, true: b, null: c})', '({if})', '({true})', '({eval, arguments, async, get, set, of, await})', '({get, set, static: a, get() {}, set() {}, get get() {}, set set(a) {}})', '({get a(b) {}})', '({set a() {}})', '({set a(b, c) {}})', '({set a(...b) {}})', '({set a([b] = c) {}})', '({set a(b,) {}})', '({a(b,) {}})', '({a(...b,) {}})', '({1: a, 1.5: b, 0x1: c, 1n: d, .5: e})', '({1})', "({'a'})", '({a: b, ...c, })', '({,})', '({a,,})', '({a() {}, })', '({async a() {}})', '({*a() {}})', 'class A { static static() {} static get get() {} get() {} set() {} static() {} static async() {} }', 'class A { ; ; a() {} ; }', 'class A { a; }', 'class A { static {} }', 'class A extends B, C {}', 'class A extends (B, C) {}', 'class A extends B() {}', 'class A extends B?.c {}', 'class A extends new B {}', 'class A extends {} {}', 'class A extends class {} {}', 'class A extends () => {} {}', 'class A extends (a => b) {}', 'class A extends a++ {}', 'class extends A {}', '(class extends A {})', '(class {})', 'class A { a() {} static b() {} get [c]() {} static set [d](e) {} 1() {} "f"() {} }',
  'a?.b', 'a?.[b]', 'a?.(b)', 'a?.b.c(d)[e]', 'a?.b?.c', '(a?.b)?.c', '(a?.b).c?.d', 'a.b?.c', 'a()?.b', 'new a?.b', 'new a()?.b', 'new (a?.b)()', 'a?.`b`', 'a?.b`c`', '(a?.b)`c`', 'a?.b = c', '(a?.b) = c', 'a?.b++', 'delete a?.b', 'a?.5:1', 'a?.5.b:1', 'a ?.5 : b', 'super?.a', '({m() { super.a?.b }})', 'import(a)?.b', 'import(a).b', 'import(a)(b)', 'new import(a)', 'new (import(a))', 'import(a, b)', 'import()', 'import(...a)', 'import(a,)', 'import.meta', 'new.target?.a', 'new.foo', 'new a', 'new a()', 'new new a', 'new new a()', 'new new a()()', 'new (new a)', 'new (new a)()', 'new (a())', 'new (a())()', 'new a.b()', 'new (a().b)()', 'new (a.b().c)', 'new a[b()]', 'new a`b`', 'new (a`b`)', 'new a`b`()', 'new (a, b)', 'new (a)(b)(c)', 'new (function () {})', 'new class {}', 'new {}', 'new []', 'new a.b.c(d).e(f)', 'new (a++)', 'new -a', 'new (new a().b)()', 'new (b => c)', 'new a().b', 'new a.b', '(new a).b', '(new a)()', '(new a)(b)', 'new (new a.b)(c)', 'new (import(a)).b', 'a ** b', '-a ** b', '(-a) ** b', 'a ** -b', '-(a ** b)', 'a ** b ** c', '(a ** b) ** c', '++a ** b', 'a++ ** b', 'typeof a ** b', '(typeof a) ** b', '2 ** -1', '(a, b) ** c', 'a ?? b ?? c', 'a ?? (b ?? c)', '(a ?? b) ?? c', 'a ?? b || c', 'a || b ?? c', 'a ?? (b || c)', '(a || b) ?? c', 'a && b ?? c', '(a && b) ?? c', 'a ?? b | c', 'a | b ?? c', '(a ?? b) || c', 'a || (b ?? c)', 'a ?? b ? c : d', '- - a', '+ +a', '-+a', '- --a', '+ ++a', '-(-a)', '- -1', '!-a', '~ ~a', 'typeof typeof a', 'void 0', 'a - -b', 'a - --b', 'a + +b', 'a + ++b', 'a++ + b', 'a-- - -b', '++(a)', '(a)++', '++a.b', '++(a.b)', '++a()', '++[a]', 'a++ ++', '++a++', '1 .a', '1..a', '1.0.a', '1e3.a', '0x1.a', '1n.a', '1.5.a', '.5.a', '(1).a', '(1)[a]', '1[a]', '1 .a.b', '1 .a()', '(1)`a`', '1?.a', '1 ?.a', '1?.[a]', '(1)?.a', '1.a', '1a', '01', '08', '1_0', '0b2', '0o8', '1e', '1n1', '0n', '00n', '1.5n', "''.a", '/a/.b', '/a/[b]', '`a`.b', '[].a', '{}.a', '({}).a', '({}.a)', 'x => ({})', 'x => ({}).a', 'x => ({}.a)', 'x => ({}, a)', 'x => ({} + a)', 'x => ({} = a)', 'x => (a, b)', '({}) + a', '({} + a)', '({} = a)', '({}) ? a : b', '({})`a`', '({})()', '({})?.a', '({}), a', '(function () {})()', '(function () {}())', '(function () {}).a', '(class {}).a', '(function () {})`a`', '(function () {}) + a', '!function () {}', 'a = function () {}', 'a, function () {}', '(let)', 'let', 'let\na', 'let [a] = b', 'l\net', 'var let', 'let let', 'var yield', 'var static', 'var await', 'var async', 'var implements', 'var enum', 'with (a) b', 'a: function f() {}', 'if (a) function f() {}', 'if (a) let b', 'while (a) class B {}', 'label: let\na', 'export {}', 'import a', '<!-- a', 'a --> b', 'a\n--> b', '#!a', '\ufeffa', 'a\\u0062', '\\u0061', '@a', 'a => { } ? b : c', '() => {}()', '(() => {})()', '(a => a)(b)', 'a = b => c, d', '(a => b) ? c : d', 'a ? b : c => d', 'a ? (b) : c => d', 'a ? (b) => (c) : d => e', 'a ? b ? c : d : e', '(a ? b : c) ? d : e', 'a ? b : (c ? d : e)', 'a = b = c', '(a = b) = c', 'a = (b = c)', 'a += b', '[a] += b', '({a}) += b', 'a &&= b', 'a ||= b ??= c', 'a.b ??= c => d', '(a) &&= b', '(a.b) ||= b', '[a] ||= b', '({a} ??= b)', '({a}) &&= b', '[a] &&= b', 'f() ||= a', 'a && b ||= c', 'a ? b : c ??= d', '(a &&= b) ? c : d', '(a ??= b) ?? c', 'a &&\n= b', 'eval ||= a', 'a?.b ??= c', 'for (a ||= b in c;;);', 'for (a ||= (b in c);;);', '1_0.5_0', '1_0n', '0x1_F', '1__0', '1_', '0_1', '1_.5', '1._5', '1e1_0', '0b_1', 'a => b = c', '(a => b) = c', 'a || b = c', 'a ? b : c = d', '(a, b) = c', 'this = a', 'f() = a', '(f)() = a', 'a.b = c', '(a.b) = c', 'a[b] = c', 'super.a = b', '({m() { super.a = b; [super.b] = c; super.c++; for (super.d of e); }})', 'new.target = a', '[,,a,,b,,]', '[,]', '[a,]', '[...a,]', '[...a, ...b]', '[a, ...b]', 'f(a,)', 'f(,)', 'f(...a, b,)', 'f(a)(b)[c].d`e`', 'f\n(a)', 'f\n`a`', 'a\n.b', 'a.\nb', 'a.if', 'a.new.target', '`${a}${b}`', '`a${`b${c}`}d`', '`${{}}`', '`${a}', '`}`', '`${`', '`a``b`', '`a`\n`b`', 'a`${b}`', "'a' + 'b'", "'a'", "('a')", "'a'; 'b'; ('c'); 'd'", "'a', 'b'", "'a'.b; 'c'", "'a'\n'b'", "'a'\n+ b", "('a'), b; 'c'", "function f() { 'a'; ('b'); 'c' }", "{ 'a' }", "x => { ('a') }", "if (a) 'b'", "; 'a'", "'a';; ('b')", "((('a')))", "'a'\n('b')", "`a`", "'a' ? b : c", "-'a'", "('a').b",
];
ODD.push('[...a, b] = c', '({...a, b} = c)', 'let [...a, b] = c', 'let {...a, b} = c', 'function f(...a, b) {}', '([...a, b]) => c', '[...a, ...b] = c', '({...a,} = b)', 'let [...a,] = b', 'let {...a,} = b', 'let {...{a}} = b', 'let {...[a]} = b',
  'a++\n/b/g', 'a++\n/b/g.c', 'a--\n/=x/g', '(a++)\n/=x/', 'var a = b++\n/c/g', 'a\n/=b/g', 'a\n/=b', 'a = b\n/=c', 'a => {}\n/b/', 'a => b\n/c/g', 'throw a\n/b/g', 'a++\n+b', 'a++\n-b', 'a++\n++b', 'a\n++b', 'a\n++\nb', 'a\n--b', 'a => {}\n+b', 'a => {}\n++b', 'a => {}\n`b`', 'a => {}\n[b]', 'a => {}\n.b', 'a => {}\n?.b', 'a => {}\n, b', 'a => {}\n* b', 'a => {}\nin b', 'a => {}\n? b : c', 'a++\n* b', 'a++\n`b`', 'a++\n[b]', 'a++\n(b)', 'a++\n.b', 'a++\n= b', 'a\nb', 'a b', 'a\n* b', 'a\nin b', 'a\n=> b', 'do a; while (b)\n/c/g', 'do a; while (b) /c/g', 'do a; while (b) (c)', 'do a\nwhile (b); c', 'do a while (b)', 'do ; while (a) b', 'do {} while (a) else', '{ a }', '{ a b }', '{ a++ }', '{ var a }', '{ throw a }', '{ do ; while (a) }', '{ debugger }', 'for (;;) { break }', 'for (;;) { continue }', 'for (a;;) b', 'for (a\n;;) b', 'for (;\n) a', 'for (a\n b\n c) d', 'for (var a\n;;) b', 'for (;;) a\nb', 'for (;;) a b', 'if (a) b else c', 'if (a) b\nelse c', 'if (a) {} else {} b', 'while (a) b c', 'a: b c', 'var a b', 'var a\nb', 'var a\n(b)', 'var a\n[b]', 'var a\n= b', 'var a\n, b', 'var a\nin b', 'let a\n+b', 'const a = b\n(c)', 'let [a] = b\n[c]', '() => { return\n(a) }', '() => { return a\n(b) }', '() => { return }', '() => { return\n/a/ }', '() => { return /a/ }', '() => { return;/a/ }', '() => { return a\n++b }', '() => { return () => {}\n(b) }', 'for (;;) { break\n(a) }', 'for (;;) { break /a/ }', 'for (;;) { break;/a/ }', 'a: for (;;) { break a\n(b) }', 'a: for (;;) { break\na }', 'a: for (;;) { continue a b }', 'debugger a', 'debugger\n+a', 'throw a b', 'throw\na');
ODD.push('`a\r\nb`', '`\r${a}\r\n`', 'a`\\\r\n${b}\r`', '`\n\r`', "'\\\r\n'", '`\r\r\n\n${`\r`}`');
// Edges of early errors.
ODD.push('/a/d', '/a/v', '/a/gg', '/a/gimsuy', '/a/\\u0067', '/a/é', 'function f() { let a; function a() {} }', '() => { function a() {} const a = b }', '{ function a() {} let a }', 'function a() {} let a', 'function a() {} function a() {}',
  '{ function a() {} function a() {} }', 'switch (a) { case b: function c() {} default: function c() {} }', 'switch (a) { case b: let c; default: var c }', '(function a(a) {})', '(function a() { let a })', 'function a(a, [a]) {}', '(a, {b: a}) => a',
  '({set a(b) { let b }})', '({m(a, a) {}})', 'function f(a) { { let a } }', 'function f(a) { class a {} }', "function f(...a) { 'use strict' }", "({a}) => { 'use strict' }", "function f({a}) { 'a'; 'use strict' }", "function f([a]) { 'use\\x20strict' }", "(a) => { 'use strict' }",
  'try {} catch ([a, a]) {}', 'try {} catch (a) { let a }', 'try {} catch (a) { function a() {} }', 'try {} catch (a) { { let a } }', 'try {} catch (a) { for (var a of b); }', 'for (let a;;) { var a }', 'for (let a in b) { var a }', 'for (const [a] of b) { { var a } }',
  'for (const a;;);', 'for (const a in b);', 'const a', '{ const a = b, c }', 'let a, a', 'let {a, b: a} = c', 'delete a', 'delete (a)', 'delete ((a.b))', 'delete (a, b)', 'class A { m() { delete super.a } }', 'function f() { delete this }',
  'a: { a: b }', 'a: () => { a: b }', 'a: { b: while (c) { continue a } }', 'a: b: c: for (;;) continue a', 'a: switch (b) { case c: continue a }', 'while (a) { () => { break } }', 'switch (a) { case b: () => { break } }', 'while (a) { class A { [(() => { break })()]() {} } }',
  'class A { constructor() { super() } }', 'class A extends B { constructor() { super(); ({m() { super() }}) } }', 'class A extends B { [super()]() {} }', 'class A extends super.b {}', 'class A extends B { get constructor() {} }', 'class A { static get prototype() {} }', "class A { static '\\x70rototype'() {} }",
  'class A { constructor() {} \'constructor\'() {} ["constructor"]() {} }', 'function f() { super.a }', '({f: function () { super.a }})', '({get a() { return super.b }})', '({m() { () => { super.a } }})', '({m() { function f() { super.a } }})', 'function f(a = new.target) {}', '() => new.target', '({m() { new.target }})', '({[new.target]() {}})',
  '`\\u`', 'a`\\u${b}\\x`', 'a`${`\\u`}`', '`${a`\\u`}`', '`\\u{110000}`', '`\\01`', '`\\8`', 'eval++', '[eval] = a', '({eval} = a)', '({a: eval.b} = c)', 'for (arguments in a);', 'for (eval.a of b);', 'try {} catch (eval) {}', 'class eval {}', '(class arguments {})', 'eval: a', 'var [eval] = a', '(...arguments) => a', '({m(eval) {}})', 'eval = a', 'eval.a = b');
for (const w of ('break case catch class const continue debugger default delete do else enum export extends false finally for function if import in instanceof new null return super switch this throw ' +
  'true try typeof var void while with yield let static implements interface package private protected public async await of get set eval arguments undefined target constructor').split(' ')) {
  ODD.push(`a = ${w}`, `var ${w}`, `${w}: a`, `({${w}})`, `({${w}: a.${w}})`, `({${w}} = a)`, `function ${w}(${w}) {}`, `class A { ${w}() {} static ${w}() {} }`, `${w} => a`, `for (;;) { break ${w} }`);
}
const lists = () => require(path.join(PLAIN_MODEL, 'alphabets.js'));
const programs = () => require(path.join(PLAIN_MODEL, 'fuzz-programs.js')).PROGRAMS;
const pieces = (text) => text.match(/\s+|[$\w]+|'[^'\n]*'|"[^"\n]*"|=>|\*\*|\+\+|--|\?\.|\?\?|\|\||&&|[=!]==?|<<=?|>>>?=?|\.\.\.|\$\{|[^]/gu) ?? [];
// A mutation of a text in pieces.
function mutateText(list, random, extras) {
  const out = list.slice();
  for (let m = random.below(3); m >= 0; m--) {
    const i = random.below(out.length + 1);
    switch (random.below(9)) {
      case 0: case 1: out.splice(i, 1); break;
      case 2: out.splice(i, 0, ' ' + random.pick(extras) + ' '); break;
      case 3: out[Math.min(i, out.length - 1)] = ' ' + random.pick(extras) + ' '; break;
      case 4: out.splice(i, 0, random.pick(['\n', '(', ')', '(a)', '/', '+', '`x`', '{', '}', ',', ';', '?.', '...', '=', '/*\n*/', '/r/'])); break;
      case 5: { const j = i + 1 + random.below(5); out.splice(Math.min(j, out.length), 0, ')'); out.splice(i, 0, '('); break; }
      case 6: { const at = out.map((p, k) => (p === ';' ? k : -1)).filter((k) => k >= 0); if (at.length > 0) out[random.pick(at)] = '\n'; break; }
      case 7: { const at = out.map((p, k) => (/^\s+$/.test(p) ? k : -1)).filter((k) => k >= 0); if (at.length > 0) { const k = random.pick(at); out[k] = out[k].includes('\n') ? ' ' : '\n'; } break; }
      default: if (i + 1 < out.length) [out[i], out[i + 1]] = [out[i + 1], out[i]];
    }
  }
  return out;
}

// ---------------------------------------------------------------- trees

const KIND_NAMES = [...KINDS.keys()];
const TEXTS = [...OPERATORS, ',', '?.', '=>'];
const NAMES = ['a', 'b', 'of', 'get', 'async', 'await', 'let', 'if', 'yield', 'static', 'this', 'null', 'true', 'super', 'constructor', 'eval', 'target', 'new', 'in', 'prototype', 'é', ''];
const RAWS = ['1', '1.', '.5', '0x1n', '1n', "'s'", '"constructor"', "'\\x63onstructor'", '/r/', '/=/g', 'null', 'true', 'false', 'this', 'a', '`t`', '', 'nul', '01', '1_0', "'use strict'", '}', '// c'];
const CHUNKS = ['', 'x', '\n', '`', '${', '\\`', '$', '}', '\\u'];
const WORDS = ['var', 'let', 'const', '', 'using', 'function'];

// A tree that differs from this one, by one or two random changes.
function mutateTree(root, random) {
  const tree = copyTree(root);
  const holder = { parts: [tree] };
  let what = '';
  for (let m = random.below(4) === 0 ? 1 : 0; m >= 0; m--) {
    const all = nodesOf(holder).slice(1);
    const n = random.pick(all);
    const parents = [holder, ...all];
    const parentOf = (x) => parents.find((p) => p.parts.includes(x));
    const fresh = (x) => ({ kind: x, text: x === 'Identifier' ? 'a' : x === 'Literal' ? '1' : '', flags: noFlags(), start: n.start, stop: n.stop, parts: [] });
    const op = random.below(16);
    switch (op) {
      case 0: { const like = LIKE.filter((l) => l.includes(n.kind)); n.kind = like.length > 0 && random.chance(70) ? random.pick(random.pick(like)) : random.pick(KIND_NAMES); break; }
      case 1: case 2: { const f = random.pick([...FLAGS, 'form']); n.flags[f] = f === 'form' ? random.pick(Object.keys(FORM)) : !n.flags[f]; break; }
      case 3: case 4: n.text = random.pick(n.kind === 'Identifier' ? NAMES : n.kind === 'Literal' ? RAWS : n.kind === 'TemplateElement' ? CHUNKS : n.kind === 'VariableDeclaration' ? WORDS : random.chance(70) ? TEXTS : NAMES); break;
      case 5: if (n.parts.length > 1) { const i = random.below(n.parts.length); const j = random.below(n.parts.length); [n.parts[i], n.parts[j]] = [n.parts[j], n.parts[i]]; } break;
      case 6: if (n.parts.length > 0) n.parts.splice(random.below(n.parts.length), 1); break;
      case 7: n.parts.splice(random.below(n.parts.length + 1), 0, null); break;
      case 8: if (n.parts.length > 0) n.parts[random.below(n.parts.length)] = null; break;
      case 9: { const i = n.parts.indexOf(null); if (i >= 0) n.parts[i] = random.chance(50) ? copyTree(random.pick(all)) : fresh(random.pick(['Identifier', 'Literal', 'BlockStatement', 'EmptyStatement'])); break; }
      case 10: case 11: { const p = parentOf(n); p.parts[p.parts.indexOf(n)] = copyTree(random.pick(all)); break; }
      case 12: { // rotate
        const i = random.below(2); const k = n.parts[i];
        if (n.parts.length === 2 && k !== null && k?.parts.length === 2) {
          const other = n.parts[1 - i];
          const inner = { ...k, parts: i === 0 ? [k.parts[1], other] : [other, k.parts[0]] };
          const top = { ...k, ...{ parts: i === 0 ? [k.parts[0], { ...n, parts: inner.parts }] : [{ ...n, parts: inner.parts }, k.parts[1]] } };
          const p = parentOf(n); p.parts[p.parts.indexOf(n)] = copyTree(top);
        }
        break;
      }
      case 13: { const kids = n.parts.filter(Boolean); if (kids.length > 0) { const p = parentOf(n); p.parts[p.parts.indexOf(n)] = random.pick(kids); } break; }
      case 14: { const p = parentOf(n); const k = random.pick(AROUND);
        const w = fresh(k); if (k === 'UnaryExpression') w.text = '-'; w.parts = [n]; p.parts[p.parts.indexOf(n)] = w; break; }
      default: n.parts.splice(random.below(n.parts.length + 1), 0, random.chance(60) ? copyTree(random.pick(all)) : fresh(random.pick(KIND_NAMES)));
    }
    what += op + ' ';
    if (holder.parts.length !== 1 || holder.parts[0] === null || holder.parts[0].kind !== 'Program') return mutateTree(root, random);
  }
  return holder.parts[0];
}

// A text that the definitions should spell the tree with: by ways taken at random, with pairs
// strewn, commas, semicolons left out. null where a node has no way.
function spellText(m, root, random) {
  const extra = random.pick([1, 8, 8, 40]); const left = random.pick([20, 50, 90]); const breaks = random.pick([2, 6, 30]);
  const out = [];                        // {text, glue}: glue '' any, ' ' no line break before
  let glue = null; let fail = false;
  const emit = (w) => { out.push({ text: w, glue }); glue = null; };
  const { text: show } = require('./antt.js');
  const spell = (a, n) => {
    const isExpr = a.$.name === 'expr';
    let ways = m.ways(a, n);
    if (isExpr && (ways === null || random.chance(extra))) {
      if (m.ways(m.exprAny, n) === null) { fail = true; return; }
      emit('('); spell(m.exprAny, n); emit(')'); return;
    }
    if (ways === null) { fail = true; return; }
    while (ways.t !== null && random.chance(50)) ways = ways.t;
    let ps = n.a[5];
    for (let qs = ways.h; qs !== null && !fail; qs = qs.t) {
      const q = qs.h;
      switch (q.$.name) {
        case 'tok': if (q.a[0].$.name !== 'End') emit(show(q.a[1])); break;
        case 'may': if (random.chance(20)) emit(show(q.a[0])); break;
        case 'many': while (random.chance(15)) emit(show(q.a[0])); break;
        case 'unbroken': glue = ' '; break;
        case 'ending': if (!random.chance(left)) emit(';'); else if (glue === null) glue = random.chance(80) ? '\n' : ' '; break;
        case 'open_parameters': emit('('); break;
        case 'close_parameters': emit(')'); break;
        case 'sub': if (ps.$.name !== 'part') { fail = true; return; } spell(q.a[0], ps.a[0]); ps = ps.a[1]; break;
        case 'absent': if (ps.$.name !== 'gap') { fail = true; return; } ps = ps.a[0]; break;
        case 'never': fail = true; return;
        default:
      }
    }
    if (!fail && ps.$.name !== 'none') fail = true;
  };
  spell(m.script, root);
  if (fail) return null;
  return out.map((t, i) => (i === 0 ? '' : t.glue ?? (!random.chance(breaks * 2) ? ' ' : random.chance(50) ? '\n' : '/**/')) + t.text).join('');
}

module.exports = { ODD, randomSource, rowTexts, lists, programs, pieces, mutateText, mutateTree, spellText };
