'use strict';
// The parser of the plain model: the whole grammar by recursive descent,
// with covers for arrow parameters and assignment patterns.
//
//   parse(textOrBuffer, options)      the whole front end (`read_script`): refusals 2, 1, 3, 4, 5
//   parseOnly(textOrBuffer, options)  the same without early errors (`parser::parse`)
//
// options: edition (2022: the language of 2022; 2021: with two additions of the 12th edition; 2020:
// without), module (a module of 2022, whatever the edition says), maxHeight and maxParens (LIMITS).
// Answers {ok:true, tree, pairs, height, openParens, text} or
// {ok:false, fault:{kind, at, number}, text}.

const { isMainThread } = require('node:worker_threads');
const { runInBigStack } = require('./bigstack.js');
const { WORD_CALLS, WORD_STATEMENTS } = require('./kinds.js');
const operators = require('./operators.js');
const { GOAL, RESERVED, makeSource, scan, stringValue, templateValue } = require('./scan.js');

// The limits of the height of a tree, and of the parentheses open at one point that group or hold the parameters of an arrow that isn't async.
const LIMITS = { maxHeight: 600, maxParens: 1200 };

class Refusal extends Error {
  constructor(kind, at) {
    super(kind);
    this.kind = kind;
    this.at = at; // string index
  }
}

// Ranks of the binary levels, LogicalOR to Multiplicative; a right operand stands one rank tighter.
const LEVELS = Object.keys(operators.BINARY).filter((symbol) => symbol !== 'ShortCircuit' && symbol !== 'Exponentiation');
const RANK = Object.fromEntries(LEVELS.flatMap((symbol, rank) => operators.BINARY[symbol].map((text) => [text, rank])));
const LOGICAL_OR = LEVELS.indexOf('LogicalOR');
const BITWISE_OR = LEVELS.indexOf('BitwiseOR');
const LOGICAL_OPERATORS = new Set(operators.LOGICAL);
const ASSIGNMENT_OPERATORS = {
  2020: new Set(operators.inEdition(2020, operators.ASSIGNMENTS)),
  2021: new Set(operators.ASSIGNMENTS),
  2022: new Set(operators.ASSIGNMENTS),
};
const UNARY_OPERATORS = new Set(operators.UNARY);

class Parser {
  constructor(source, options) {
    this.text = source.text;
    this.byteAt = source.byteAt;
    this.byteLength = source.byteLength;
    this.module = options.module === true;
    this.edition = this.module ? 2022 : options.edition ?? 2021;
    this.modern = this.edition >= 2022;
    this.maxHeight = options.maxHeight ?? LIMITS.maxHeight;
    this.maxParens = options.maxParens ?? LIMITS.maxParens;

    this.position = 0; // behind the last token taken
    this.lastEnd = 0;
    this.scanned = { position: -1, goal: null, token: null };

    this.pairs = [];
    this.grouped = new Set(); // nodes inside at least one grouping pair
    this.coverInits = new Set(); // `{a = 1}` that has not become part of a pattern
    this.commaAfterRest = new Set(); // array and object nodes whose last `...` part has a comma behind it
    this.seed = null; // a grouped primary that was read before its level
    this.openParens = 0;
    this.mostParens = 0;
    this.level = 0; // a lower bound for the number of nodes round this place
    this.inFunction = false;
  }

  // -------------------------------------------------------------- tokens

  peek(goal = GOAL.RegExp) {
    const s = this.scanned;
    if (s.position !== this.position || s.goal !== goal) {
      s.token = scan(this.text, this.position, goal, this.edition);
      s.position = this.position;
      s.goal = goal;
    }
    return s.token;
  }
  peekDiv() {
    return this.peek(GOAL.Div);
  }

  take(goal = GOAL.RegExp) {
    const token = this.peek(goal);
    if (token.cls === 'fault' || token.cls === 'end') this.fail(token);
    this.position = token.end;
    this.lastEnd = token.end;
    return token;
  }

  fail(token = this.peek()) {
    throw new Refusal('Syntax', token.start);
  }

  is(token, word) {
    return (token.cls === 'punctuator' || token.cls === 'name') && token.text === word;
  }
  // After an operand a `/` divides, so `sees` and `expect` look with goal Div by default.
  sees(word, goal = GOAL.Div) {
    return this.is(this.peek(goal), word);
  }
  accept(word, goal = GOAL.Div) {
    if (!this.sees(word, goal)) return false;
    this.take(goal);
    return true;
  }
  expect(word, goal = GOAL.Div) {
    if (!this.sees(word, goal)) this.fail(this.peek(goal));
    return this.take(goal);
  }

  isIdentifier(token) {
    return token.cls === 'name' && !RESERVED.has(token.text) && !(this.modern && token.text === 'await');
  }
  isWord(token, word) {
    return token.cls === 'name' && token.text === word;
  }

  // The token behind the next one.
  secondToken() {
    return scan(this.text, this.peek().end, GOAL.Div, this.edition);
  }
  tokenBehind(token) {
    return scan(this.text, token.end, GOAL.Div, this.edition);
  }

  // `async`, and on its line `function`.
  seesAsyncFunction() {
    if (!this.modern || !this.isWord(this.peek(), 'async')) return false;
    const second = this.secondToken();
    return this.isWord(second, 'function') && !second.afterBreak;
  }

  // -------------------------------------------------------------- nodes, limits, pairs

  node(type, start, fields, end = this.lastEnd) {
    return { type, start: this.byteAt(start), end: this.byteAt(end), ...fields };
  }

  // One more node round what `read` reads. Every cycle of the grammar goes through here
  // or through openParen, so that the recursion is bounded by the limits.
  inside(read) {
    this.level += 1;
    if (this.level > this.maxHeight) throw new Refusal('TooDeep');
    const result = read();
    this.level -= 1;
    return result;
  }
  openParen() {
    this.openParens += 1;
    if (this.openParens > this.maxParens) throw new Refusal('TooDeep');
    if (this.openParens > this.mostParens) this.mostParens = this.openParens;
  }
  closeParen() {
    this.openParens -= 1;
  }

  group(left, right, node) {
    this.pairs.push({ left: this.byteAt(left), right: this.byteAt(right), node });
    this.grouped.add(node);
    return node;
  }

  // Where the next expression begins, pairs round its first part included.
  exprStart() {
    return this.seed !== null ? this.seed.start : this.peek().start;
  }

  // -------------------------------------------------------------- expressions

  parseExpression(In) {
    const start = this.peek().start;
    const first = this.parseAssignment(In);
    if (!this.sees(',')) return first;
    const expressions = [first];
    while (this.accept(',')) expressions.push(this.parseAssignment(In));
    return this.node('SequenceExpression', start, { expressions });
  }

  parseAssignment(In) {
    const first = this.peek();
    const start = first.start;
    if (this.modern && this.isWord(first, 'yield')) return this.parseYield(In);
    if (this.modern && this.isWord(first, 'async')) {
      const second = this.secondToken();
      if (!second.afterBreak && this.isIdentifier(second)) {
        const third = this.tokenBehind(second);
        if (this.is(third, '=>') && !third.afterBreak) {
          this.take();
          return this.parseArrow(start, [this.parseIdentifier()], In, true);
        }
      }
      if (!second.afterBreak && this.is(second, '(')) {
        const cover = this.parseAsyncHead();
        if (cover.params) return this.parseArrow(start, cover.params, In, true);
        this.seed = { node: cover.node, start };
      }
    }
    if (this.seed !== null) {
      // a call of `async`
    } else if (this.isIdentifier(first)) {
      const second = this.secondToken();
      if (this.is(second, '=>') && !second.afterBreak) {
        return this.parseArrow(start, [this.parseIdentifier()], In);
      }
    } else if (this.is(first, '(')) {
      const cover = this.parseParenthesised();
      if (cover.params) return this.parseArrow(start, cover.params, In);
      this.seed = { node: cover.node, start };
    }
    const left = this.parseConditional(In);
    // Behind `a ? b : () => {}` and a line break, `/=` may begin a regular expression: the statement's end decides.
    if (left.type === 'ConditionalExpression' && !this.grouped.has(left)) return left;
    const operator = this.peekDiv();
    if (operator.cls !== 'punctuator' || !ASSIGNMENT_OPERATORS[this.edition].has(operator.text)) return left;
    const target = operator.text === '=' ? this.toTarget(left) : this.toSimpleTarget(left);
    this.take(GOAL.Div);
    const right = this.inside(() => this.parseAssignment(In));
    return this.node('AssignmentExpression', start, { operator: operator.text, left: target, right });
  }

  // `(` at the start of an Assignment: {params} if `)` `=>` follows on one line, else {node}.
  parseParenthesised() {
    const open = this.take();
    this.openParen();
    const items = [];
    let rest = null;
    let trailingComma = false;
    const listStart = this.peek().start;
    let listEnd = listStart;
    while (!this.sees(')', GOAL.RegExp)) {
      trailingComma = false;
      if (this.sees('...', GOAL.RegExp)) {
        rest = this.parseRestBinding();
        break;
      }
      items.push(this.parseAssignment(true));
      listEnd = this.lastEnd;
      if (!this.accept(',')) break;
      trailingComma = true;
    }
    const close = this.expect(')');
    this.closeParen();
    const next = this.peekDiv();
    if (this.is(next, '=>') && !next.afterBreak) {
      const params = items.map((item) => this.toBindingElement(item));
      if (rest !== null) params.push(rest);
      return { params };
    }
    if (items.length === 0 || rest !== null || trailingComma) this.fail(next);
    const node = items.length === 1 ? items[0] : this.node('SequenceExpression', listStart, { expressions: items }, listEnd);
    return { node: this.group(open.start, close.start, node) };
  }

  parseArrow(start, params, In, async = false) {
    this.expect('=>');
    const expression = !this.sees('{', GOAL.RegExp);
    const body = expression ? this.inside(() => this.parseAssignment(In)) : this.parseFunctionBody();
    return this.node('ArrowFunctionExpression', start, { id: null, params, body, generator: false, async, expression });
  }

  // `async` and `(` on its line: {params} if `)` `=>` follows on one line, else {node}, a call. Neither counts as open.
  parseAsyncHead() {
    const callee = this.parseIdentifier();
    const start = this.position - 5;
    this.expect('(');
    const list = [];
    let commaAfterRest = false;
    while (!this.sees(')', GOAL.RegExp)) {
      const item = this.inside(() => this.parseSpreadOr(() => this.parseAssignment(true)));
      list.push(item);
      if (!this.accept(',')) break;
      commaAfterRest = item.type === 'SpreadElement';
    }
    this.expect(')');
    const next = this.peekDiv();
    if (this.is(next, '=>') && !next.afterBreak) {
      const params = list.map((item, i) => {
        if (item.type !== 'SpreadElement') return this.toBindingElement(item);
        if (i !== list.length - 1 || commaAfterRest) this.fail(next);
        item.type = 'RestElement';
        item.argument = this.toBinding(item.argument);
        return item;
      });
      return { params };
    }
    return { node: this.node('CallExpression', start, { callee, arguments: list, optional: false }) };
  }

  // `yield`, an operand on its line or none.
  parseYield(In) {
    const start = this.take().start;
    const next = this.peek();
    const bare = next.afterBreak || next.cls === 'end' || (next.cls === 'punctuator' && [')', ']', '}', ',', ';', ':'].includes(next.text));
    if (bare) return this.node('YieldExpression', start, { argument: null, delegate: false });
    const delegate = this.accept('*', GOAL.RegExp);
    const argument = this.inside(() => this.parseAssignment(In));
    return this.node('YieldExpression', start, { argument, delegate });
  }

  parseConditional(In) {
    const start = this.exprStart();
    const test = this.parseShortCircuit(In);
    if (!this.accept('?')) return test;
    const consequent = this.inside(() => this.parseAssignment(true));
    this.expect(':');
    const alternate = this.inside(() => this.parseAssignment(In));
    return this.node('ConditionalExpression', start, { test, consequent, alternate });
  }

  parseShortCircuit(In) {
    const start = this.exprStart();
    let left = this.parseBinary(In, LOGICAL_OR);
    while (this.sees('??')) {
      const mixed = left.type === 'LogicalExpression' && left.operator !== '??' && !this.grouped.has(left);
      if (mixed) this.fail(this.peekDiv());
      this.take(GOAL.Div);
      const right = this.inside(() => this.parseBinary(In, BITWISE_OR));
      left = this.node('LogicalExpression', start, { operator: '??', left, right });
    }
    return left;
  }

  // The levels LogicalOR to Multiplicative as one loop with a rank.
  parseBinary(In, lowest) {
    const start = this.exprStart();
    let left = this.seed === null && this.peek().cls === 'private' ? this.parsePrivateOperand(In, lowest) : this.parseExponentiation();
    for (;;) {
      const token = this.peekDiv();
      if (token.cls !== 'punctuator' && token.cls !== 'name') return left;
      if (!Object.hasOwn(RANK, token.text)) return left;
      const operator = token.text;
      const rank = RANK[operator];
      if (rank < lowest || (operator === 'in' && !In)) return left;
      this.take(GOAL.Div);
      const right = this.inside(() => this.parseBinary(In, rank + 1));
      const type = LOGICAL_OPERATORS.has(operator) ? 'LogicalExpression' : 'BinaryExpression';
      left = this.node(type, start, { operator, left, right });
    }
  }

  // `#x` before `in`.
  parsePrivateOperand(In, lowest) {
    const token = this.peek();
    if (!In || RANK.in < lowest) this.fail(token);
    const name = this.inside(() => this.parsePrivateName());
    if (!this.sees('in')) this.fail(this.peekDiv());
    return name;
  }
  parsePrivateName() {
    const token = this.take(GOAL.Div);
    return this.node('PrivateIdentifier', token.start, { name: token.text.slice(1) });
  }

  parseExponentiation() {
    const start = this.exprStart();
    const left = this.parseUnary();
    if (!this.sees('**')) return left;
    const isUnary = left.type === 'UnaryExpression' || left.type === 'AwaitExpression';
    if (isUnary && !this.grouped.has(left)) this.fail(this.peekDiv());
    this.take(GOAL.Div);
    const right = this.inside(() => this.parseExponentiation());
    return this.node('BinaryExpression', start, { operator: '**', left, right });
  }

  parseUnary() {
    const start = this.exprStart();
    if (this.seed === null) {
      const token = this.peek();
      if (token.cls === 'punctuator' || token.cls === 'name') {
        if (this.modern && this.isWord(token, 'await')) {
          this.take();
          const argument = this.inside(() => this.parseUnary());
          return this.node('AwaitExpression', start, { argument });
        }
        if (UNARY_OPERATORS.has(token.text)) {
          this.take();
          const argument = this.inside(() => this.parseUnary());
          return this.node('UnaryExpression', start, { operator: token.text, prefix: true, argument });
        }
        if (token.text === '++' || token.text === '--') {
          this.take();
          const argument = this.toSimpleTarget(this.inside(() => this.parseLeftHandSide()));
          return this.node('UpdateExpression', start, { operator: token.text, prefix: true, argument });
        }
      }
    }
    const argument = this.parseLeftHandSide();
    const token = this.peekDiv();
    if ((this.is(token, '++') || this.is(token, '--')) && !token.afterBreak) {
      this.toSimpleTarget(argument);
      this.take(GOAL.Div);
      return this.node('UpdateExpression', start, { operator: token.text, prefix: false, argument });
    }
    return argument;
  }

  parseLeftHandSide() {
    const start = this.exprStart();
    const base = this.parseBase(true);
    return base.bareNew ? base.node : this.parseParts(start, base.node, true);
  }

  // What parts may follow: a primary, `new`, `super`, `import`. With calls false this is
  // the callee of a `new`, where a call may not stand.
  parseBase(calls) {
    if (this.seed === null) {
      const token = this.peek();
      if (this.is(token, 'new')) return this.parseNew();
      if (this.is(token, 'super')) return { node: this.parseSuper(calls) };
      if (token.cls === 'name' && WORD_CALLS.has(token.text)) {
        if (!calls && !(this.modern && this.is(token, 'import') && this.is(this.secondToken(), '.'))) this.fail(token);
        return { node: this.parseWordCall() };
      }
    }
    return { node: this.parsePrimary() };
  }

  parseNew() {
    const start = this.take().start;
    if (this.accept('.')) {
      const target = this.take(GOAL.Div);
      if (!this.is(target, 'target')) this.fail(target);
      const meta = this.node('Identifier', start, { name: 'new' }, start + 3);
      const property = this.node('Identifier', target.start, { name: 'target' });
      return { node: this.node('MetaProperty', start, { meta, property }) };
    }
    const callee = this.inside(() => {
      const calleeStart = this.peek().start;
      const base = this.parseBase(false);
      return base.bareNew ? base.node : this.parseParts(calleeStart, base.node, false);
    });
    const hasArguments = this.sees('(');
    const args = hasArguments ? this.parseArguments() : [];
    return { node: this.node('NewExpression', start, { callee, arguments: args }), bareNew: !hasArguments };
  }

  parseSuper(calls) {
    const token = this.take();
    const start = token.start;
    const base = this.node('Super', start, {});
    if (this.accept('.')) {
      return this.member(start, base, this.parseName(), false, false);
    }
    if (this.accept('[')) {
      return this.member(start, base, this.parseComputed(), true, false);
    }
    if (calls && this.sees('(')) {
      return this.node('CallExpression', start, { callee: base, arguments: this.parseArguments(), optional: false });
    }
    return this.fail(this.peekDiv());
  }

  // `import(..)`, and what else is a word and an expression in parentheses; `import.meta` too.
  parseWordCall() {
    const { start, text } = this.take();
    if (this.modern && text === 'import' && this.accept('.')) {
      const word = this.take(GOAL.Div);
      if (!this.isWord(word, 'meta')) this.fail(word);
      const meta = this.node('Identifier', start, { name: 'import' }, start + 6);
      const property = this.node('Identifier', word.start, { name: 'meta' });
      return this.node('MetaProperty', start, { meta, property });
    }
    const { kind, field } = WORD_CALLS.get(text);
    this.expect('(');
    const argument = this.inside(() => this.parseAssignment(true));
    this.expect(')');
    return this.node(kind, start, { [field]: argument });
  }

  member(start, object, property, computed, optional) {
    return this.node('MemberExpression', start, { object, property, computed, optional });
  }
  parseComputed() {
    const property = this.inside(() => this.parseExpression(true));
    this.expect(']');
    return property;
  }

  // The parts behind a base. With calls false: neither arguments nor a chain.
  parseParts(start, base, calls) {
    let node = base;
    for (;;) {
      const token = this.peekDiv();
      if (this.is(token, '.')) {
        this.take(GOAL.Div);
        node = this.member(start, node, this.parseMemberName(), false, false);
      } else if (this.is(token, '[')) {
        this.take(GOAL.Div);
        node = this.member(start, node, this.parseComputed(), true, false);
      } else if (token.cls === 'template') {
        const quasi = this.inside(() => this.parseTemplate());
        node = this.node('TaggedTemplateExpression', start, { tag: node, quasi });
      } else if (calls && this.is(token, '(')) {
        const args = this.parseArguments();
        node = this.node('CallExpression', start, { callee: node, arguments: args, optional: false });
      } else if (calls && this.is(token, '?.')) {
        return this.parseChain(start, node);
      } else return node;
    }
  }

  parseChain(start, base) {
    let node = base;
    for (;;) {
      const token = this.peekDiv();
      const optional = this.accept('?.');
      const next = this.peekDiv();
      if (this.is(next, '(')) {
        node = this.node('CallExpression', start, { callee: node, arguments: this.parseArguments(), optional });
      } else if (this.is(next, '[')) {
        this.take(GOAL.Div);
        node = this.member(start, node, this.parseComputed(), true, optional);
      } else if (optional) {
        node = this.member(start, node, this.parseMemberName(), false, true);
      } else if (this.accept('.')) {
        node = this.member(start, node, this.parseMemberName(), false, false);
      } else if (token.cls === 'template') {
        this.fail(token);
      } else return this.node('ChainExpression', start, { expression: node });
    }
  }

  parseArguments() {
    this.expect('(');
    const list = [];
    while (!this.sees(')', GOAL.RegExp)) {
      list.push(this.inside(() => this.parseSpreadOr(() => this.parseAssignment(true))));
      if (!this.accept(',')) break;
    }
    this.expect(')');
    return list;
  }

  parseSpreadOr(read) {
    const token = this.peek();
    if (!this.is(token, '...')) return read();
    this.take();
    const argument = this.inside(() => this.parseAssignment(true));
    return this.node('SpreadElement', token.start, { argument });
  }

  parsePrimary() {
    if (this.seed !== null) {
      const node = this.seed.node;
      this.seed = null;
      return node;
    }
    const token = this.peek();
    const start = token.start;
    switch (token.cls) {
      case 'number':
        this.take();
        return this.node('Literal', start, { raw: token.text });
      case 'string':
        return this.parseStringLiteral();
      case 'regexp': {
        this.take();
        const pattern = this.text.slice(start + 1, token.bodyEnd);
        const flags = this.text.slice(token.bodyEnd + 1, token.end);
        return this.node('Literal', start, { raw: token.text, regex: { flags, pattern } });
      }
      case 'template':
        return this.parseTemplate();
      case 'name':
        switch (token.text) {
          case 'this':
            this.take();
            return this.node('ThisExpression', start, {});
          case 'null':
            this.take();
            return this.node('Literal', start, { raw: 'null', value: null });
          case 'true':
          case 'false':
            this.take();
            return this.node('Literal', start, { raw: token.text, value: token.text === 'true' });
          case 'function':
            return this.parseFunction('FunctionExpression');
          case 'class':
            return this.parseClass('ClassExpression');
          case 'async':
            if (this.seesAsyncFunction()) return this.parseFunction('FunctionExpression');
            return this.parseIdentifier();
          default:
            return this.parseIdentifier();
        }
      case 'punctuator':
        if (token.text === '[') return this.parseArray();
        if (token.text === '{') return this.parseObject();
        if (token.text === '(') return this.parseGroup();
        return this.fail(token);
      default:
        return this.fail(token);
    }
  }

  // `(` where no arrow may stand.
  parseGroup() {
    const open = this.take();
    this.openParen();
    const node = this.parseExpression(true);
    const close = this.expect(')');
    this.closeParen();
    return this.group(open.start, close.start, node);
  }

  parseIdentifier() {
    const token = this.peek();
    if (!this.isIdentifier(token)) this.fail(token);
    this.take();
    return this.node('Identifier', token.start, { name: token.text });
  }

  // Any identifier name, as after `.`.
  parseName() {
    const token = this.peekDiv();
    if (token.cls !== 'name') this.fail(token);
    this.take(GOAL.Div);
    return this.node('Identifier', token.start, { name: token.text });
  }

  // The name of a member: private or not.
  parseMemberName() {
    return this.peekDiv().cls === 'private' ? this.parsePrivateName() : this.parseName();
  }

  parseStringLiteral() {
    const token = this.take();
    const value = stringValue(token.text);
    return this.node('Literal', token.start, value.isWellFormed() ? { raw: token.text, value } : { raw: token.text });
  }

  parseTemplate() {
    const start = this.peek().start;
    const quasis = [];
    const expressions = [];
    let part = this.take();
    for (;;) {
      const tail = part.text.endsWith('`') && part.text.length > 1;
      const from = part.start + 1;
      const to = part.end - (tail ? 1 : 2);
      const { raw, cooked } = templateValue(this.text.slice(from, to));
      const value = cooked !== null && !cooked.isWellFormed() ? { raw } : { raw, cooked };
      quasis.push(this.node('TemplateElement', from, { tail, value }, to));
      if (tail) return this.node('TemplateLiteral', start, { quasis, expressions });
      expressions.push(this.inside(() => this.parseExpression(true)));
      part = this.peek(GOAL.TemplateTail);
      if (part.cls !== 'template' || part.text[0] !== '}') this.fail(part);
      this.take(GOAL.TemplateTail);
    }
  }

  parseArray() {
    const start = this.take().start;
    const elements = [];
    let commaAfterRest = false;
    while (!this.sees(']', GOAL.RegExp)) {
      if (this.accept(',', GOAL.RegExp)) {
        elements.push(null);
        continue;
      }
      const element = this.inside(() => this.parseSpreadOr(() => this.parseAssignment(true)));
      elements.push(element);
      if (!this.accept(',')) break;
      commaAfterRest = element.type === 'SpreadElement';
    }
    this.expect(']');
    const node = this.node('ArrayExpression', start, { elements });
    if (commaAfterRest) this.commaAfterRest.add(node);
    return node;
  }

  parseObject() {
    const start = this.take().start;
    const properties = [];
    let commaAfterRest = false;
    while (!this.sees('}', GOAL.RegExp)) {
      const property = this.inside(() => this.parseSpreadOr(() => this.parseProperty()));
      properties.push(property);
      if (!this.accept(',')) break;
      commaAfterRest = property.type === 'SpreadElement';
    }
    this.expect('}');
    const node = this.node('ObjectExpression', start, { properties });
    if (commaAfterRest) this.commaAfterRest.add(node);
    return node;
  }

  // A key: {node, computed, token} (token of a key that is not computed).
  parseKey() {
    const token = this.peek();
    if (token.cls === 'name') return { node: this.parseName(), computed: false, token };
    if (token.cls === 'string') return { node: this.parseStringLiteral(), computed: false, token };
    if (token.cls === 'number') {
      this.take();
      return { node: this.node('Literal', token.start, { raw: token.text }), computed: false, token };
    }
    this.expect('[', GOAL.RegExp);
    const node = this.inside(() => this.parseAssignment(true));
    this.expect(']');
    return { node, computed: true, token };
  }
  // In a class a key may be private.
  beginsKey(token, inClass = false) {
    return token.cls === 'name' || token.cls === 'string' || token.cls === 'number' || this.is(token, '[') || (inClass && token.cls === 'private');
  }

  // `get` or `set` before a key; then it is taken.
  acceptAccessor(inClass = false) {
    const token = this.peek();
    if (!this.is(token, 'get') && !this.is(token, 'set')) return null;
    if (!this.beginsKey(this.secondToken(), inClass)) return null;
    return this.take().text;
  }

  // `*`, `async` or `async *` before a method's key: {async, generator}, or null.
  acceptSpecial(inClass = false) {
    if (!this.modern) return null;
    if (this.accept('*', GOAL.RegExp)) return { async: false, generator: true };
    if (!this.isWord(this.peek(), 'async')) return null;
    const second = this.secondToken();
    if (second.afterBreak || !(this.beginsKey(second, inClass) || this.is(second, '*'))) return null;
    this.take();
    return { async: true, generator: this.accept('*', GOAL.RegExp) };
  }

  parseProperty() {
    const start = this.peek().start;
    const property = (key, value, kind, method, shorthand) =>
      this.node('Property', start, { key: key.node, value, kind, method, shorthand, computed: key.computed });
    const accessor = this.acceptAccessor();
    const special = accessor === null ? this.acceptSpecial() : null;
    const key = this.parseKey();
    if (accessor !== null) return property(key, this.parseMethod(accessor), accessor, false, false);
    if (special !== null) return property(key, this.parseMethod('method', special), 'init', true, false);
    if (this.sees('(')) return property(key, this.parseMethod('method'), 'init', true, false);
    if (this.accept(':')) {
      return property(key, this.inside(() => this.parseAssignment(true)), 'init', false, false);
    }
    if (!this.isIdentifier(key.token)) this.fail(this.peekDiv());
    const name = this.node('Identifier', start, { name: key.node.name });
    if (!this.accept('=')) return property(key, name, 'init', false, true);
    const right = this.inside(() => this.parseAssignment(true));
    const value = this.node('AssignmentPattern', start, { left: name, right });
    const cover = property(key, value, 'init', false, true);
    this.coverInits.add(cover);
    return cover;
  }

  // -------------------------------------------------------------- covers

  toSimpleTarget(node) {
    if (node.type !== 'Identifier' && node.type !== 'MemberExpression') this.fail(this.peekDiv());
    return node;
  }

  // A simple target or an assignment pattern; an array or object literal becomes a pattern in place.
  toTarget(node) {
    if (node.type === 'Identifier' || node.type === 'MemberExpression') return node;
    if (this.grouped.has(node)) this.fail(this.peekDiv());
    return this.toPattern(node, (part) => this.toTarget(part), (part) => this.toSimpleTarget(part));
  }

  // A name or a binding pattern.
  toBinding(node) {
    if (this.grouped.has(node)) this.fail(this.peekDiv());
    if (node.type === 'Identifier') return node;
    return this.toPattern(
      node,
      (part) => this.toBinding(part),
      (part) => {
        if (part.type !== 'Identifier') this.fail(this.peekDiv());
        return this.toBinding(part);
      }
    );
  }
  toBindingElement(node) {
    return this.toElement(node, (part) => this.toBinding(part));
  }

  // `part` or `part = initialiser`, where `part` is changed by `toPart`.
  toElement(node, toPart) {
    if (node.type === 'AssignmentPattern') {
      node.left = toPart(node.left);
      return node;
    }
    if (node.type === 'AssignmentExpression' && node.operator === '=' && !this.grouped.has(node)) {
      node.type = 'AssignmentPattern';
      delete node.operator;
      node.left = toPart(node.left);
      return node;
    }
    return toPart(node);
  }

  toPattern(node, toPart, toObjectRest) {
    const rest = (part, list, toArgument) => {
      if (part !== list[list.length - 1] || this.commaAfterRest.has(node)) this.fail(this.peekDiv());
      part.type = 'RestElement';
      part.argument = toArgument(part.argument);
      return part;
    };
    const isRest = (part) => part.type === 'SpreadElement' || part.type === 'RestElement';
    if (node.type === 'ArrayExpression' || node.type === 'ArrayPattern') {
      node.type = 'ArrayPattern';
      node.elements = node.elements.map((element, _, list) => {
        if (element === null) return null;
        return isRest(element) ? rest(element, list, toPart) : this.toElement(element, toPart);
      });
      return node;
    }
    if (node.type === 'ObjectExpression' || node.type === 'ObjectPattern') {
      node.type = 'ObjectPattern';
      for (const property of node.properties) {
        if (isRest(property)) {
          rest(property, node.properties, toObjectRest);
          continue;
        }
        if (property.kind !== 'init' || property.method) this.fail(this.peekDiv());
        this.coverInits.delete(property);
        property.value = this.toElement(property.value, toPart);
      }
      return node;
    }
    return this.fail(this.peekDiv());
  }

  // -------------------------------------------------------------- bindings, functions, classes

  // A name or a binding pattern, read as such.
  parseBinding() {
    const token = this.peek();
    const start = token.start;
    if (this.is(token, '[')) {
      this.take();
      const elements = [];
      while (!this.sees(']', GOAL.RegExp)) {
        if (this.accept(',', GOAL.RegExp)) {
          elements.push(null);
          continue;
        }
        if (this.sees('...', GOAL.RegExp)) {
          elements.push(this.parseRestBinding());
          break;
        }
        elements.push(this.inside(() => this.parseBindingElement()));
        if (!this.accept(',')) break;
      }
      this.expect(']');
      return this.node('ArrayPattern', start, { elements });
    }
    if (this.is(token, '{')) {
      this.take();
      const properties = [];
      while (!this.sees('}', GOAL.RegExp)) {
        const partStart = this.peek().start;
        if (this.accept('...', GOAL.RegExp)) {
          const argument = this.parseIdentifier();
          properties.push(this.node('RestElement', partStart, { argument }));
          break;
        }
        properties.push(this.inside(() => this.parseBindingProperty()));
        if (!this.accept(',')) break;
      }
      this.expect('}');
      return this.node('ObjectPattern', start, { properties });
    }
    return this.parseIdentifier();
  }

  parseBindingProperty() {
    const start = this.peek().start;
    const key = this.parseKey();
    const property = (value, shorthand) =>
      this.node('Property', start, { key: key.node, value, kind: 'init', method: false, shorthand, computed: key.computed });
    if (this.accept(':')) return property(this.inside(() => this.parseBindingElement()), false);
    if (!this.isIdentifier(key.token)) this.fail(this.peekDiv());
    const name = this.node('Identifier', start, { name: key.node.name });
    if (!this.accept('=')) return property(name, true);
    const right = this.inside(() => this.parseAssignment(true));
    return property(this.node('AssignmentPattern', start, { left: name, right }), true);
  }

  parseBindingElement() {
    const start = this.peek().start;
    const left = this.parseBinding();
    if (!this.accept('=')) return left;
    const right = this.inside(() => this.parseAssignment(true));
    return this.node('AssignmentPattern', start, { left, right });
  }

  parseRestBinding() {
    const start = this.expect('...', GOAL.RegExp).start;
    const argument = this.inside(() => this.parseBinding());
    return this.node('RestElement', start, { argument });
  }

  parseParameters() {
    this.expect('(');
    const params = [];
    while (!this.sees(')', GOAL.RegExp)) {
      if (this.sees('...', GOAL.RegExp)) {
        params.push(this.parseRestBinding());
        break;
      }
      params.push(this.parseBindingElement());
      if (!this.accept(',')) break;
    }
    this.expect(')');
    return params;
  }

  parseFunctionBody() {
    const outer = this.inFunction;
    this.inFunction = true;
    const start = this.expect('{', GOAL.RegExp).start;
    const body = this.inside(() => this.parseList(true, () => this.sees('}', GOAL.RegExp)));
    this.expect('}', GOAL.RegExp);
    this.inFunction = outer;
    return this.node('BlockStatement', start, { body });
  }

  parseFunction(type, mayLackName = type === 'FunctionExpression') {
    const async = this.isWord(this.peek(), 'async');
    const start = this.take().start;
    if (async) this.take();
    const generator = this.modern && this.accept('*', GOAL.RegExp);
    const id = !mayLackName || !this.sees('(') ? this.parseIdentifier() : null;
    const params = this.inside(() => this.parseParameters());
    const body = this.inside(() => this.parseFunctionBody());
    return this.node(type, start, { id, params, body, generator, async });
  }

  // The function of a method (kind method), getter or setter: it begins at its `(`.
  parseMethod(kind, { async, generator } = { async: false, generator: false }) {
    const start = this.peekDiv().start;
    let params;
    if (kind === 'get') {
      this.expect('(');
      this.expect(')');
      params = [];
    } else if (kind === 'set') {
      this.expect('(');
      params = [this.inside(() => this.parseBindingElement())];
      this.expect(')');
    } else {
      params = this.inside(() => this.parseParameters());
    }
    const body = this.inside(() => this.parseFunctionBody());
    return this.node('FunctionExpression', start, { id: null, params, body, generator, async });
  }

  parseClass(type, mayLackName = type === 'ClassExpression') {
    const start = this.take().start;
    const named = !mayLackName || this.isIdentifier(this.peekDiv());
    const id = named ? this.parseIdentifier() : null;
    const superClass = this.accept('extends') ? this.inside(() => this.parseLeftHandSide()) : null;
    const bodyStart = this.expect('{').start;
    const members = [];
    while (!this.sees('}', GOAL.RegExp)) {
      if (this.accept(';', GOAL.RegExp)) continue;
      members.push(this.inside(() => this.parseMember()));
    }
    this.expect('}', GOAL.RegExp);
    const body = this.node('ClassBody', bodyStart, { body: members });
    return this.node(type, start, { id, superClass, body });
  }

  parseMember() {
    const start = this.peek().start;
    const second = this.sees('static', GOAL.RegExp) ? this.secondToken() : null;
    if (this.modern && second !== null && this.is(second, '{')) {
      this.take();
      return this.parseStaticBlock(start);
    }
    const isStatic = second !== null && (this.beginsKey(second, true) || (this.modern && this.is(second, '*')));
    if (isStatic) this.take();
    const accessor = this.acceptAccessor(true);
    const special = accessor === null ? this.acceptSpecial(true) : null;
    const key = this.parseClassKey();
    if (this.modern && accessor === null && special === null && !this.sees('(')) {
      const value = this.accept('=') ? this.inside(() => this.parseAssignment(true)) : null;
      this.fieldEnd(value);
      return this.node('PropertyDefinition', start, { key: key.node, value, computed: key.computed, static: isStatic });
    }
    const value = this.parseMethod(accessor ?? 'method', special ?? undefined);
    const keyValue = key.computed ? null : key.node.type === 'Identifier' ? key.node.name : key.node.value;
    const isConstructor = !isStatic && special === null && key.node.type !== 'PrivateIdentifier' && keyValue === 'constructor';
    const kind = accessor ?? (isConstructor ? 'constructor' : 'method');
    return this.node('MethodDefinition', start, { key: key.node, value, kind, computed: key.computed, static: isStatic });
  }

  parseClassKey() {
    const token = this.peek();
    if (token.cls !== 'private') return this.parseKey();
    return { node: this.parsePrivateName(), computed: false, token };
  }

  parseStaticBlock(start) {
    const outer = this.inFunction;
    this.inFunction = false;
    this.expect('{', GOAL.RegExp);
    const body = this.parseList(false, () => this.sees('}', GOAL.RegExp));
    this.expect('}', GOAL.RegExp);
    this.inFunction = outer;
    return this.node('StaticBlock', start, { body });
  }

  // The `;` of a field, or none: 5 of modern.md. What could have gone on was taken before.
  fieldEnd(value) {
    const token = this.peek();
    if (this.is(token, ';')) {
      this.take();
      return;
    }
    if (this.is(token, '}')) return;
    if (token.afterBreak && token.cls !== 'fault' && !(value !== null && this.goesOn(this.rightEdge(value), token))) return;
    this.fail(token);
  }

  // -------------------------------------------------------------- statements

  parseProgram() {
    const body = this.inside(() => this.parseList(true, () => this.peek().cls === 'end', this.module));
    const tree = { type: 'Program', start: 0, end: this.byteLength, body, sourceType: this.module ? 'module' : 'script' };
    const [left] = this.coverInits;
    if (left !== undefined) throw new Refusal('Syntax');
    return tree;
  }

  // List items up to the place where `atEnd` holds.
  parseList(prologue, atEnd, ofModule = false) {
    const items = [];
    let inPrologue = prologue;
    while (!atEnd()) {
      const item = ofModule ? this.parseModuleItem() : this.parseListItem();
      if (inPrologue) inPrologue = this.markDirective(item);
      items.push(item);
    }
    return items;
  }

  markDirective(item) {
    if (item.type !== 'ExpressionStatement') return false;
    const e = item.expression;
    const isString = e.type === 'Literal' && /^['"]/.test(e.raw) && !this.grouped.has(e);
    if (isString) item.directive = e.raw.slice(1, -1);
    return isString;
  }

  // ---- modules

  parseModuleItem() {
    const token = this.peek();
    if (this.isWord(token, 'export')) return this.inside(() => this.parseExport());
    if (this.isWord(token, 'import')) {
      const second = this.secondToken();
      if (!this.is(second, '(') && !this.is(second, '.')) return this.inside(() => this.parseImportDeclaration());
    }
    return this.parseListItem();
  }

  parseImportDeclaration() {
    const start = this.take().start;
    const specifiers = [];
    if (this.peekDiv().cls !== 'string') {
      let more = true;
      if (this.isIdentifier(this.peekDiv())) {
        const at = this.peekDiv().start;
        specifiers.push(
          this.inside(() => {
            const local = this.inside(() => this.parseIdentifier());
            return this.node('ImportDefaultSpecifier', at, { local });
          })
        );
        more = this.accept(',');
      }
      if (more) {
        const at = this.peekDiv().start;
        if (this.accept('*')) {
          this.expectWord('as');
          specifiers.push(
            this.inside(() => {
              const local = this.inside(() => this.parseIdentifier());
              return this.node('ImportNamespaceSpecifier', at, { local });
            })
          );
        } else this.parseSpecifiers(() => this.parseImportSpecifier(), specifiers);
      }
      this.expectWord('from');
    }
    const source = this.inside(() => this.parseSource());
    this.semicolon('none');
    return this.node('ImportDeclaration', start, { specifiers, source });
  }
  expectWord(word) {
    const token = this.peekDiv();
    if (!this.isWord(token, word)) this.fail(token);
    return this.take(GOAL.Div);
  }
  parseSource() {
    if (this.peek().cls !== 'string') this.fail();
    return this.parseStringLiteral();
  }
  parseSpecifiers(read, list) {
    this.expect('{');
    while (!this.sees('}')) {
      list.push(this.inside(read));
      if (!this.accept(',')) break;
    }
    this.expect('}');
    return list;
  }
  // A name, reserved or not, or a string.
  parseModuleName() {
    return this.inside(() => (this.peek().cls === 'string' ? this.parseStringLiteral() : this.parseName()));
  }

  parseImportSpecifier() {
    const token = this.peekDiv();
    const imported = this.parseModuleName();
    let local;
    if (this.isWord(this.peekDiv(), 'as')) {
      this.take(GOAL.Div);
      local = this.inside(() => this.parseIdentifier());
    } else {
      if (!this.isIdentifier(token)) this.fail(this.peekDiv());
      local = this.node('Identifier', token.start, { name: token.text });
    }
    return this.node('ImportSpecifier', token.start, { imported, local });
  }

  parseExport() {
    const start = this.take().start;
    const token = this.peek();
    if (this.accept('*', GOAL.RegExp)) {
      let exported = null;
      if (this.isWord(this.peekDiv(), 'as')) {
        this.take(GOAL.Div);
        exported = this.parseModuleName();
      }
      this.expectWord('from');
      const source = this.inside(() => this.parseSource());
      this.semicolon('none');
      return this.node('ExportAllDeclaration', start, { exported, source });
    }
    if (this.is(token, '{')) {
      const specifiers = this.parseSpecifiers(() => this.parseExportSpecifier(), []);
      let source = null;
      if (this.isWord(this.peekDiv(), 'from')) {
        this.take(GOAL.Div);
        source = this.inside(() => this.parseSource());
      }
      this.semicolon('none');
      return this.node('ExportNamedDeclaration', start, { declaration: null, specifiers, source });
    }
    if (this.isWord(token, 'default')) {
      this.take();
      const declaration = this.parseExportDefault();
      return this.node('ExportDefaultDeclaration', start, { declaration });
    }
    const isDeclaration = ['var', 'let', 'const', 'function', 'class'].some((word) => this.isWord(token, word));
    if (!isDeclaration && !this.seesAsyncFunction()) this.fail(token);
    const declaration = this.isWord(token, 'var') ? this.parseStatement() : this.parseListItem();
    return this.node('ExportNamedDeclaration', start, { declaration, specifiers: [], source: null });
  }
  parseExportSpecifier() {
    const token = this.peekDiv();
    const local = this.parseModuleName();
    let exported = { ...local };
    if (this.isWord(this.peekDiv(), 'as')) {
      this.take(GOAL.Div);
      exported = this.parseModuleName();
    }
    return this.node('ExportSpecifier', token.start, { local, exported });
  }
  parseExportDefault() {
    const token = this.peek();
    if (this.isWord(token, 'function') || this.seesAsyncFunction()) return this.parseFunction('FunctionDeclaration', true);
    if (this.isWord(token, 'class')) return this.parseClass('ClassDeclaration', true);
    const expression = this.inside(() => this.parseAssignment(true));
    this.semicolon(this.rightEdge(expression));
    return expression;
  }

  parseListItem() {
    const token = this.peek();
    if (this.seesAsyncFunction()) return this.parseFunction('FunctionDeclaration');
    if (this.is(token, 'function')) return this.parseFunction('FunctionDeclaration');
    if (this.is(token, 'class')) return this.parseClass('ClassDeclaration');
    return this.inside(() => {
      if (this.is(token, 'let') || this.is(token, 'const')) return this.parseDeclarationStatement();
      return this.parseStatementHere();
    });
  }

  parseStatement() {
    return this.inside(() => this.parseStatementHere());
  }

  parseStatementHere() {
    const token = this.peek();
    const start = token.start;
    if (token.cls === 'punctuator') {
      if (token.text === '{') return this.parseBlock();
      if (token.text === ';') {
        this.take();
        return this.node('EmptyStatement', start, {});
      }
    }
    if (token.cls === 'name') {
      switch (token.text) {
        case 'var':
          return this.parseDeclarationStatement();
        case 'if':
          return this.parseIf();
        case 'do':
          return this.parseDo();
        case 'while': {
          this.take();
          const test = this.parseHeadExpression();
          return this.node('WhileStatement', start, { test, body: this.parseStatement() }, this.lastEnd);
        }
        case 'for':
          return this.parseFor();
        case 'continue':
          return this.parseJump('ContinueStatement');
        case 'break':
          return this.parseJump('BreakStatement');
        case 'return':
          return this.parseReturn();
        case 'switch':
          return this.parseSwitch();
        case 'throw':
          return this.parseThrow();
        case 'try':
          return this.parseTry();
        case 'function':
        case 'class':
        case 'let':
        case 'const':
          return this.fail(token);
        default:
          if (WORD_STATEMENTS.has(token.text)) {
            this.take();
            this.semicolon('none');
            return this.node(WORD_STATEMENTS.get(token.text), start, {});
          }
          if (this.seesAsyncFunction()) this.fail(token);
          if (this.isIdentifier(token) && this.is(this.secondToken(), ':')) {
            const label = this.parseIdentifier();
            this.expect(':');
            const body = this.parseStatement();
            return this.node('LabeledStatement', start, { label, body });
          }
      }
    }
    const expression = this.parseExpression(true);
    this.semicolon(this.rightEdge(expression));
    return this.node('ExpressionStatement', start, { expression });
  }

  // The right edge of an expression: 'arrow', 'postfix', 'expression' or (for no expression) 'none'.
  rightEdge(node) {
    let n = node;
    while (!this.grouped.has(n)) {
      switch (n.type) {
        case 'SequenceExpression':
          n = n.expressions[n.expressions.length - 1];
          break;
        case 'AssignmentExpression':
        case 'BinaryExpression':
        case 'LogicalExpression':
          n = n.right;
          break;
        case 'ConditionalExpression':
          n = n.alternate;
          break;
        case 'UnaryExpression':
        case 'AwaitExpression':
          n = n.argument;
          break;
        case 'YieldExpression':
          if (n.argument === null) return 'arrow';
          n = n.argument;
          break;
        case 'UpdateExpression':
          if (!n.prefix) return 'postfix';
          n = n.argument;
          break;
        case 'ArrowFunctionExpression':
          if (!n.expression) return 'arrow';
          n = n.body;
          break;
        default:
          return 'expression';
      }
    }
    return 'expression';
  }

  // Whether an ending with this right edge goes on with the token (`Continuations` of the definitions).
  goesOn(edge, token) {
    const opens = this.is(token, '(') || this.is(token, '[') || token.cls === 'template';
    const sign = this.is(token, '+') || this.is(token, '-') || token.text[0] === '/';
    if (edge === 'postfix') return sign;
    if (edge === 'expression') return opens || sign;
    return false;
  }

  semicolon(edge, isDo = false) {
    const token = this.peek();
    if (this.is(token, ';')) {
      this.take();
      return;
    }
    if (token.cls === 'end' || this.is(token, '}') || isDo) return;
    if (token.afterBreak && token.cls !== 'fault' && !this.goesOn(edge, token)) return;
    this.fail(token);
  }

  parseBlock() {
    const start = this.expect('{', GOAL.RegExp).start;
    const body = this.parseList(false, () => this.sees('}', GOAL.RegExp));
    this.expect('}', GOAL.RegExp);
    return this.node('BlockStatement', start, { body });
  }

  parseHeadExpression() {
    this.expect('(');
    const expression = this.parseExpression(true);
    this.expect(')');
    return expression;
  }

  parseDeclarationStatement() {
    const start = this.peek().start;
    const { kind, declarations } = this.parseDeclarations(true);
    for (const d of declarations) this.requireInitialiser(d);
    const last = declarations[declarations.length - 1];
    this.semicolon(last.init === null ? 'none' : this.rightEdge(last.init));
    return this.node('VariableDeclaration', start, { kind, declarations });
  }

  requireInitialiser(declarator) {
    if (declarator.init === null && declarator.id.type !== 'Identifier') this.fail();
  }

  // `var`, `let` or `const` and its declarators; in a `for` head (In false) the first one
  // may be followed by `in` or `of`.
  parseDeclarations(In) {
    const kind = this.take().text;
    const declarations = [];
    do {
      const start = this.peek().start;
      const id = this.inside(() => this.parseBinding());
      const init = this.accept('=') ? this.inside(() => this.parseAssignment(In)) : null;
      declarations.push(this.node('VariableDeclarator', start, { id, init }));
    } while (this.accept(','));
    return { kind, declarations };
  }

  parseIf() {
    const start = this.take().start;
    const test = this.parseHeadExpression();
    const consequent = this.parseStatement();
    const alternate = this.accept('else', GOAL.RegExp) ? this.parseStatement() : null;
    return this.node('IfStatement', start, { test, consequent, alternate });
  }

  parseDo() {
    const start = this.take().start;
    const body = this.parseStatement();
    this.expect('while', GOAL.RegExp);
    const test = this.parseHeadExpression();
    this.semicolon('none', true);
    return this.node('DoWhileStatement', start, { test, body });
  }

  parseFor() {
    const start = this.take().start;
    const isAwait = this.modern && this.isWord(this.peekDiv(), 'await');
    if (isAwait) this.take(GOAL.Div);
    this.expect('(');
    const headStart = this.peek().start;
    const first = this.peek();
    let init = null;
    let left = null;
    if (this.is(first, 'var') || this.is(first, 'let') || this.is(first, 'const')) {
      const { kind, declarations } = this.parseDeclarations(false);
      init = this.node('VariableDeclaration', headStart, { kind, declarations });
      if (this.sees('in') || this.sees('of')) {
        if (declarations.length !== 1 || declarations[0].init !== null) this.fail(this.peekDiv());
        left = init;
      } else declarations.forEach((d) => this.requireInitialiser(d));
    } else if (!this.sees(';', GOAL.RegExp)) {
      init = this.parseExpression(false);
      if (this.sees('in') || this.sees('of')) left = this.toTarget(init);
    }
    if (isAwait && !(left !== null && this.sees('of'))) this.fail(this.peekDiv());
    if (left !== null) {
      const word = this.take(GOAL.Div).text;
      const right = word === 'in' ? this.parseExpression(true) : this.parseAssignment(true);
      this.expect(')');
      const body = this.parseStatement();
      return word === 'in'
        ? this.node('ForInStatement', start, { left, right, body })
        : this.node('ForOfStatement', start, { left, right, body, await: isAwait });
    }
    this.expect(';');
    const test = this.sees(';', GOAL.RegExp) ? null : this.parseExpression(true);
    this.expect(';');
    const update = this.sees(')', GOAL.RegExp) ? null : this.parseExpression(true);
    this.expect(')');
    const body = this.parseStatement();
    return this.node('ForStatement', start, { init, test, update, body });
  }

  parseJump(type) {
    const start = this.take().start;
    const next = this.peek();
    const label = this.isIdentifier(next) && !next.afterBreak ? this.parseIdentifier() : null;
    this.semicolon('none');
    return this.node(type, start, { label });
  }

  parseReturn() {
    const token = this.take();
    if (!this.inFunction) this.fail(token);
    const next = this.peek();
    const bare = next.cls === 'end' || next.afterBreak || this.is(next, ';') || this.is(next, '}');
    const argument = bare ? null : this.parseExpression(true);
    this.semicolon(bare ? 'none' : this.rightEdge(argument));
    return this.node('ReturnStatement', token.start, { argument });
  }

  parseThrow() {
    const start = this.take().start;
    if (this.peek().afterBreak) this.fail();
    const argument = this.parseExpression(true);
    this.semicolon(this.rightEdge(argument));
    return this.node('ThrowStatement', start, { argument });
  }

  parseSwitch() {
    const start = this.take().start;
    const discriminant = this.parseHeadExpression();
    this.expect('{');
    const cases = [];
    while (!this.sees('}', GOAL.RegExp)) {
      const clause = this.inside(() => this.parseCase());
      if (clause.test === null && cases.some((c) => c.test === null)) this.fail();
      cases.push(clause);
    }
    this.expect('}', GOAL.RegExp);
    return this.node('SwitchStatement', start, { discriminant, cases });
  }

  parseCase() {
    const start = this.peek().start;
    let test = null;
    if (!this.accept('default', GOAL.RegExp)) {
      this.expect('case', GOAL.RegExp);
      test = this.parseExpression(true);
    }
    this.expect(':');
    const atEnd = () => {
      const token = this.peek();
      return this.is(token, 'case') || this.is(token, 'default') || this.is(token, '}');
    };
    const consequent = this.parseList(false, atEnd);
    return this.node('SwitchCase', start, { test, consequent });
  }

  parseTry() {
    const start = this.take().start;
    const block = this.inside(() => this.parseBlock());
    let handler = null;
    const next = this.peek();
    if (this.accept('catch', GOAL.RegExp)) {
      let param = null;
      if (this.accept('(')) {
        param = this.inside(() => this.parseBinding());
        this.expect(')');
      }
      const body = this.inside(() => this.inside(() => this.parseBlock()));
      handler = this.node('CatchClause', next.start, { param, body });
    }
    const finalizer = this.accept('finally', GOAL.RegExp) ? this.inside(() => this.parseBlock()) : null;
    if (handler === null && finalizer === null) this.fail();
    return this.node('TryStatement', start, { block, handler, finalizer });
  }
}

// ---------------------------------------------------------------- the whole

// The nodes directly in a node.
function children(node) {
  const list = [];
  for (const key of Object.keys(node)) {
    const value = node[key];
    if (Array.isArray(value)) {
      for (const item of value) if (item !== null && typeof item.type === 'string') list.push(item);
    } else if (value !== null && typeof value === 'object' && typeof value.type === 'string') list.push(value);
  }
  return list;
}

// The greatest number of nodes on a path from the root, the root included.
function height(tree) {
  let most = 0;
  const stack = [[tree, 1]];
  while (stack.length > 0) {
    const [node, depth] = stack.pop();
    if (depth > most) most = depth;
    for (const child of children(node)) stack.push([child, depth + 1]);
  }
  return most;
}

function parseOnly(input, options = {}) {
  const source = makeSource(input);
  if (!source.ok) return source;
  const { text } = source;
  const parser = new Parser(source, options);
  try {
    const tree = parser.parseProgram();
    const treeHeight = height(tree);
    if (treeHeight > parser.maxHeight) throw new Refusal('TooDeep');
    const pairs = parser.pairs.sort((a, b) => a.left - b.left);
    return { ok: true, tree, pairs, height: treeHeight, openParens: parser.mostParens, text };
  } catch (error) {
    if (error instanceof RangeError && isMainThread) return runInBigStack(__filename, 'parseOnly', [input, options]);
    if (!(error instanceof Refusal)) throw error;
    if (error.kind === 'TooDeep') return { ok: false, fault: { kind: 'TooDeep' }, text };
    return { ok: false, fault: { kind: 'Syntax', at: source.byteAt(error.at ?? 0) }, text };
  }
}

function parse(input, options = {}) {
  const result = parseOnly(input, options);
  if (!result.ok || options.early === false) return result;
  const { earlyErrors } = require('./early.js');
  const [first] = earlyErrors(result.tree, result.text, { edition: options.module ? 2022 : options.edition ?? 2021 });
  if (first === undefined) return result;
  return { ok: false, fault: { kind: 'Early', number: first.number, at: first.at }, text: result.text };
}

module.exports = { LIMITS, parse, parseOnly, children, height };
