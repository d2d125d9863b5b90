'use strict';
// Numbers of binary64 as std's definitions have them, for antt.js: `fin negative m e` is m × 2 ^ e with m odd, or 0. The nearest one to a numeral is JavaScript's own.

// a positive double as [m, e], m odd
function oddAndPower(value) {
  if (value === 0) return [0n, 0];
  const bits = new DataView(new ArrayBuffer(8));
  bits.setFloat64(0, value);
  const pattern = bits.getBigUint64(0);
  const field = Number((pattern >> 52n) & 2047n);
  let m = pattern & ((1n << 52n) - 1n);
  let e = -1074;
  if (field > 0) [m, e] = [m | (1n << 52n), field - 1075];
  for (; m % 2n === 0n; m /= 2n) e += 1;
  return [m, e];
}

// the words of std by their names, each with its number of arguments, made of antt.js's own
function floatWords({ Constructor, codes, narrow, text }) {
  const FLOATS = { nan: new Constructor('nan', 0, 'Float', ''), inf: new Constructor('inf', 1, 'Float', ''), fin: new Constructor('fin', 3, 'Float', '') };
  const powerOf = (base, exponent) => narrow(BigInt(base) ** BigInt(exponent));
  const float = (value) => {
    if (!Number.isFinite(value)) return FLOATS.inf.make(false);
    const [m, e] = oddAndPower(value);
    return FLOATS.fin.make(false, narrow(m), e);
  };
  const digitsValue = (radix, digits) => [...text(digits)].reduce((n, c) => n * BigInt(radix) + BigInt(parseInt(c, 36)), 0n);
  const exponentOf = (p) => digitsValue(10, p.exponent);
  const scan = (list) => {
    const [all, whole, point, fraction, exponent] = /^(\d*)(\.?)((?<=\.)\d*)?(?:[eE]([+-]?\d+))?/.exec(text(list));
    return {
      whole: codes(whole),
      point: point !== '',
      fraction: codes(fraction ?? ''),
      exponent_negative: (exponent ?? '')[0] === '-',
      exponent: codes((exponent ?? '').replace(/^[+-]/, '')),
      len: all.length,
    };
  };
  const textOf = (p) => `${text(p.whole)}.${text(p.fraction)}e${p.exponent_negative ? '-' : ''}${text(p.exponent) || '0'}`;
  const LIBRARY = {
    '◌^◌': [2, powerOf],
    up: [1, (e) => (e < 0 ? 1 : powerOf(2, e))],
    down: [1, (e) => (e < 0 ? powerOf(2, -e) : 1)],
    digits_value: [2, (radix, digits) => narrow(digitsValue(radix, digits))],
    scan_numeral: [1, scan],
    nearest_float: [3, (format, negative, p) => float(Number(textOf(p)))],
    tens_up: [1, (p) => (p.exponent_negative ? 0 : narrow(exponentOf(p)))],
    tens_down: [1, (p) => narrow(BigInt(text(p.fraction).length) + (p.exponent_negative ? exponentOf(p) : 0n))],
  };
  return { FLOATS, LIBRARY };
}

module.exports = { floatWords };
