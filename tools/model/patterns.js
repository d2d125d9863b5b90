'use strict';
// The patterns of regular expressions (ECMA-262, 13th edition, 22.2.1 and 22.2.1.1), without Annex B, by descent along the productions.
// `patternFault(literal)` is the place of the first fault in a literal, in bytes of UTF-8, or null: the first where the pattern can't be read on, or, if
// it is read to its end, the first reference or second name that is wrong. A fault's place is that of the assertion, atom, quantifier, bracket or bar
// that can't stand there, for an open group the place of the last `/`.

const SYNTAX = new Set([...'^$\\.*+?()[]{}|']);
const words = (s) => new Set(s.trim().split(/\s+/));
// General_Category (PropertyValueAliases.txt)
const CATEGORIES = words(`Cased_Letter LC Close_Punctuation Pe Connector_Punctuation Pc Control Cc cntrl Currency_Symbol Sc Dash_Punctuation Pd
  Decimal_Number Nd digit Enclosing_Mark Me Final_Punctuation Pf Format Cf Initial_Punctuation Pi Letter L Letter_Number Nl Line_Separator Zl
  Lowercase_Letter Ll Mark M Combining_Mark Math_Symbol Sm Modifier_Letter Lm Modifier_Symbol Sk Nonspacing_Mark Mn Number N Open_Punctuation Ps
  Other C Other_Letter Lo Other_Number No Other_Punctuation Po Other_Symbol So Paragraph_Separator Zp Private_Use Co Punctuation P punct Separator Z
  Space_Separator Zs Spacing_Mark Mc Surrogate Cs Symbol S Titlecase_Letter Lt Unassigned Cn Uppercase_Letter Lu`);
// the binary properties of the table of the 13th edition, with their aliases
const BINARY = words(`ASCII ASCII_Hex_Digit AHex Alphabetic Alpha Any Assigned Bidi_Control Bidi_C Bidi_Mirrored Bidi_M Case_Ignorable CI Cased
  Changes_When_Casefolded CWCF Changes_When_Casemapped CWCM Changes_When_Lowercased CWL Changes_When_NFKC_Casefolded CWKCF
  Changes_When_Titlecased CWT Changes_When_Uppercased CWU Dash Default_Ignorable_Code_Point DI Deprecated Dep Diacritic Dia Emoji
  Emoji_Component EComp Emoji_Modifier EMod Emoji_Modifier_Base EBase Emoji_Presentation EPres Extended_Pictographic ExtPict Extender Ext
  Grapheme_Base Gr_Base Grapheme_Extend Gr_Ext Hex_Digit Hex IDS_Binary_Operator IDSB IDS_Trinary_Operator IDST ID_Continue IDC ID_Start IDS
  Ideographic Ideo Join_Control Join_C Logical_Order_Exception LOE Lowercase Lower Math Noncharacter_Code_Point NChar Pattern_Syntax Pat_Syn
  Pattern_White_Space Pat_WS Quotation_Mark QMark Radical Regional_Indicator RI Sentence_Terminal STerm Soft_Dotted SD Terminal_Punctuation Term
  Unified_Ideograph UIdeo Uppercase Upper Variation_Selector VS White_Space space XID_Continue XIDC XID_Start XIDS`);
// Script and Script_Extensions, of Unicode 17 (PropertyValueAliases.txt)
const SCRIPTS = words(`Adlam Adlm Ahom Anatolian_Hieroglyphs Hluw Arabic Arab Armenian Armn Avestan Avst Balinese Bali Bamum Bamu Bassa_Vah Bass
  Batak Batk Bengali Beng Bhaiksuki Bhks Bopomofo Bopo Brahmi Brah Braille Brai Buginese Bugi Buhid Buhd Canadian_Aboriginal Cans Carian Cari
  Caucasian_Albanian Aghb Chakma Cakm Cham Cherokee Cher Chorasmian Chrs Common Zyyy Coptic Copt Qaac Cuneiform Xsux Cypriot Cprt Cypro_Minoan Cpmn
  Cyrillic Cyrl Deseret Dsrt Devanagari Deva Dives_Akuru Diak Dogra Dogr Duployan Dupl Egyptian_Hieroglyphs Egyp Elbasan Elba Elymaic Elym
  Ethiopic Ethi Georgian Geor Glagolitic Glag Gothic Goth Grantha Gran Greek Grek Gujarati Gujr Gunjala_Gondi Gong Gurmukhi Guru Han Hani Hangul Hang
  Hanifi_Rohingya Rohg Hanunoo Hano Hatran Hatr Hebrew Hebr Hiragana Hira Imperial_Aramaic Armi Inherited Zinh Qaai Inscriptional_Pahlavi Phli
  Inscriptional_Parthian Prti Javanese Java Kaithi Kthi Kannada Knda Katakana Kana Kayah_Li Kali Kharoshthi Khar Khitan_Small_Script Kits Khmer Khmr
  Khojki Khoj Khudawadi Sind Lao Laoo Latin Latn Lepcha Lepc Limbu Limb Linear_A Lina Linear_B Linb Lisu Lycian Lyci Lydian Lydi Mahajani Mahj
  Makasar Maka Malayalam Mlym Mandaic Mand Manichaean Mani Marchen Marc Masaram_Gondi Gonm Medefaidrin Medf Meetei_Mayek Mtei Mende_Kikakui Mend
  Meroitic_Cursive Merc Meroitic_Hieroglyphs Mero Miao Plrd Modi Mongolian Mong Mro Mroo Multani Mult Myanmar Mymr Nabataean Nbat Nandinagari Nand
  New_Tai_Lue Talu Newa Nko Nkoo Nushu Nshu Nyiakeng_Puachue_Hmong Hmnp Ogham Ogam Ol_Chiki Olck Old_Hungarian Hung Old_Italic Ital
  Old_North_Arabian Narb Old_Permic Perm Old_Persian Xpeo Old_Sogdian Sogo Old_South_Arabian Sarb Old_Turkic Orkh Old_Uyghur Ougr Oriya Orya
  Osage Osge Osmanya Osma Pahawh_Hmong Hmng Palmyrene Palm Pau_Cin_Hau Pauc Phags_Pa Phag Phoenician Phnx Psalter_Pahlavi Phlp Rejang Rjng Runic Runr
  Samaritan Samr Saurashtra Saur Sharada Shrd Shavian Shaw Siddham Sidd SignWriting Sgnw Sinhala Sinh Sogdian Sogd Sora_Sompeng Sora Soyombo Soyo
  Sundanese Sund Syloti_Nagri Sylo Syriac Syrc Tagalog Tglg Tagbanwa Tagb Tai_Le Tale Tai_Tham Lana Tai_Viet Tavt Takri Takr Tamil Taml Tangsa Tnsa
  Tangut Tang Telugu Telu Thaana Thaa Thai Tibetan Tibt Tifinagh Tfng Tirhuta Tirh Toto Ugaritic Ugar Vai Vaii Vithkuqi Vith Wancho Wcho
  Warang_Citi Wara Yezidi Yezi Yi Yiii Zanabazar_Square Zanb
  Kawi Nag_Mundari Nagm Garay Gara Gurung_Khema Gukh Kirat_Rai Krai Ol_Onal Onao Sunuwar Sunu Todhri Todr Tulu_Tigalari Tutg Beria_Erfe Berf Sidetic Sidt Tai_Yo Tayo Tolong_Siki Tols`);

class Fault extends Error {}

class Reader {
  constructor(pattern, unicode) {
    this.s = [...pattern];
    this.at = 0;
    this.u = unicode;
    this.begin = 0; // begin: where the piece that is being read starts
    this.groups = 0;
    this.names = new Set();
    this.late = []; // late: [place, whether it is a fault, asked at the end]
  }
  fail() {
    throw new Fault(String(this.begin));
  }
  peek(k = 0) {
    return this.s[this.at + k];
  }
  eat(text) {
    const cs = [...text];
    if (!cs.every((c, k) => this.peek(k) === c)) return false;
    this.at += cs.length;
    return true;
  }
  must(text) {
    if (!this.eat(text)) this.fail();
  }
  run(test) {
    let out = '';
    while (this.at < this.s.length && test.test(this.peek())) out += this.s[this.at++];
    return out;
  }

  pattern() {
    let place = null;
    try {
      this.disjunction();
      this.begin = this.at;
      if (this.at < this.s.length) this.fail();
    } catch (e) {
      if (!(e instanceof Fault)) throw e;
      place = +e.message;
    }
    return place ?? this.late.find(([, test]) => test())?.[0] ?? null;
  }
  disjunction() {
    do {
      while (this.term());
      this.begin = this.at;
    } while (this.eat('|'));
  }
  // whether there was one
  term() {
    const c = this.peek();
    this.begin = this.at;
    if (c === undefined || c === '|' || c === ')') return false;
    if (this.eat('^') || this.eat('$') || this.eat('\\b') || this.eat('\\B')) return true;
    if (this.eat('(?=') || this.eat('(?!') || this.eat('(?<=') || this.eat('(?<!')) {
      this.close();
      return true;
    }
    this.atom();
    this.quantifier();
    return true;
  }
  close() {
    this.disjunction();
    this.begin = this.at;
    this.must(')');
  }
  quantifier() {
    this.begin = this.at;
    if (!(this.eat('*') || this.eat('+') || this.eat('?'))) {
      if (!this.eat('{')) return;
      const low = this.run(/[0-9]/);
      if (low === '') this.fail();
      if (this.eat(',')) {
        const high = this.run(/[0-9]/);
        if (high !== '' && BigInt(low) > BigInt(high)) this.fail();
      }
      this.must('}');
    }
    this.eat('?');
  }
  atom() {
    if (this.eat('.')) return;
    if (this.eat('\\')) {
      this.atomEscape();
      return;
    }
    if (this.eat('[')) {
      this.characterClass();
      return;
    }
    if (this.eat('(?:')) {
      this.close();
      return;
    }
    if (this.eat('(?')) {
      const place = this.begin;
      const name = this.groupName();
      if (this.names.has(name)) this.late.push([place, () => true]);
      this.names.add(name);
      this.groups += 1;
      this.close();
      return;
    }
    if (this.eat('(')) {
      this.groups += 1;
      this.close();
      return;
    }
    if (SYNTAX.has(this.peek())) this.fail();
    this.at += 1;
  }
  atomEscape() {
    const place = this.begin;
    const digits = /[1-9]/.test(this.peek() ?? '') ? this.run(/[0-9]/) : '';
    if (digits !== '') {
      this.late.push([place, () => BigInt(digits) > BigInt(this.groups)]);
      return;
    }
    if (this.peek() === 'k') {
      this.at += 1;
      const name = this.groupName();
      this.late.push([place, () => !this.names.has(name)]);
      return;
    }
    if (!this.characterClassEscape()) this.characterEscape();
  }
  characterClassEscape() {
    if (/[dDsSwW]/.test(this.peek() ?? '')) {
      this.at += 1;
      return true;
    }
    if (!this.u || !(this.eat('p') || this.eat('P'))) return false;
    this.must('{');
    const text = this.run(/[A-Za-z0-9_=]/);
    this.must('}');
    const parts = text.split('=');
    const [name, value] = parts;
    if (parts.length === 1) {
      if (!BINARY.has(name) && !CATEGORIES.has(name)) this.fail();
      return true;
    }
    if (parts.length > 2) this.fail();
    if (name === 'General_Category' || name === 'gc') {
      if (!CATEGORIES.has(value)) this.fail();
      return true;
    }
    if (!['Script', 'sc', 'Script_Extensions', 'scx'].includes(name) || !SCRIPTS.has(value)) this.fail();
    return true;
  }
  hex(count) {
    const text = this.s.slice(this.at, this.at + count).join('');
    if (!/^[0-9A-Fa-f]+$/.test(text) || text.length !== count) this.fail();
    this.at += count;
    return parseInt(text, 16);
  }
  // behind `u`
  unicodeEscape(unicode) {
    if (unicode && this.eat('{')) {
      const text = this.run(/[0-9A-Fa-f]/);
      if (text === '' || BigInt('0x' + text) > 0x10FFFFn) this.fail();
      this.must('}');
      return Number('0x' + text);
    }
    const lead = this.hex(4);
    if (!unicode || lead < 0xD800 || lead > 0xDBFF) return lead;
    const next = this.s.slice(this.at, this.at + 6).join('');
    if (!/^\\u[Dd][C-Fc-f][0-9A-Fa-f]{2}$/.test(next)) return lead;
    this.at += 6;
    return 0x10000 + (lead - 0xD800) * 0x400 + (parseInt(next.slice(2), 16) - 0xDC00);
  }
  // behind the backslash: its CharacterValue
  characterEscape() {
    const c = this.peek();
    if (c === undefined) this.fail();
    this.at += 1;
    if ('fnrtv'.includes(c)) return { f: 12, n: 10, r: 13, t: 9, v: 11 }[c];
    if (c === 'c') {
      const l = this.peek() ?? '';
      if (!/[A-Za-z]/.test(l)) this.fail();
      this.at += 1;
      return l.codePointAt(0) % 32;
    }
    if (c === '0') {
      if (/[0-9]/.test(this.peek() ?? '')) this.fail();
      return 0;
    }
    if (c === 'x') return this.hex(2);
    if (c === 'u') return this.unicodeEscape(this.u);
    if (this.u ? !(SYNTAX.has(c) || c === '/') : /\p{ID_Continue}/u.test(c)) this.fail();
    return c.codePointAt(0);
  }
  characterClass() {
    this.eat('^');
    // the members that stand one after the other: code units without u, each a value, 'class', or '-' for a plain dash
    const atoms = [];
    while (!this.eat(']')) {
      if (this.at >= this.s.length) this.fail();
      const c = this.peek();
      if (c === '\\') {
        this.at += 1;
        if (this.eat('b')) atoms.push(8);
        else if (this.u && this.eat('-')) atoms.push(0x2D);
        else if (this.characterClassEscape()) atoms.push('class');
        else atoms.push(...this.units(this.characterEscape()));
      } else {
        this.at += 1;
        atoms.push(...(c === '-' ? ['-'] : this.units(c.codePointAt(0))));
      }
    }
    const value = (a) => (a === '-' ? 0x2D : a);
    for (let k = 0; k < atoms.length;) {
      // ClassAtom - ClassAtom
      if (atoms[k + 1] === '-' && k + 2 < atoms.length) {
        const [low, high] = [value(atoms[k]), value(atoms[k + 2])];
        if (low === 'class' || high === 'class' || low > high) this.fail();
        k += 3;
      } else k += 1;
    }
  }
  units(c) {
    return this.u || c < 0x10000 ? [c] : [0xD800 + ((c - 0x10000) >> 10), 0xDC00 + ((c - 0x10000) & 0x3FF)];
  }
  groupName() {
    this.must('<');
    let name = '';
    while (!this.eat('>')) {
      let c = this.peek();
      if (c === undefined) this.fail();
      this.at += 1;
      if (c === '\\') {
        this.must('u');
        c = String.fromCodePoint(this.unicodeEscape(true));
      }
      if (!(name === '' ? /[$_\p{ID_Start}]/u : /[$\u200C\u200D\p{ID_Continue}]/u).test(c)) this.fail();
      name += c;
    }
    if (name === '') this.fail();
    return name;
  }
}

// a literal's pattern stands between its first `/` and its last
function patternFault(literal) {
  const pattern = literal.slice(1, literal.lastIndexOf('/'));
  const place = new Reader(pattern, literal.slice(literal.lastIndexOf('/')).includes('u')).pattern();
  return place === null ? null : 1 + Buffer.byteLength([...pattern].slice(0, place).join(''));
}

module.exports = { patternFault, Reader, BINARY, CATEGORIES, SCRIPTS };
