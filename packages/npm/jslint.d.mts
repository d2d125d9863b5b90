/** A script or a second text: a string, or its UTF-8. */
export type Text = string | Uint8Array;
/** `spans` is `check --spans`. */
export type Command = 'check' | 'tree' | 'fix' | 'cost' | 'verify' | 'unwrap' | 'spans' | 'same' | 'format' | 'mend';

/** The base profile, strict scripts of ECMAScript 2022, or its modules. Without one: the base profile, or for `check` and `spans` what the settings say. */
export type Language = '2020' | '2022' | 'module';

/** What a rule finds at a place. Lines and columns count from 1, columns in characters; `index` is the place in the string. The settings say which rules only
 * warn; the message is without the mark that the program puts behind the text of a warning. */
export interface Report {
  line: number;
  column: number;
  rule: string;
  message: string;
  severity: 'error' | 'warning';
  index: number;
}

/** What a rule finds, from where to where: indices into the string, or bytes. As `check --spans` it doesn't say which rules only warn. */
export interface Span {
  start: number;
  end: number;
  rule: string;
  message: string;
}

export type Code = 'syntax' | 'early' | 'deep' | 'utf8' | 'long' | 'settings' | 'table' | 'unwrap' | 'format' | 'memory' | 'stack';

/** A text that was refused, in the program's words; `memory` and `stack` are the engine's limits. */
export class Refused extends Error {
  command: Command;
  status: 1 | 2;
  code: Code;
  /** Whether it is the other text of `same` that is refused. */
  inSecond: boolean;
  /** The first language that takes the text, of those later than the one in which it was read; the message is without it. */
  hint?: '2022' | 'module';
  /** The place of a syntax error or an early error; of settings, where they are no TOML or no UTF-8. */
  line?: number;
  column?: number;
  /** The number of an early error. */
  number?: number;
  byte?: number;
  most?: number;
  row?: number;
  reason?: 'Form' | 'Shape' | 'None' | 'High' | 'Total';
}

/** A node of ESTree. A number has `raw` and no `value`. */
export interface Node {
  type: string;
  start: number;
  end: number;
  [key: string]: unknown;
}

/** What the rules find, by place and rule. The settings are TOML, as the program takes them. */
export function check(text: Text, options?: { settings?: Text; language?: Language }): Report[];
/** The same reports, in the same order, from where to where. */
export function spans(text: Text, options?: { settings?: Text; places?: 'indices' | 'bytes'; language?: Language }): Span[];
/** The script in one layout, with the fewest parentheses that its tree allows. */
export function fix(text: Text, options?: { language?: Language }): string;
/** The script as it stands, comments kept, without its unnecessary parentheses. */
export function unwrap(text: Text, options?: { language?: Language }): string;
/** The script as it stands, with the safe changes for what `check` reports of it under the same settings. */
export function mend(text: Text, options?: { settings?: Text; language?: Language }): string;
/** The script in lines of 80 columns, comments and parentheses kept: `jslint format` without further words. */
export function format(text: Text, options?: { language?: Language }): string;
/** The tree. Places are indices into the string, as other parsers give them, or bytes. */
export function tree(text: Text, options?: { places?: 'indices' | 'bytes'; language?: Language }): Node;
/** The tree as the program writes it: one line of JSON, places in bytes. */
export function treeText(text: Text, options?: { language?: Language }): string;
/** The cost table, which shows why no text with this tree has fewer pairs of parentheses than its total. */
export function cost(text: Text, options?: { language?: Language }): string;
/** Checks such a table, whoever made it: the pairs of the text, and the fewest that a text with its tree has. */
export function verify(text: Text, table: Text, options?: { language?: Language }): { pairs: number; least: number };
/** Whether two scripts have one tree, places aside. */
export function same(text: Text, other: Text, options?: { language?: Language }): boolean;
/** The index into the string of a line and a column. */
export function indexOf(text: string, line: number, column: number): number;
/** A command as the program runs it: what it writes, and its exit status. */
export function run(command: Command, text: Uint8Array, second?: Uint8Array, language?: Language): { text: string; status: 0 | 1 | 2; isRefusal: boolean };
