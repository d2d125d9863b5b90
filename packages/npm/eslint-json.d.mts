import type { Language, Text } from './jslint.mjs';

/** Lines and columns count from 1, columns in UTF-16 units and without a byte order mark. */
export interface Message {
  ruleId: string | null;
  fatal?: true;
  /** 2 is an error, 1 a warning. */
  severity: 1 | 2;
  message: string;
  line: number;
  column: number;
}

export interface Result {
  filePath: string;
  messages: Message[];
  suppressedMessages: never[];
  errorCount: number;
  fatalErrorCount: number;
  warningCount: number;
  fixableErrorCount: 0;
  fixableWarningCount: 0;
  /** The text, where anything was found in it. */
  source?: string;
  usedDeprecatedRules: never[];
}

/** A file's result: its path, and what was found in its text. Settings that are refused are thrown. */
export function resultOf(filePath: string, text: Text, options?: { settings?: Text; language?: Language }): Result;
/** The result of a file that can't be read: why not. */
export function unreadResult(filePath: string, message: string): Result;
/** The results of several files as ESLint's formatter `json` writes them. */
export function format(results: Result[]): string;
