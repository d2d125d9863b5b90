#!/usr/bin/env node
'use strict';
// Does languages.js see faults? Plants one fault at a time into a copy of the definitions of the three languages, and has languages.js
// look at rows of some sections:  node --stack-size=20000 plant_languages.js [--only NAME|NAME..] [--jobs I/K | --turns K] [--brief]
// I/K: the faults I, I + K .. alone; --turns: those of one K-th, which is told by the definitions, so that each has its turn as they change. With nothing
// planted as many of the rows, but for --only. --brief names only what is otherwise than it should be. Exit status 1 where a fault isn't seen, where its
// text isn't found just once, or where anything disagrees with nothing planted.
// Its rows are laid out by hand.

const fs = require('node:fs');
const path = require('node:path');
const { CRATES } = require('./model.js');
const { rowsOfLanguages } = require('./cases.js');
const { firstOf } = require('./languages.js');
const { copyOf, chosen, partOf } = require('./planting.js');

const argv = process.argv.slice(2);
const value = (name, d) => { const i = argv.indexOf(name); return i < 0 ? d : argv[i + 1]; };
const crates = CRATES.map((c) => path.basename(c));

// The sections of the rows that are looked at
const TOKENS = 'tokens,private names';
const FUNCTIONS = 'async functions,generators,other edges', METHODS = 'methods of objects,classes: fields', ARROWS = 'async arrows', AWAIT = 'await', EACH = 'for await', YIELD = 'generators';
const FIELDS = 'classes: fields', PRIVATE = 'private names', BLOCKS = 'classes: static blocks', META = 'new.target, import.meta, import()';
const IMPORTS = 'imports', EXPORTS = 'exports', DEFAULT = 'export default', NAMES = 'values of keys and names', MODULES = 'modules', BASE = 'early';
const PROTO = 'objects: `__proto__`', PATTERNS = 'patterns of regular expressions';

const LANGUAGES = 'language/specs/Languages.antt', LATER = 'language/specs/Later.antt', EXPRESSIONS = 'language/specs/Expressions.antt', STATEMENTS = 'language/specs/Statements.antt';
const GRAMMAR = 'language/specs/Grammar.antt', EDGES = 'language/specs/Edges.antt', CONTINUATIONS = 'language/specs/Continuations.antt', VOCABULARY = 'language/specs/Vocabulary.antt';
const FIRST_PART = 'language/specs/FirstPart.antt', LEXICAL = 'tokens/specs/Lexical.antt', COMMENTS = 'tokens/specs/Comments.antt', NUMBERS = 'tokens/specs/Numbers.antt';
const KINDS = 'tree/specs/Kinds.antt', USES = 'tree/specs/Uses.antt', DECLARED = 'name_tables/specs/DeclaredNames.antt';
const early = (name) => `early_errors/specs/${name}.antt`;
const AROUND = early('Around'), YIELDS = early('Yields'), IN_FIELDS = early('Fields'), CLASSES = early('Classes'), PRIVATES = early('PrivateNames'), OF_MODULES = early('Modules'), SCOPES = early('Scopes'), LITERALS = early('Literals'), OBJECTS = early('Objects');
const pattern = (name) => `regular_expressions/specs/${name}.antt`;
const FUNCTIONS_OF = early('Functions'), LABELS = early('Labels'), STRICT = early('Strict');

// What languages.js looks at: the derivations, the fixed texts too, the tokens too, the early errors alone
const BARE = { bare: true }, FIXED = {}, WITH_TOKENS = { bare: true, tokens: true }, ERRORS = { early: true };

// what, file, old, new, sections, how
const FAULTS = [
  // tokens, and which language sees them so
  ['a private name needs no name', LEXICAL, 'is_private_name (c ∷ cs) = one_of "#" c && is_name cs', 'is_private_name (c ∷ cs) = one_of "#" c', TOKENS, WITH_TOKENS],
  ['a private name needs no #', LEXICAL, 'is_private_name (c ∷ cs) = one_of "#" c && is_name cs', 'is_private_name (c ∷ cs) = is_name cs', TOKENS, WITH_TOKENS],
  ['no token is a private name', LEXICAL, 'is_of PrivateName text = is_private_name text', 'is_of PrivateName text = false', TOKENS, WITH_TOKENS],
  ['a private name may not stand', LEXICAL, 'may_stand PrivateName text rest = true', 'may_stand PrivateName text rest = is_empty rest', TOKENS, WITH_TOKENS],
  ['a # alone begins the first line', COMMENTS, 'cond (one_of "#" c && one_of "!" d)', 'cond (one_of "#" c)', TOKENS, BARE],
  ['the line of #! is the whole text', COMMENTS, 'cond (is_line_terminator c) [] (c ∷ first_line cs)', 'c ∷ first_line cs', TOKENS, BARE],
  ['the line of #! ends at a line feed alone', COMMENTS, 'cond (is_line_terminator c) [] (c ∷ first_line cs)', 'cond (is_line_terminator c && not (one_of "\u2028" c)) [] (c ∷ first_line cs)', TOKENS, BARE],
  ['the line of #! in the base profile', LANGUAGES, 'cond (is_of_2022 language) (record beginning {', 'cond true (record beginning {', TOKENS, BARE],
  ['no line of #!', LANGUAGES, 'cond (is_of_2022 language) (record beginning {', 'cond false (record beginning {', TOKENS, BARE],
  ['await is a keyword of the base profile', LANGUAGES, 'cond (is_of_2022 language && is_keyword text) Keyword IdentifierName', 'cond (is_keyword text) Keyword IdentifierName', AWAIT, BARE],
  ['await is a keyword of modules alone', LANGUAGES, 'is_of_2022 Script = true', 'is_of_2022 Script = false', AWAIT, BARE],
  ['await is no keyword', LANGUAGES, 'cond (is_of_2022 language && is_keyword text) Keyword IdentifierName', 'cond false Keyword IdentifierName', AWAIT, BARE],
  ['async is a keyword', VOCABULARY, 'is_keyword text = among text ("await" ∷ [])', 'is_keyword text = among text ("await" ∷ "async" ∷ [])', ARROWS, BARE],
  // which language has which trees
  ['modules are scripts', LANGUAGES, 'is_tree_of Script tree = is (text_of tree) "2022"', 'is_tree_of Script tree = is (text_of tree) "2022" || is (text_of tree) "module"', IMPORTS, BARE],
  ['any tree is a module\'s', LANGUAGES, 'is_tree_of Module tree = is (text_of tree) "module"', 'is_tree_of Module tree = true', FUNCTIONS, BARE],
  ['a script has a module\'s items', GRAMMAR, 'cond (is_empty text || is text "2022") (only (prologue', 'cond (is_empty text) (only (prologue', EXPORTS, BARE, 'cond (is text "module") (only (module_prologue', 'cond true (only (module_prologue'],
  ['static blocks in the base profile', LATER, 'is_later_kind StaticBlock = true\n', '', BLOCKS, BARE],
  ['fields in the base profile', LATER, 'is_later_kind PropertyDefinition = true\n', '', FIELDS, BARE],
  ['private names in the base profile', LATER, 'is_later_kind PrivateIdentifier = true\n', '', PRIVATE, BARE],
  ['yield in the base profile', LATER, 'is_later_kind YieldExpression = true\n', '', YIELD, BARE],
  ['generators in the base profile', LATER, 'is_later_form Generator = true\n', '', FUNCTIONS, BARE],
  ['async functions in the base profile', LATER, 'is_later_form Async = true\n', '', FUNCTIONS, BARE],
  ['async generators in the base profile', LATER, 'is_later_form AsyncGenerator = true\n', '', METHODS, BARE],
  ['import.meta in the base profile', LATER, 'is_of_import (part tree rest) = is (text_of tree) "import"', 'is_of_import (part tree rest) = false', META, BARE],
  ['later nodes behind a gap', LATER, 'some_has_later (gap rest) = some_has_later rest', 'some_has_later (gap rest) = false', FIELDS, BARE],
  ['a for-of has no form', USES, 'used_flags ForOfStatement flags = record plain { form = flags.form }\n', '', EACH, BARE],
  ['a private name has no text', USES, 'has_text PrivateIdentifier = true\n', '', PRIVATE, BARE],
  // functions and methods
  ['break behind async', EXPRESSIONS, 'async_word = term "async" ∷ unbroken ∷ sp ∷ []', 'async_word = term "async" ∷ sp ∷ []', FUNCTIONS, BARE],
  ['async functions without async', EXPRESSIONS, 'function_words Async = async_word ++ term "function" ∷ []', 'function_words Async = term "function" ∷ []', FUNCTIONS, BARE],
  ['async generators without *', EXPRESSIONS, 'function_words AsyncGenerator = async_word ++ term "function" ∷ sign "*" ∷ []', 'function_words AsyncGenerator = async_word ++ term "function" ∷ []', FUNCTIONS, BARE],
  ['generators without *', EXPRESSIONS, 'function_words Generator = term "function" ∷ sign "*" ∷ []', 'function_words Generator = term "function" ∷ []', FUNCTIONS, BARE],
  ['a statement begins with async function', GRAMMAR, 'starts Statement (tok IdentifierName w ∷ unbroken ∷ lay space ∷ tok IdentifierName v ∷ qs) = not (is v "function")', 'starts Statement (tok IdentifierName w ∷ unbroken ∷ lay space ∷ tok IdentifierName v ∷ qs) = true', FUNCTIONS, BARE],
  ['methods that are generators without *', EXPRESSIONS, 'method_words Generator = sign "*" ∷ []', 'method_words Generator = []', METHODS, BARE],
  ['async methods that are generators without *', EXPRESSIONS, 'method_words AsyncGenerator = async_word ++ sign "*" ∷ []', 'method_words AsyncGenerator = async_word', METHODS, BARE],
  ['async methods of objects without async', EXPRESSIONS, 'properties computed Method x = keyed (method_words x) computed', 'properties computed Method x = keyed [] computed', METHODS, BARE],
  ['async methods of classes without async', STATEMENTS, 'class_keyed (before ++ method_words x) computed', 'class_keyed before computed', METHODS, BARE],
  ['a getter may be a generator', GRAMMAR, 'is_function_at _ form = is_init form', 'is_function_at _ form = true', MODULES, BARE],
  // arrows
  ['async arrows without async', EXPRESSIONS, 'arrow_words Async = async_word', 'arrow_words Async = []', ARROWS, BARE],
  ['async arrows of one name without async', EXPRESSIONS, 'at Assignment (arrow_words flags.form ++ put name ∷', 'at Assignment (put name ∷', ARROWS, BARE],
  ['the parameters of an async arrow count as open', EXPRESSIONS, 'arrow_opening Async = sign "("\n', '', ARROWS, BARE, 'arrow_closing Async = sign ")"\n', ''],
  // await and yield
  ['await is an operand of **', EXPRESSIONS, 'AwaitExpression text flags parts = at Unary (', 'AwaitExpression text flags parts = at Update (', AWAIT, BARE],
  ['await takes no unary operand', EXPRESSIONS, '(codes "await") ∷ sp ∷ put (expr Unary true Any)', '(codes "await") ∷ sp ∷ put (expr Update true Any)', AWAIT, BARE],
  ['await is read as a name', EXPRESSIONS, 'at Unary (tok Keyword (codes "await")', 'at Unary (tok IdentifierName (codes "await")', AWAIT, BARE],
  ['the edge of await', EDGES, 'goes_right AwaitExpression = true\n', '', AWAIT, BARE],
  ['for await without await', STATEMENTS, 'for_words Async = tok TokenClass.Keyword (codes "await") ∷ sp ∷ []', 'for_words Async = []', EACH, BARE],
  ['an operand of yield behind a break', EXPRESSIONS, 'term "yield" ∷ sp ∷ unbroken ∷ sub', 'term "yield" ∷ sp ∷ sub', YIELD, BARE],
  ['a break before the * of yield', EXPRESSIONS, 'term "yield" ∷ unbroken ∷ sign "*"', 'term "yield" ∷ sign "*"', YIELD, BARE],
  ['yield without operand as an operand', EXPRESSIONS, 'yields Init (gap none) = at Assignment', 'yields Init (gap none) = at Primary', YIELD, BARE],
  ['yield with an operand as an operand', EXPRESSIONS, 'yields Init (part n none) = at Assignment', 'yields Init (part n none) = at Primary', YIELD, BARE],
  ['a break closes no yield', EDGES, 'begins_no_operand token = token.after_break || (', 'begins_no_operand token = (', YIELD, BARE],
  ['a colon closes no yield', EDGES, '"," ∷ ";" ∷ ":" ∷ []', '"," ∷ ";" ∷ []', YIELD, BARE],
  ['a } closes no yield', EDGES, '(begins token 125 || (is_sign token', '(false || (is_sign token', YIELD, BARE],
  ['a bare yield goes on', EDGES, 'operand_edge Closed = Arrow', 'operand_edge Closed = Other', YIELD, BARE],
  ['the edge of yield is not its operand\'s', EDGES, 'operand_edge x = x', 'operand_edge x = Other', YIELD, BARE],
  // where an expression ends
  ['a template goes on behind no name', CONTINUATIONS, 'cond (nat_eq (slice_index_or text 0 0) 96) op_template op_none', 'op_none', ARROWS, BARE],
  ['a call goes on behind an arrow', CONTINUATIONS, 'holds Arrow rank = nat_eq (precedence rank) 0', 'holds Arrow rank = true', ARROWS, BARE],
  ['nothing goes on behind an arrow', CONTINUATIONS, 'holds Arrow rank = nat_eq (precedence rank) 0', 'holds Arrow rank = false', 'async arrows,other edges', BARE],
  ['a member goes on behind a++', CONTINUATIONS, 'holds Postfix rank = nat_le (precedence rank) 15 && not (nat_eq (precedence rank) 1)', 'holds Postfix rank = true', FIELDS, BARE],
  ['in goes on nowhere', CONTINUATIONS, '(is token.text "in" && not i) || ', 'is token.text "in" || ', PRIVATE, BARE],
  ['in is no operator behind a private name', CONTINUATIONS, 'of_class IdentifierName text = cond (is_word_operator text) (operator_of text) op_none', 'of_class IdentifierName text = op_none', PRIVATE, BARE],
  ['++ goes on behind a break', CONTINUATIONS, 'rank_made_by op_update b = cond b None (Some Update)', 'rank_made_by op_update b = Some Update', AWAIT, BARE],
  // fields
  ['a value ends at each break', EDGES, 'there (behind_value x) = t.after_break && not (value_goes_on (edge_as_written x last) t)', 'there (behind_value x) = t.after_break', FIELDS, BARE],
  ['a value ends as a statement does', EDGES, 'not (value_goes_on (edge_as_written x last) t)', 'not (goes_on (edge_as_written x last) t)', FIELDS, BARE],
  ['a value ends before instanceof', EDGES, 'among token.text ("in" ∷ "instanceof" ∷ [])', 'among token.text ("in" ∷ [])', FIELDS, BARE],
  ['a value a++ ends before *', EDGES, 'takes_operators Postfix = true\n', '', FIELDS, BARE],
  ['a key ends without a break', EDGES, 'there (behind_key w s) = t.after_break && not', 'there (behind_key w s) = not', FIELDS, BARE],
  ['a key set ends before a key', EDGES, 'among text ("get" ∷ "set" ∷ []) && begins_key', 'among text ("get" ∷ []) && begins_key', FIELDS, BARE],
  ['a key static ends before a key', EDGES, '(is text "static" && not is_static)', 'false', FIELDS, BARE],
  ['a static field static goes on', EDGES, '(is text "static" && not is_static)', 'is text "static"', FIELDS, BARE],
  ['a private name begins no key', EDGES, '    of_class PrivateName = true\n', '', FIELDS, BARE],
  ['a string begins no key', EDGES, '    of_class StringLiteral = true\n', '', FIELDS, BARE],
  ['a static field without static', STATEMENTS, 'fields flags (part n (gap none)) = class_keyed (static_word flags.is_static)', 'fields flags (part n (gap none)) = class_keyed []', FIELDS, BARE],
  ['a value is an Expression', STATEMENTS, 'sp ∷ sign "=" ∷ sp ∷ assignment ∷ ending (behind_value (edge v))', 'sp ∷ sign "=" ∷ sp ∷ whole ∷ ending (behind_value (edge v))', FIELDS, BARE],
  // private names
  ['a member\'s key is no private name', STATEMENTS, 'put (cond (is_private kind) private_name key) ∷ after', 'put key ∷ after', PRIVATE, BARE],
  ['no private name behind a dot', EXPRESSIONS, 'put (cond (is_private kind) private_name word)', 'put word', PRIVATE, BARE],
  ['super.#x', EXPRESSIONS, 'at Member (put base ∷ selector flags Identifier)', 'at Member (put base ∷ selector flags (lead_kind (others parts)))', PRIVATE, BARE],
  ['a private name without its #', GRAMMAR, 'tok PrivateName (codes "#" ++ text)', 'tok PrivateName text', PRIVATE, BARE],
  ['a private name as a key of an object', GRAMMAR, '\nkeys _ text = []', '\nkeys PrivateIdentifier text = only (tok PrivateName (codes "#" ++ text) ∷ [])\nkeys _ text = []', METHODS, BARE],
  ['#x in a without In', EXPRESSIONS, 'private_in = at_in true Relational', 'private_in = at_in false Relational', PRIVATE, BARE],
  ['#x in a as any operand', EXPRESSIONS, 'private_in = at_in true Relational', 'private_in = at_in true Primary', PRIVATE, BARE],
  ['#x in a looks for an Additive', EXPRESSIONS, 'infix_pieces (codes "in") ++ sub (tail Shift Any)', 'infix_pieces (codes "in") ++ sub (tail Additive Any)', PRIVATE, BARE, 'Relational, Shift, Exponentiation, Unary', 'Relational, Shift, Additive, Exponentiation, Unary'],
  // static blocks
  ['return in a static block', STATEMENTS, 'only (term "static" ∷ sp ∷ braced parts (lines (item false) parts))', 'only (term "static" ∷ sp ∷ braced parts (lines (item true) parts))', BLOCKS, BARE],
  ['directives in a static block', STATEMENTS, 'only (term "static" ∷ sp ∷ braced parts (lines (item false) parts))', 'only (term "static" ∷ sp ∷ braced parts (prologue false true (lay line ∷ []) [] parts))', BLOCKS, BARE],
  // imports
  ['no import of no names', STATEMENTS, ' ++ only (term "import" ∷ sp ∷ braces ++ from_source)', '', IMPORTS, BARE],
  ['no import of all names', STATEMENTS, 'imports ImportNamespaceSpecifier (part n (part s none)) = only (term "import" ∷ sp ∷ put specifier ∷ from_source)\n', '', IMPORTS, BARE],
  ['no import of names', STATEMENTS, 'imports ImportSpecifier parts = only (term "import" ∷ sp ∷ named_imports parts)\n', '', IMPORTS, BARE],
  ['no import of a default and no names', STATEMENTS, 'behind_default Literal (part s none) = from_source ∷ (sign "," ∷ sp ∷ braces ++ from_source) ∷ []', 'behind_default Literal (part s none) = from_source ∷ []', IMPORTS, BARE],
  ['no import of a default and all names', STATEMENTS, 'behind_default ImportNamespaceSpecifier (part n (part s none)) = (sign "," ∷ sp ∷ put specifier ∷ from_source) ∷ []\n', '', IMPORTS, BARE],
  ['no import of a default and names', STATEMENTS, 'behind_default ImportSpecifier parts = (sign "," ∷ sp ∷ named_imports parts) ∷ []\n', '', IMPORTS, BARE],
  ['an import\'s braces hold anything', STATEMENTS, 'of_kind ImportSpecifier = put specifier\n    of_kind _ = never', 'of_kind _ = put specifier', MODULES, BARE],
  ['an import of a reserved word', STATEMENTS, 'specifiers ImportSpecifier Shorthand (part n none) = only (put name ∷ [])', 'specifiers ImportSpecifier Shorthand (part n none) = only (module_name n ∷ [])', IMPORTS, BARE],
  ['no import of a string', STATEMENTS, 'specifiers ImportSpecifier Init (part m (part n none)) = only (module_name m ∷', 'specifiers ImportSpecifier Init (part m (part n none)) = only (put name ∷', IMPORTS, BARE],
  ['an import goes on with (', STATEMENTS, 'put directive_string ∷ end_of Closed ∷ []\n\nabbrev pub braces', 'put directive_string ∷ end_of Other ∷ []\n\nabbrev pub braces', IMPORTS, BARE],
  // exports
  ['from behind an export\'s names and a break', STATEMENTS, 'sign "}" ∷ absent ∷ ending of_export ∷ []', 'sign "}" ∷ absent ∷ end_of Closed ∷ []', EXPORTS, BARE],
  ['an export of any statement', STATEMENTS, 'exported_declaration _ = never', 'exported_declaration _ = put (item false)', MODULES, BARE],
  ['an export of a function without name', STATEMENTS, 'exported_declaration FunctionDeclaration = put (item false)', 'exported_declaration FunctionDeclaration = put default_item', MODULES, BARE],
  ['no export of a class', STATEMENTS, 'exported_declaration ClassDeclaration = put (item false)\n', '', EXPORTS, BARE],
  ['an export\'s braces hold anything', STATEMENTS, 'of_kind ExportSpecifier = put specifier\n    of_kind _ = never', 'of_kind _ = put specifier', MODULES, BARE],
  ['no export of a string', STATEMENTS, 'specifiers ExportSpecifier Shorthand (part n none) = only (module_name n ∷ [])', 'specifiers ExportSpecifier Shorthand (part n none) = only (put name ∷ [])', EXPORTS, BARE],
  ['no export as a string', STATEMENTS, 'only (module_name m ∷ sp ∷ term "as" ∷ sp ∷ module_name n ∷ [])', 'only (module_name m ∷ sp ∷ term "as" ∷ sp ∷ put name ∷ [])', EXPORTS, BARE],
  ['no export of all as a string', STATEMENTS, 'term "as" ∷ sp ∷ module_name n ∷ from_source', 'term "as" ∷ sp ∷ put name ∷ from_source', EXPORTS, BARE],
  ['no export of all', STATEMENTS, 'is_module_item ExportAllDeclaration = true\n', '', EXPORTS, BARE],
  ['a default function has a name', STATEMENTS, 'of_kind FunctionDeclaration = put default_item ∷ []', 'of_kind FunctionDeclaration = put (item false) ∷ []', DEFAULT, BARE],
  ['a default class has a name', STATEMENTS, 'of_kind ClassDeclaration = put default_item ∷ []', 'of_kind ClassDeclaration = put (item false) ∷ []', DEFAULT, BARE],
  ['a default expression begins with function', STATEMENTS, '(cond (begins_with_brace tree) Any Statement)', 'Any', DEFAULT, BARE],
  ['no default expression begins with {', STATEMENTS, '(cond (begins_with_brace tree) Any Statement)', 'Statement', DEFAULT, BARE],
  ['a default Expression', STATEMENTS, 'put (expr Assignment true (cond (begins_with_brace', 'put (expr Expression true (cond (begins_with_brace', DEFAULT, BARE],
  ['no import.meta', EXPRESSIONS, 'cond (lead_is parts "import" && lead_is (others parts) "meta")', 'cond false', META, BARE],
  // fixed texts
  ['no space behind async', EXPRESSIONS, 'async_word = term "async" ∷ unbroken ∷ sp ∷ []', 'async_word = term "async" ∷ unbroken ∷ []', ARROWS, FIXED],
  ['no space behind await', EXPRESSIONS, '(codes "await") ∷ sp ∷ put (expr Unary', '(codes "await") ∷ put (expr Unary', AWAIT, FIXED],
  ['no space behind yield', EXPRESSIONS, 'term "yield" ∷ sp ∷ unbroken ∷ sub', 'term "yield" ∷ unbroken ∷ sub', YIELD, FIXED],
  ['no space behind static', STATEMENTS, 'cond is_static (term "static" ∷ sp ∷ []) []', 'cond is_static (term "static" ∷ []) []', FIELDS, FIXED],
  ['no space behind default', STATEMENTS, 'term "default" ∷ sp ∷ exported_default d', 'term "default" ∷ exported_default d', DEFAULT, FIXED],
  ['no space behind the as of an import', STATEMENTS, 'only (sign "*" ∷ sp ∷ term "as" ∷ sp ∷ put name ∷ [])', 'only (sign "*" ∷ sp ∷ term "as" ∷ put name ∷ [])', IMPORTS, FIXED],
  // the names of scopes
  ['an import binds nothing', DECLARED, 'own_lexical_names b f g h i (node ImportDeclaration text flags from to parts) = each_part (specifier_names i) parts\n', '', IMPORTS, ERRORS],
  ['an import binds the other name', DECLARED, 'specifier_names f specifier = last_bound_names f', 'specifier_names f specifier = first_bound_names f', IMPORTS, ERRORS],
  ['an export declares nothing', DECLARED, 'declaration_of (node ExportNamedDeclaration text flags from to (part declaration rest)) = declaration\n', '', EXPORTS, ERRORS],
  ['a default export declares nothing', DECLARED, 'declaration_of (node ExportDefaultDeclaration text flags from to (part declaration rest)) = declaration\n', '', DEFAULT, ERRORS],
  ['functions of a module are var names', SCOPES, 'cond z.in_module [] (each_part function_names parts)', 'each_part function_names parts', MODULES, ERRORS, 'scope_lexical z Program parts = each_part (lexical_names z.in_module) parts', 'scope_lexical z Program parts = each_part (lexical_names false) parts'],
  ['a static block is no scope', SCOPES, 'scope_lexical z StaticBlock parts = each_part (lexical_names false) parts\n', '', BLOCKS, ERRORS],
  ['var goes out of a static block', early('Names'), 'cond (is_function kind || is_static_block kind)', 'cond (is_function kind)', BLOCKS, ERRORS],
  ['E18 not of generators', CLASSES, '(is_accessor flags.form || not (is_init (value_form parts)))', 'is_accessor flags.form', FIELDS, ERRORS],
  ['E19 not of fields', CLASSES, 'static_prototype (node PropertyDefinition', 'static_prototype (node StaticBlock', FIELDS, ERRORS, 'Kind.TheVariants.{PropertyDefinition,', 'Kind.TheVariants.{StaticBlock,'],
  ['E21 of the flag d', LITERALS, 'known_flags true = codes "dgimsuy"', 'known_flags true = codes "gimsuy"', 'tokens', ERRORS],
  // early errors 22 to 37
  ['E22 left out', YIELDS, 'when (not z.yields)', 'when false', YIELD, ERRORS],
  ['E22 in parameters', AROUND, 'cond (z.is_body && not (is_parameter kind)) (record z', 'cond z.is_body (record z', YIELD, ERRORS],
  ['E22 in the parameters of an arrow', AROUND, 'of_async = is_async flags.form; yields = false; awaits = false }', 'of_async = is_async flags.form; yields = z.yields; awaits = false }', 'async arrows,generators', ERRORS],
  ['E22 of async generators', USES, 'is_generator AsyncGenerator = true\n', '', FUNCTIONS, ERRORS],
  ['E23 of await left out', YIELDS, 'when (not z.awaits)', 'when false', AWAIT, ERRORS],
  ['E23 of for await left out', YIELDS, 'when (is_async flags.form && not z.awaits)', 'when false', EACH, ERRORS],
  ['E23 of for await at its end', YIELDS, 'when (is_async flags.form && not z.awaits) (from ∷ [])', 'when (is_async flags.form && not z.awaits) (to ∷ [])', EACH, ERRORS],
  ['E23 at the top of a module', AROUND, 'awaits = is text "module" }', 'awaits = false }', AWAIT, ERRORS],
  ['E23 not in static blocks', AROUND, 'in_init z = record (fresh z) {', 'in_init z = record (fresh z) { awaits = z.awaits;', BLOCKS, ERRORS],
  ['E24 left out', IN_FIELDS, 'named n "constructor"', 'named n "konstructor"', FIELDS, ERRORS],
  ['E24 of computed keys', IN_FIELDS, 'when (not flags.computed && has_key', 'when (has_key', FIELDS, ERRORS],
  ['E24 at the field', IN_FIELDS, '(key_places parts)', '(from ∷ [])', FIELDS, ERRORS],
  ['E24 of private names', CLASSES, 'named n s = not (is_private (kind_of n)) && is', 'named n s = is', PRIVATE, ERRORS],
  ['E25 left out', PRIVATES, 'when (is x.name "constructor") (x.at ∷ [])', '[]', PRIVATE, ERRORS],
  ['E25 of the first element alone', PRIVATES, '(x.at ∷ []) ++ named_constructor xs', '(x.at ∷ [])', PRIVATE, ERRORS],
  ['E26 left out', PRIVATES, 'when (is_any (of_name x.name before) && not', 'when (false && not', PRIVATE, ERRORS],
  ['E26 of a getter with its setter', PRIVATES, ' && not (is_pair (of_name x.name all)))', ')', PRIVATE, ERRORS],
  ['E26 not of a static and another', PRIVATES, ' && ((x.is_static && y.is_static) || not (x.is_static || y.is_static))', '', PRIVATE, ERRORS],
  ['E26 of a setter before its getter', PRIVATES, '((x.gets && y.sets) || (x.sets && y.gets))', '(x.gets && y.sets)', PRIVATE, ERRORS],
  ['E27 left out', PRIVATES, 'when (not (holds_name z.privates text))', 'when false', PRIVATE, ERRORS],
  ['E27 of the class around', AROUND, 'privates = private_keys parts ++ z.privates', 'privates = private_keys parts', PRIVATE, ERRORS],
  ['E27 in functions', AROUND, 'in_module = z.in_module; privates = z.privates }', 'in_module = z.in_module; privates = [] }', PRIVATE, ERRORS],
  ['E28 left out', AROUND, 'new_target = true; no_arguments = true }', 'new_target = true }', FIELDS, ERRORS],
  ['E28 of words', IN_FIELDS, 'z.no_arguments && not z.is_word && is', 'z.no_arguments && is', FIELDS, ERRORS],
  ['E28 in a key', AROUND, 'around_first z PropertyDefinition flags parts = key_of z flags.computed\n', '', FIELDS, ERRORS],
  ['E28 not in static blocks', AROUND, 'around_others z StaticBlock flags parts = in_init z', 'around_others z StaticBlock flags parts = record (in_init z) { no_arguments = false }', BLOCKS, ERRORS],
  ['E29 left out', PRIVATES, 'when (is text "delete" && private_operand parts)', 'when false', PRIVATE, ERRORS],
  ['E29 not of a chain', PRIVATES, 'private_member (node ChainExpression text flags from to (part m ps)) = ends_in_private m\n', '', PRIVATE, ERRORS],
  ['E29 of any operator', PRIVATES, 'when (is text "delete" && private_operand parts)', 'when (private_operand parts)', PRIVATE, ERRORS],
  ['E30 left out', OF_MODULES, 'is (text_of n) "import") && not z.in_module)', 'is (text_of n) "import") && false)', META, ERRORS],
  ['E30 in functions of a module', AROUND, 'of_2022 = z.of_2022; in_module = z.in_module; privates', 'of_2022 = z.of_2022; in_module = false; privates', META, ERRORS],
  ['E30 of new.target', OF_MODULES, 'when (has_key parts (λ n. is (text_of n) "import") && not z.in_module)', 'when (not z.in_module)', META, ERRORS],
  ['E31 of a default left out', OF_MODULES, '= (codes "default", from) ∷ []', '= []', EXPORTS, ERRORS],
  ['E31 of all as a name left out', OF_MODULES, '(part n ps)) = module_name_at n ∷ []', '(part n ps)) = []', EXPORTS, ERRORS],
  ['E31 of declarations left out', OF_MODULES, '= map in_units (declared_names parts)', '= []', EXPORTS, ERRORS],
  ['E31 at the end of a default', OF_MODULES, '= (codes "default", from) ∷ []', '= (codes "default", to) ∷ []', EXPORTS, ERRORS],
  ['E31 of the name before as', OF_MODULES, '(λ x. module_name_at x ∷ []) (last_part parts)', '(λ x. module_name_at x ∷ []) (first_tree (node ExportSpecifier text flags from to parts))', EXPORTS, ERRORS],
  ['E31 by bytes', OF_MODULES, '(literal_units (codes "\'" ++ text_of tree ++ codes "\'"))', '(text_of tree)', NAMES, ERRORS],
  ['E32 not of await', OF_MODULES, ' || is_keyword (text_of tree)', '', EXPORTS, ERRORS],
  ['E32 not of strings', OF_MODULES, 'not (is_identifier (kind_of tree)) || is_reserved', 'is_reserved', EXPORTS, ERRORS],
  ['E32 with a source', OF_MODULES, 'cond (no_source ps) (each_part first_tree ps) []', 'each_part first_tree ps', EXPORTS, ERRORS],
  ['E33 left out', OF_MODULES, 'starts_of (filter (λ x. not (is_no_name x || has_name', 'starts_of (filter (λ x. false && not (is_no_name x || has_name', EXPORTS, ERRORS],
  ['E33 of functions', OF_MODULES, 'each_part (lexical_names true) parts ++ parts_vars parts', 'each_part (lexical_names false) parts ++ parts_vars parts', EXPORTS, ERRORS],
  ['E33 of var', OF_MODULES, 'each_part (lexical_names true) parts ++ parts_vars parts', 'each_part (lexical_names true) parts', EXPORTS, ERRORS],
  ['E34 not of exports', OF_MODULES, 'lone_surrogate (node ExportSpecifier text flags from to parts) = lone_parts parts\n', '', EXPORTS, ERRORS],
  ['E34 of a pair', OF_MODULES, 'cond (is_high c) (is_low d && is_well_formed cs)', 'cond (is_high c) false', IMPORTS, ERRORS],
  ['E34 of a source', OF_MODULES, 'lone_parts (first_only parts)', 'lone_parts parts', EXPORTS, ERRORS],
  ['E34 not of a low half', OF_MODULES, 'not (is_high c || is_low c)', 'not (is_high c)', EXPORTS, ERRORS],
  ['E35 in the base profile', YIELDS, 'when (z.of_2022 && not (is_async flags.form)', 'when (not (is_async flags.form)', EACH, ERRORS],
  ['E35 of for await', YIELDS, 'when (z.of_2022 && not (is_async flags.form) && is_identifier', 'when (z.of_2022 && is_identifier', EACH, ERRORS],
  ['E35 at the loop', YIELDS, 'is (text_of n) "async") (start_of n ∷ [])', 'is (text_of n) "async") (from ∷ [])', EACH, ERRORS],
  ['E35 of any name', YIELDS, ' && is (text_of n) "async") (start_of n', ') (start_of n', 'for await,generators', ERRORS],
  ['E36 left out', OBJECTS, 'when z.of_2022 (after_first', 'when false (after_first', PROTO, ERRORS],
  ['E36 in the base profile', OBJECTS, 'when z.of_2022 (after_first', 'when true (after_first', PROTO, ERRORS],
  ['E36 of the first', OBJECTS, '(after_first (each_part proto_places parts))', '(each_part proto_places parts)', PROTO, ERRORS],
  ['E36 of keys in brackets', OBJECTS, '(not (flags_of tree).computed && has_key', '(has_key', PROTO, ERRORS],
  ['E36 of spreads', OBJECTS, 'is_property (kind_of tree) && is_init', 'is_init', PROTO, ERRORS],
  ['E36 of methods', OBJECTS, 'is_property (kind_of tree) && is_init (flags_of tree).form', 'is_property (kind_of tree)', PROTO, ERRORS],
  ['E36 of patterns', OBJECTS, 'duplicate_proto z (node ObjectExpression text', 'duplicate_proto z (node ObjectPattern text', PROTO, ERRORS, 'TheVariants.{ObjectExpression, Property}', 'TheVariants.{ObjectPattern, Property}'],
  ['E37 left out', LITERALS, 'when (z.of_2022 && (is_reg_exp', 'when (false && (is_reg_exp', PATTERNS, ERRORS],
  ['E37 in the base profile', LITERALS, 'when (z.of_2022 && (is_reg_exp (literal_class text) && has_pattern_fault text))', 'when (is_reg_exp (literal_class text) && has_pattern_fault text)', PATTERNS, ERRORS],
  ['E37 of any literal', LITERALS, '(is_reg_exp (literal_class text) && has_pattern_fault text)', 'has_pattern_fault text', PATTERNS, ERRORS],
  ['E37 at the end', LITERALS, 'has_pattern_fault text)) (from ∷ [])', 'has_pattern_fault text)) (to ∷ [])', PATTERNS, ERRORS],
  ['E37: a lead surrogate ends before 0xDBFF', pattern('Characters'), 'is_lead v = nat_le 0xD800 v && nat_le v 0xDBFF', 'is_lead v = nat_le 0xD800 v && nat_le v 0xDBFE', PATTERNS, ERRORS],
  ['E37: surrogates don\'t pair', pattern('Characters'), 'paired lead rest (Some (trail, behind)) = (0x10000 + 0x400 * (lead - 0xD800) + (trail - 0xDC00), behind)', 'paired lead rest (Some (trail, behind)) = (lead, rest)', PATTERNS, ERRORS],
  ['E37: a code point beyond 0x10FFFF', pattern('Characters'), 'nat_le (hex_value 0 digits) 0x10FFFF', 'nat_le (hex_value 0 digits) 0x110000', PATTERNS, ERRORS],
  ['E37: braces without u', pattern('Characters'), 'if u && one_of "{" c then braced cs', 'if one_of "{" c then braced cs', PATTERNS, ERRORS],
  ['E37: braces around nothing', pattern('Characters'), 'code_point digits behind =\n    if not (is_empty digits) &&', 'code_point digits behind =\n    if', PATTERNS, ERRORS],
  ['E37: \\0 before a digit', pattern('Characters'), '(if begins_with is_decimal_digit cs then None else Some (Some 0, cs))', 'Some (Some 0, cs)', PATTERNS, ERRORS],
  ['E37: an identity escape by XID', pattern('Characters'), 'is_identity_escape false c = not (is_id_continue c)', 'is_identity_escape false c = not (is_xid_continue c)', PATTERNS, ERRORS],
  ['E37: \\- outside of classes with u', pattern('Characters'), 'is_identity_escape true c = one_of "^$\\\\.*+?()[]{}|/" c', 'is_identity_escape true c = one_of "^$\\\\.*+?()[]{}|/-" c', PATTERNS, ERRORS],
  ['E37: \\p without u', pattern('Characters'), 'else if u && one_of "pP" c then property cs', 'else if one_of "pP" c then property cs', PATTERNS, ERRORS],
  ['E37: a range turned round', pattern('Classes'), 'next_member (dashed a) v = if in_order a v then Some fresh else None', 'next_member (dashed a) v = if in_order v a then Some fresh else None', PATTERNS, ERRORS],
  ['E37: a range begins another', pattern('Classes'), 'next_member (dashed a) v = if in_order a v then Some fresh else None', 'next_member (dashed a) v = if in_order a v then Some (member v) else None', PATTERNS, ERRORS],
  ['E37: a character is no two units', pattern('Classes'), 'units false c = encode_utf16 c', 'units false c = c ∷ []', PATTERNS, ERRORS],
  ['E37: \\- at the end of a class', pattern('Classes'), 'else if u && one_of "-" c then Some (Some 0x2D, cs)', 'else if one_of "-" c && (length cs == 0) then Some (Some 0x2D, cs)', PATTERNS, ERRORS],
  ['E37: a class has no ^', pattern('Classes'), 'if begins_with (one_of "^") text then drop 1 text else text', 'text', PATTERNS, ERRORS],
  ['E37: a name begins as it goes on', pattern('Names'), 'is_start c = one_of "$_" c || is_id_start c', 'is_start c = is_part c', PATTERNS, ERRORS],
  ['E37: \\u{} in names with u alone', pattern('Names'), 'then unicode_escape true cs else None', 'then unicode_escape false cs else None', PATTERNS, ERRORS],
  ['E37: a name ends with >', pattern('Names'), 'Some (encode_utf8_all name, behind)', 'Some (encode_utf8_all name, 0x3E ∷ behind)', PATTERNS, ERRORS],
  ['E37: {n,m} turned round', pattern('Terms'), 'nat_le (decimal_value 0 least) (decimal_value 0 (digits text))', 'nat_le (decimal_value 0 (digits text)) (decimal_value 0 least)', PATTERNS, ERRORS],
  ['E37: {n,m} by lengths', pattern('Terms'), 'nat_le (decimal_value 0 least) (decimal_value 0 (digits text))', 'nat_le (length least) (length (digits text))', PATTERNS, ERRORS],
  ['E37: no lazy {n}?', pattern('Terms'), 'Some (behind_lazy (drop 1 text))', 'Some (drop 1 text)', PATTERNS, ERRORS],
  ['E37: } is an atom', pattern('Terms'), 'else if one_of "]}" c then None', 'else if one_of "]" c then None', PATTERNS, ERRORS],
  ['E37: a lookbehind is a group', pattern('Terms'), 'if begins_with (one_of "=!") text then Some (looking, drop 1 text)', 'if begins_with (one_of "=!") text then Some (grouping, drop 1 text)', PATTERNS, ERRORS],
  ['E37: \\0 is a reference', pattern('Terms'), 'else if is_non_zero_digit c then', 'else if is_decimal_digit c then', PATTERNS, ERRORS],
  ['E37: a lookaround is an atom', pattern('Patterns'), 'closed zero (groups ∷ around) = Some (record { repeatable = false;', 'closed zero (groups ∷ around) = Some (record { repeatable = true;', PATTERNS, ERRORS],
  ['E37: an assertion is repeatable', pattern('Patterns'), 'nest z assertion = Some (record z { repeatable = false })', 'nest z assertion = Some z', PATTERNS, ERRORS],
  ['E37: a reference beyond the groups', pattern('Patterns'), '(Some (reference n)) = not (nat_le n groups)', '(Some (reference n)) = not (nat_le n (groups + 1))', PATTERNS, ERRORS],
  ['E37: a name twice', pattern('Patterns'), '(Some (naming name)) = has before name', '(Some (naming name)) = false', PATTERNS, ERRORS],
  ['E37: a name referred to before it stands', pattern('Patterns'), '(Some (name_reference name)) = not (has names name)', '(Some (name_reference name)) = not (has before name)', PATTERNS, ERRORS],
  ['E37: an open lookaround at the end', pattern('Patterns'), 'is_closed z = nat_eq z.groups 0 && is_empty z.around', 'is_closed z = nat_eq z.groups 0', PATTERNS, ERRORS],
  ['E37: gc=ASCII', pattern('PropertyNames'), 'if lists "General_Category gc" name then lists categories value', 'if lists "General_Category gc" name then is_lone_property value', PATTERNS, ERRORS],
  ['E37: properties by their beginnings', pattern('PropertyNames'), 'behind_letter c (Some []) = None', 'behind_letter c (Some []) = Some []', PATTERNS, ERRORS],
  ['E37: the last script', pattern('PropertyNames'), 'lists_behind word left [] = is_met left', 'lists_behind word left [] = false', PATTERNS, ERRORS],
  // what rows showed only since they were written for it: what a node forgets, words, labels, names, halves of characters, left and right edges
  ['a function stays in its loop', AROUND, 'around_others z FunctionDeclaration flags parts = record (fresh z) { new_target', 'around_others z FunctionDeclaration flags parts = record (fresh z) { in_loop = z.in_loop; new_target', BASE, ERRORS],
  ['a function stays in its switch', AROUND, 'around_others z FunctionDeclaration flags parts = record (fresh z) { new_target', 'around_others z FunctionDeclaration flags parts = record (fresh z) { in_switch = z.in_switch; new_target', BASE, ERRORS],
  ['a function expression stays in its switch', AROUND, 'around_others z FunctionExpression flags parts = record (fresh z) { of_generator', 'around_others z FunctionExpression flags parts = record (fresh z) { in_switch = z.in_switch; of_generator', BASE, ERRORS],
  ['a function expression keeps labels', AROUND, 'around_others z FunctionExpression flags parts = record (fresh z) { of_generator', 'around_others z FunctionExpression flags parts = record (fresh z) { labels = z.labels; of_generator', BASE, ERRORS],
  ['a function expression stays in a generator', AROUND, 'around_others z FunctionExpression flags parts = record (fresh z) { of_generator', 'around_others z FunctionExpression flags parts = record (fresh z) { yields = z.yields; of_generator', YIELD, ERRORS],
  ['a function expression stays in an async function', AROUND, 'around_others z FunctionExpression flags parts = record (fresh z) { of_generator', 'around_others z FunctionExpression flags parts = record (fresh z) { awaits = z.awaits; of_generator', AWAIT, ERRORS],
  ['a static block stays in a switch', AROUND, 'in_init z = record (fresh z) { super_property', 'in_init z = record (fresh z) { in_switch = z.in_switch; super_property', BLOCKS, ERRORS],
  ['an arrow stays in its switch', AROUND, 'around_others z ArrowFunctionExpression flags parts = record (within z) { in_loop = false; in_switch = false; labels', 'around_others z ArrowFunctionExpression flags parts = record (within z) { in_loop = false; labels', BASE, ERRORS],
  ['an async arrow stays in its loop', AROUND, 'around_others z ArrowFunctionExpression flags parts = record (within z) { in_loop = false;', 'around_others z ArrowFunctionExpression flags parts = record (within z) { in_loop = z.in_loop && is_async flags.form;', ARROWS, ERRORS],
  ['an async arrow keeps labels', AROUND, 'around_others z ArrowFunctionExpression flags parts = record (within z) { in_loop = false; in_switch = false; labels = [];', 'around_others z ArrowFunctionExpression flags parts = record (within z) { in_loop = false; in_switch = false; labels = cond (is_async flags.form) z.labels [];', ARROWS, ERRORS],
  ['no super() in an async arrow', AROUND, 'around_others z ArrowFunctionExpression flags parts = record (within z) { in_loop', 'around_others z ArrowFunctionExpression flags parts = record (within z) { super_call = z.super_call && not (is_async flags.form); in_loop', ARROWS, ERRORS],
  ['no super.a in an arrow of a field', AROUND, 'around_others z ArrowFunctionExpression flags parts = record (within z) { in_loop', 'around_others z ArrowFunctionExpression flags parts = record (within z) { super_property = z.super_property && not z.no_arguments; in_loop', FIELDS, ERRORS],
  ['E15 not of a function in a constructor', AROUND, 'super_call = z.of_method && z.super_call', 'super_call = z.super_call', BASE, ERRORS],
  ['E14 not of a function in a field', AROUND, 'super_property = z.of_method && z.super_property', 'super_property = z.super_property', FIELDS, ERRORS],
  ['a function is of the base profile', AROUND, 'fresh z = record outside { of_2022 = z.of_2022; in_module', 'fresh z = record outside { in_module', EACH, ERRORS],
  ['a tagged template is a function', AROUND, 'around_others z TaggedTemplateExpression flags parts = record (within z)', 'around_others z TaggedTemplateExpression flags parts = record (fresh z)', YIELD, ERRORS],
  ['a tag is a template behind a tag', AROUND, 'around_first z TaggedTemplateExpression flags parts = within z\n', '', BASE, ERRORS],
  ['what stands in a template behind a tag is one', AROUND, 'within z = record z { derived = false; tagged = false;', 'within z = record z { derived = false;', BASE, ERRORS],
  ['what stands in a body is one', AROUND, 'is_body = false; in_head = false; of_method = false; is_word = false }\n\nabbrev pub as_word', 'in_head = false; of_method = false; is_word = false }\n\nabbrev pub as_word', BASE, ERRORS],
  ['what stands in the head of a loop is one', AROUND, 'is_body = false; in_head = false; of_method = false; is_word = false }\n\nabbrev pub as_word', 'is_body = false; of_method = false; is_word = false }\n\nabbrev pub as_word', BASE, ERRORS],
  ['E28 not in the key of a field', AROUND, 'around_first z PropertyDefinition flags parts = key_of z flags.computed', 'around_first z PropertyDefinition flags parts = as_word z', FIELDS, ERRORS],
  ['E28 not in the key of a property', AROUND, 'around_first z Property flags parts = key_of z flags.computed', 'around_first z Property flags parts = as_word z', FIELDS, ERRORS],
  ['E28 not of the object of a member', AROUND, 'around_first z MemberExpression flags parts = within z\n', '', FIELDS, ERRORS],
  ['E28 not between brackets', AROUND, 'cond flags.computed (within z) (as_word z)\naround_others z Labeled', 'as_word z\naround_others z Labeled', FIELDS, ERRORS],
  ['E28 of a label', AROUND, 'around_first z LabeledStatement flags parts = as_word z\n', '', BLOCKS, ERRORS],
  ['E28 of the label of a break', AROUND, 'around_first z BreakStatement flags parts = as_word z\n', '', BLOCKS, ERRORS],
  ['E28 of the label of a continue', AROUND, 'around_first z ContinueStatement flags parts = as_word z\n', '', BLOCKS, ERRORS],
  ['any key is a private name', AROUND, 'cond (is_private (kind_of k)) (text_of k ∷ []) []', 'text_of k ∷ []', PRIVATE, ERRORS],
  ['a label of a label labels a loop', AROUND, 'is_loop kind || (is_label kind && last_loop parts)', 'is_loop kind || is_label kind', BASE, ERRORS],
  ['a do is no loop', KINDS, 'is_loop kind.DoWhileStatement = true\n', '', BASE, ERRORS],
  ['continue goes to any label', LABELS, '(bytes_eq l.0 text && l.1) || labels_a_loop ls text', 'bytes_eq l.0 text || labels_a_loop ls text', BASE, ERRORS],
  ['continue goes to any loop', LABELS, '(bytes_eq l.0 text && l.1) || labels_a_loop ls text', 'l.1 || labels_a_loop ls text', BASE, ERRORS],
  ['E8 looks at the first parameter alone', FUNCTIONS_OF, 'is_identifier (kind_of tree) && is_simple rest', 'is_identifier (kind_of tree)', BASE, ERRORS],
  ['E7 of functions', FUNCTIONS_OF, 'each_part (lexical_names false) (body_items', 'each_part (lexical_names true) (body_items', BASE, ERRORS],
  ['E1 not of the name of a function expression', STRICT, 'names_given FunctionExpression parts = first_names parts ++ parameter_names', 'names_given FunctionExpression parts = parameter_names', BASE, ERRORS],
  ['E1 not of the parameters of a function expression', STRICT, 'names_given FunctionExpression parts = first_names parts ++ parameter_names (others parts)', 'names_given FunctionExpression parts = first_names parts', BASE, ERRORS],
  ['E3 not of functions in a switch', SCOPES, '(λ c. each_part (lexical_names true) (others (parts_of c)))', '(λ c. each_part (lexical_names false) (others (parts_of c)))', BASE, ERRORS],
  ['E4 not of functions in a body', SCOPES, 'cond z.is_body (each_part function_names parts) []', '[]', BASE, ERRORS],
  ['E12 not of functions', SCOPES, '(each_part (lexical_names true) (body_items parts) ++ parts_vars', '(each_part (lexical_names false) (body_items parts) ++ parts_vars', BASE, ERRORS],
  ['E21 of the first flag alone', LITERALS, '(not (holds w c) && are_among known w)', 'not (holds w c)', BASE, ERRORS],
  ['E34 of any second half', OF_MODULES, 'cond (is_high c) (is_low d && is_well_formed cs)', 'cond (is_high c) (is_well_formed cs)', EXPORTS, ERRORS],
  ['E34 of the first pair alone', OF_MODULES, 'cond (is_high c) (is_low d && is_well_formed cs)', 'cond (is_high c) (is_low d)', EXPORTS, ERRORS],
  ['E34 not of a first half that is low', OF_MODULES, '(not (is_low c) && is_well_formed (d ∷ cs))', '(is_well_formed (d ∷ cs))', EXPORTS, ERRORS],
  ['E34 of each second unit', OF_MODULES, '(not (is_low c) && is_well_formed (d ∷ cs))', '(not (is_low c) && is_well_formed cs)', EXPORTS, ERRORS],
  ['E34 of strings of one unit', OF_MODULES, 'cond (is_high c) (is_low d && is_well_formed cs) (not (is_low c) && is_well_formed (d ∷ cs))', 'true', IMPORTS, ERRORS],
  ['high halves begin before 0xD800', OF_MODULES, 'nat_le 0xD800 c', 'nat_le 0xD7FF c', EXPORTS, ERRORS],
  ['high halves go on to 0xDC00', OF_MODULES, 'nat_le c 0xDBFF', 'nat_le c 0xDC00', EXPORTS, ERRORS],
  ['high halves end before 0xDBFF', OF_MODULES, 'nat_le c 0xDBFF', 'nat_le c 0xDBFE', EXPORTS, ERRORS],
  ['low halves begin before 0xDC00', OF_MODULES, 'nat_le 0xDC00 c', 'nat_le 0xDBFF c', EXPORTS, ERRORS],
  ['low halves end before 0xDFFF', OF_MODULES, 'nat_le c 0xDFFF', 'nat_le c 0xDFFE', EXPORTS, ERRORS],
  ['low halves go on to 0xE000', OF_MODULES, 'nat_le c 0xDFFF', 'nat_le c 0xE000', EXPORTS, ERRORS],
  ['low halves never end', OF_MODULES, 'nat_le 0xDC00 c && nat_le c 0xDFFF', 'nat_le 0xDC00 c', EXPORTS, ERRORS],
  ['a function exports its parameters', OF_MODULES, 'map in_units (first_names parts)', 'map in_units (first_names parts ++ each_part (λ x. (text_of x, start_of x) ∷ []) parts)', EXPORTS, ERRORS],
  ['a binary expression ends otherwise than its right side', EDGES, 'goes_right BinaryExpression = true\n', '', BASE, BARE],
  ['a++ goes on with a digit', EDGES, 'begins token 47\ngoes_on Other', 'begins token 48\ngoes_on Other', BASE, BARE],
  ['no brace behind ++', EXPRESSIONS, '(apart (cond (is text "++") 43 45)) ∷ put (expr LeftHandSide true Any)', '(apart (cond (is text "++") 43 45)) ∷ put (expr LeftHandSide true NoBrace)', BASE, BARE],
  ['an export goes on with any word', EDGES, 'not (is_word t && is t.text "from")', 'not (is_word t || is t.text "from")', EXPORTS, BARE],
  ['a number begins no key', EDGES, '    of_class NumericLiteral = true\n', '', FIELDS, BARE],
  ['await begins no key', EDGES, '    of_class Keyword = true\n', '', FIELDS, BARE],
  ['directives behind an import', STATEMENTS, 'module_prologue (b && is_directive tree) rest', 'module_prologue (b && (is_directive tree || is_module_item (kind_of tree))) rest', MODULES, BARE],
  ['two underscores behind .0', NUMBERS, 'next_numeral fraction_separator c = if is_decimal_digit c then fraction else', 'next_numeral fraction_separator c = if is_decimal_digit c then point else', BASE, WITH_TOKENS],
  ['ConditionalExpression begins with no brace', FIRST_PART, 'goes_left ConditionalExpression flags = true\n', '', DEFAULT, BARE],
  ['LogicalExpression begins with no brace', FIRST_PART, 'goes_left LogicalExpression flags = true\n', '', DEFAULT, BARE],
  ['ChainExpression begins with no brace', FIRST_PART, 'goes_left ChainExpression flags = true\n', '', DEFAULT, BARE],
  ['TaggedTemplateExpression begins with no brace', FIRST_PART, 'goes_left TaggedTemplateExpression flags = true\n', '', DEFAULT, BARE],
  ['AssignmentExpression begins with no brace', FIRST_PART, 'goes_left AssignmentExpression flags = true\n', '', DEFAULT, BARE],
  ['a++ begins with no brace', FIRST_PART, 'goes_left UpdateExpression flags = not flags.prefix\n', '', DEFAULT, BARE],
  ['an object pattern is no brace', FIRST_PART, 'is_braced ObjectPattern = true\n', '', DEFAULT, BARE],
  ['the operand of yield * with In', EXPRESSIONS, 'sign "*" ∷ sp ∷ sub (tail Assignment Any)', 'sign "*" ∷ sp ∷ put (expr Assignment true Any)', YIELD, BARE],
];

let bad = 0;
const copy = copyOf(path.join(__dirname, '../../crates'), crates);
const specs = crates.map((c) => path.join(copy, c));
const rows = rowsOfLanguages();

// What languages.js says with this fault: the first disagreement, or null
function one([what, file, old, other, sections, looks, ...more]) {
  const target = path.join(copy, file);
  const whole = fs.readFileSync(target, 'utf8');
  let text = whole;
  const changes = [[old, other]];
  for (let k = 0; k < more.length; k += 2) changes.push([more[k], more[k + 1]]);
  for (const [from, to] of changes) {
    const found = text.split(from).length - 1;
    if (found !== 1) { bad += 1; return `found ${found} times: ${what}`; }
    text = text.replace(from, () => to);
  }
  fs.writeFileSync(target, text);
  try {
    const names = sections.split(/,(?! )/);
    const found = firstOf(specs, rows.filter((row) => names.includes(row.section)), looks);
    if (found === null) bad += 1;
    return found === null ? `NOT SEEN  ${what}` : `seen      ${what}   ${found.slice(0, 120)}`;
  } catch (error) {
    bad += 1;
    return `BROKEN    ${what}: ${String(error.message).slice(0, 300)}`;
  } finally { fs.writeFileSync(target, whole); }
}
const [part, of] = partOf(argv, specs);
const faults = chosen(FAULTS, value('--only', null)).filter((_, i) => i % of === part);
for (const fault of faults) { const line = one(fault); if (!line.startsWith('seen ') || !argv.includes('--brief')) console.log(line); }
const own = value('--only', null) === null ? firstOf(specs, rows.filter((_, i) => i % of === part), {}) : null;
if (own !== null) { bad += 1; console.log(`SEEN      (nothing planted)   ${own}`); }
fs.rmSync(copy, { recursive: true });
console.log(`${faults.length} faults${value('--only', null) === null ? ', and nothing planted' : ''}; of these ${bad} otherwise than they should`);
process.exitCode = bad === 0 ? 0 : 1;
