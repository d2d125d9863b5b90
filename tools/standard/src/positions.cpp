#include "positions.hpp"
#include <algorithm>
#include <sstream>

namespace standard {
namespace {
const char *const PROBES[] = {"",
                              "a",
                              "a , b",
                              "a = b",
                              "a += b",
                              "a ? b : c",
                              "a ?? b",
                              "a || b",
                              "a && b",
                              "a | b",
                              "a ^ b",
                              "a & b",
                              "a == b",
                              "a < b",
                              "a in b",
                              "a instanceof b",
                              "a << b",
                              "a + b",
                              "a * b",
                              "a ** b",
                              "- a",
                              "typeof a",
                              "delete a . b",
                              "++ a",
                              "a ++",
                              "a ( )",
                              "a ?. b",
                              "a ?. ( )",
                              "new a",
                              "new a ( )",
                              "a . b",
                              "a `t`",
                              "( a )",
                              "( a , b )",
                              "( a in b )",
                              "{ }",
                              "{ a }",
                              "{ a = 1 }",
                              "{ a : b }",
                              "{ ... a }",
                              "[ ]",
                              "[ a ]",
                              "[ a = 1 ]",
                              "[ , ]",
                              "( { a } )",
                              "( [ a ] )",
                              "function ( ) { }",
                              "function f ( ) { }",
                              "class { }",
                              "class A { }",
                              "x => x",
                              "x => { }",
                              "( ) => { }",
                              "( a , b ) => a in b",
                              "x => a , b",
                              "a ? b : c in d",
                              "a = b in c",
                              "( ... a ) => a",
                              "( a , ) => a",
                              "( a = b in c , ) => d",
                              "( a = b in c , ... d ) => d",
                              "( a = b in c , ... [ d ] ) => d",
                              "async",
                              "await",
                              "of",
                              "let",
                              "yield",
                              "/r/",
                              "`t`",
                              "`${ a }`",
                              "this",
                              "super . a",
                              "super ( )",
                              "new . target",
                              "import ( a )",
                              "null",
                              "1",
                              "'s'",
                              "... a",
                              "... [ a ]",
                              "... { a }",
                              "... a . b",
                              "a . b = 1",
                              "if",
                              "get a",
                              "static a ( ) { }",
                              "get a ( ) { }",
                              "set a ( b ) { }",
                              "constructor ( ) { }",
                              "a ( ) { }",
                              "[ a ] ( ) { }",
                              "'s' : a",
                              "[ a ] : b",
                              "a : b",
                              "a : ;",
                              "a : b in c",
                              "return ;",
                              "return",
                              "var a ;",
                              "let a ;",
                              "const a = 1 ;",
                              "break ;",
                              "continue ;",
                              "throw a ;",
                              "debugger ;",
                              "if ( a ) ;",
                              "if ( a ) ; else ;",
                              "while ( a ) ;",
                              "do ; while ( a )",
                              "do ; while ( a ) ;",
                              "for ( ; ; ) ;",
                              "for ( a in b ) ;",
                              "for ( a of b ) ;",
                              "switch ( a ) { }",
                              "try { } finally { }",
                              "try { return ; } catch { return ; }",
                              "try { } catch { return ; } finally { return ; }",
                              ";",
                              "; ;",
                              "a ;",
                              "a \n b",
                              "eval",
                              "arguments",
                              "a ,",
                              ", a",
                              "var a",
                              "let a",
                              "const a",
                              "let [ a ]",
                              "var { a } = b",
                              "var a = b in c",
                              "let a = b in c",
                              "( a ) = b",
                              "a . b . c",
                              "a [ b ]",
                              "a [ b , c ]",
                              "a ? . 5 : b",
                              "extends a",
                              "extends a . b",
                              "extends a ( )",
                              "extends { }",
                              "extends a , b",
                              "extends ( a , b )",
                              "extends - a",
                              "extends new a",
                              "extends a ?. b",
                              "extends x => x"};
// What is tried beside them in the languages of 2022.
const char *const PROBES_2022[] = {"yield",
                                   "yield a",
                                   "yield * a",
                                   "yield \n a",
                                   "yield \n * a",
                                   "await a",
                                   "await \n a",
                                   "await a ** b",
                                   "- await a",
                                   "await /r/",
                                   "a ( await b )",
                                   "async a => b",
                                   "async \n a => b",
                                   "async ( a ) => b",
                                   "async ( a = await b ) => c",
                                   "async ( { a } , [ b ] ) => { }",
                                   "async ( ... a ) => b in c",
                                   "async ( a )",
                                   "async ( { a = 1 } )",
                                   "async function ( ) { }",
                                   "async function f ( ) { await a ; }",
                                   "async \n function f ( ) { }",
                                   "function * ( ) { }",
                                   "function * f ( ) { yield a ; }",
                                   "async function * ( ) { }",
                                   "async function * f ( ) { yield await a ; }",
                                   "a . #a",
                                   "a ?. #a",
                                   "a ?. b . #a",
                                   "delete a . #a",
                                   "delete ( a ?. #a )",
                                   "#a",
                                   "#a in b",
                                   "#b in b",
                                   "a in #a",
                                   "import . meta",
                                   "import . meta . a",
                                   "* a ( ) { }",
                                   "async a ( ) { }",
                                   "async \n a ( ) { }",
                                   "async * a ( ) { }",
                                   "* constructor ( ) { }",
                                   "#a ( ) { }",
                                   "get #a ( ) { }",
                                   "set #a ( b ) { }",
                                   "#constructor",
                                   "static #a",
                                   "static { }",
                                   "static \n { }",
                                   "static { await a ; }",
                                   "static a = arguments",
                                   "a = b",
                                   "a = super . b",
                                   "a = super ( )",
                                   "a = new . target",
                                   "a = x => arguments",
                                   "get",
                                   "set",
                                   "static",
                                   "constructor",
                                   "'constructor'",
                                   "[ a ]",
                                   "[ a ] = b",
                                   "static prototype",
                                   "for await ( a of b ) ;",
                                   "for await ( var a of b ) ;",
                                   "for await ( a in b ) ;",
                                   "for ( async of a ) ;",
                                   "for ( ( async ) of a ) ;",
                                   "for ( async of => a ; ; ) ;",
                                   "/r/d",
                                   "import 's'",
                                   "import a from 's'",
                                   "import * as a from 's'",
                                   "import { a } from 's'",
                                   "import a , { b as c , 's' as d , } from 's'",
                                   "import { await } from 's'",
                                   "export { a }",
                                   "export { a as b } from 's'",
                                   "export { a as '\\ud800' }",
                                   "export { if }",
                                   "export * from 's'",
                                   "export * as a from 's'",
                                   "export var a",
                                   "export let a ; export { a }",
                                   "export function f ( ) { }",
                                   "export default a",
                                   "export default a , b",
                                   "export default function ( ) { }",
                                   "export default async function ( ) { }",
                                   "export default async \n function f ( ) { }",
                                   "export default class { }",
                                   "export default { }",
                                   "default",
                                   "as",
                                   "from",
                                   "* as a"};
// What is tried for a semicolon that is left out.
const char *const CONTINUATIONS[] = {"", "( c )", "/ c /", "++ c"};
// (a name is the shortest expression, so that targets are valid; `yield` is never one)
const std::map<string, long> LENGTHS{{"yield", 100},
                                     {"this", 2},
                                     {"null", 2},
                                     {"true", 2},
                                     {"false", 2},
                                     {"<NumericLiteral>", 2},
                                     {"<StringLiteral>", 2},
                                     {"<RegularExpressionLiteral>", 2},
                                     {"<NoSubstitutionTemplate>", 2}};
const std::map<string, string> SPELLED{{"<IdentifierName but not ReservedWord>", "a"},
                                       {"<IdentifierName>", "a"},
                                       {"<NumericLiteral>", "1"},
                                       {"<StringLiteral>", "'s'"},
                                       {"<PrivateIdentifier>", "#a"},
                                       {"<RegularExpressionLiteral>", "/r/"},
                                       {"<NoSubstitutionTemplate>", "``"},
                                       {"<TemplateHead>", "`${"},
                                       {"<TemplateMiddle>", "}${"},
                                       {"<TemplateTail>", "}`"}};

size_t index(int number) { return static_cast<size_t>(number); }

vector<string> split(const string &text) {
    std::stringstream in(text);
    vector<string> out;
    for (string it; std::getline(in, it, ' ');)
        out.push_back(it);
    return out;
}

string joined(const vector<string> &words) {
    string out;
    for (const string &it : words)
        out += (out.empty() ? "" : " ") + it;
    return out;
}

vector<string> with(vector<string> words, size_t at, const string &word) {
    words.insert(words.begin() + static_cast<long>(at), word);
    return words;
}
} // namespace

Positions::Positions(Grammar &grammar, int start_symbol) : grammar_(grammar) {
    find_shortest();
    find_contexts(start_symbol);
}

vector<const char *> Positions::probes() const {
    vector<const char *> out(std::begin(PROBES), std::end(PROBES));
    if (grammar_.has("edition-2022")) out.insert(out.end(), std::begin(PROBES_2022), std::end(PROBES_2022));
    return out;
}

string Positions::spelled(int terminal) const {
    auto it = SPELLED.find(grammar_.terminals[index(terminal)]);
    return it == SPELLED.end() ? grammar_.terminals[index(terminal)] : it->second;
}

long Positions::length(const Rule &rule) const {
    long length = 0;
    for (Dot dot = rule.first; dot < grammar_.end_of(rule); dot++) {
        Element it = grammar_.element(dot);
        if (is_nonterminal(it)) length += lengths_[index(it - FIRST_NONTERMINAL)];
        if (!is_terminal(it)) continue;
        auto known = LENGTHS.find(grammar_.terminals[index(it)]);
        length += known == LENGTHS.end() ? 1 : known->second;
    }
    return std::min(length, UNREACHED);
}

void Positions::find_shortest() {
    lengths_.assign(grammar_.nonterminals.size(), UNREACHED);
    shortest_.assign(grammar_.nonterminals.size(), -1);
    for (bool is_changed = true; is_changed;) {
        is_changed = false;
        for (size_t rule = 0; rule < grammar_.rules.size(); rule++) {
            size_t whole = index(grammar_.rules[rule].nonterminal);
            long found = length(grammar_.rules[rule]);
            if (found >= lengths_[whole]) continue;
            lengths_[whole] = found;
            shortest_[whole] = static_cast<int>(rule);
            is_changed = true;
        }
    }
}

void Positions::push_shortest(int nonterminal, Words &out) const {
    const Rule &rule = grammar_.rules[index(shortest_[index(nonterminal)])];
    push_elements(rule.first, grammar_.end_of(rule), out);
}

void Positions::push_elements(Dot from, Dot to, Words &out) const {
    for (Dot dot = from; dot < to; dot++) {
        Element it = grammar_.element(dot);
        if (is_nonterminal(it)) push_shortest(it - FIRST_NONTERMINAL, out);
        else if (is_terminal(it)) out.push_back(spelled(it));
    }
}

void Positions::find_contexts(int start_symbol) {
    is_reached_.assign(grammar_.nonterminals.size(), 0);
    before_.resize(grammar_.nonterminals.size());
    after_.resize(grammar_.nonterminals.size());
    reach(start_symbol, {}, {});
    // The symbols that refine covers are reached from no start.
    reach(grammar_.nonterminal("AssignmentPattern", 0), {"("}, {"=", "a", ")"});
    reach(grammar_.nonterminal("ArrowFormalParameters", 0), {"("}, {"=>", "a", ")"});
    if (grammar_.has("edition-2022")) reach(grammar_.nonterminal("AsyncArrowHead", 0), {"("}, {"=>", "a", ")"});
    for (bool is_changed = true; is_changed;) {
        is_changed = false;
        for (const Rule &it : grammar_.rules)
            is_changed |= reach_children(it);
    }
}

bool Positions::reach(int nonterminal, const Words &before, const Words &after) {
    size_t at = index(nonterminal);
    if (at >= is_reached_.size() || (is_reached_[at] && before.size() + after.size() >= before_[at].size() + after_[at].size())) return false;
    before_[at] = before;
    after_[at] = after;
    is_reached_[at] = 1;
    return true;
}

bool Positions::reach_children(const Rule &rule) {
    if (grammar_.is_misplaced(rule)) return false;
    if (!is_reached_[index(rule.nonterminal)] || length(rule) >= UNREACHED || grammar_.name_of(rule.nonterminal).compare(0, 5, "Cover") == 0)
        return false;
    bool is_changed = false;
    for (Dot dot = rule.first; dot < grammar_.end_of(rule); dot++) {
        if (!is_nonterminal(grammar_.element(dot))) continue;
        Words before = before_[index(rule.nonterminal)], after;
        push_elements(rule.first, dot, before);
        push_elements(dot + 1, grammar_.end_of(rule), after);
        after.insert(after.end(), after_[index(rule.nonterminal)].begin(), after_[index(rule.nonterminal)].end());
        is_changed |= reach(grammar_.element(dot) - FIRST_NONTERMINAL, before, after);
    }
    return is_changed;
}

long Positions::texts(const Take &take) const {
    long count = 0;
    for (const Rule &rule : grammar_.rules) {
        if (index(rule.nonterminal) >= is_reached_.size() || !is_reached_[index(rule.nonterminal)]) continue;
        for (Dot dot = rule.first; dot < grammar_.end_of(rule); dot++) {
            if (is_restriction(grammar_.element(dot))) continue;
            count++;
            try_probes(rule, dot, take);
        }
    }
    return count;
}

void Positions::try_probes(const Rule &rule, Dot dot, const Take &take) const {
    Words before = before_[index(rule.nonterminal)], after;
    push_elements(rule.first, dot, before);
    push_elements(dot + 1, grammar_.end_of(rule), after);
    after.insert(after.end(), after_[index(rule.nonterminal)].begin(), after_[index(rule.nonterminal)].end());
    for (const char *probe : probes()) {
        Words words = before, tried = split(probe);
        words.insert(words.end(), tried.begin(), tried.end());
        size_t to = words.size();
        words.insert(words.end(), after.begin(), after.end());
        try_around(grammar_.nonterminals[index(rule.nonterminal)].production, words, before.size(), to, take);
    }
}

// The text; the same with a line end before the probe, with one behind it, and without the `;` behind it.
void Positions::try_around(int production, const Words &words, size_t from, size_t to, const Take &given) const {
    // A private name is of no class mostly: so the text is also put into one that has it.
    auto take = [&](int of, const string &text) {
        given(of, text);
        if (text.find('#') != string::npos) given(of, "class A { #a ; m ( ) { " + text + " } }");
    };
    take(production, joined(words));
    take(production, joined(with(words, to, "\n")));
    take(production, joined(with(words, from, "\n")));
    if (to >= words.size() || words[to] != ";") return;
    Words without = words;
    without.erase(without.begin() + static_cast<long>(to));
    take(production, joined(without));
    for (const char *it : CONTINUATIONS)
        take(production, joined(with(with(without, to, it), to, "\n")));
}
} // namespace standard
