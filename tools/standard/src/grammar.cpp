#include "grammar.hpp"
#include <stdexcept>

namespace standard {
namespace {
GrammarSource read_all(const vector<string> &files) {
    GrammarSource source;
    for (const string &it : files)
        source.read(it);
    return source;
}

bool holds(const vector<Argument> &guards, unsigned parameters) {
    for (const Argument &it : guards)
        if (((parameters & it.parameter) != 0) != (it.sign == '+')) return false;
    return true;
}

unsigned given_parameters(const vector<Argument> &arguments, unsigned parameters) {
    unsigned given = 0;
    for (const Argument &it : arguments)
        if (it.sign == '+' || (it.sign == '?' && (parameters & it.parameter))) given |= it.parameter;
    return given;
}
} // namespace

Grammar::Grammar(const vector<string> &files) : Grammar(read_all(files)) {}

Grammar::Grammar(GrammarSource given) : source(std::move(given)) { read_reserved_words(); }

void Grammar::read_reserved_words() {
    int number = source.find("ReservedWord");
    if (number < 0) throw std::runtime_error("grammar: no ReservedWord");
    for (const Alternative &it : source.productions[static_cast<size_t>(number)].alternatives)
        reserved_words.insert(it.symbols[0].text);
}

int Grammar::terminal(const string &text) {
    auto found = terminal_numbers_.emplace(text, static_cast<int>(terminals.size()));
    if (found.second) terminals.push_back(text);
    return found.first->second;
}

int Grammar::find_terminal(const string &text) const {
    auto it = terminal_numbers_.find(text);
    return it == terminal_numbers_.end() ? -1 : it->second;
}

int Grammar::nonterminal(const string &name, unsigned parameters) {
    int production = source.find(name);
    if (production < 0) throw std::runtime_error("grammar: no production " + name);
    return nonterminal_of(production, parameters);
}

int Grammar::nonterminal_of(int production, unsigned parameters) {
    parameters &= source.productions[static_cast<size_t>(production)].parameters;
    int key = production << PARAMETER_COUNT | static_cast<int>(parameters);
    auto found = nonterminal_numbers_.emplace(key, static_cast<int>(nonterminals.size()));
    if (found.second) nonterminals.push_back({production, parameters, {}});
    return found.first->second;
}

void Grammar::expand() {
    if (expanded_ == nonterminals.size() && is_regexp_next.size() == elements.size() && expanded_) return;
    while (expanded_ < nonterminals.size())
        expand_nonterminal(static_cast<int>(expanded_++));
    find_beginnings();
    find_insertions();
}

void Grammar::expand_nonterminal(int nonterminal) {
    // (expanding makes further nonterminals, so nothing of this one is held)
    unsigned parameters = nonterminals[static_cast<size_t>(nonterminal)].parameters;
    // (the profile of 2022 makes a `yield` or `await` without its parameter an early error)
    unsigned seen = parameters | (has("yield-and-await-everywhere") ? Yield | Await : 0);
    const vector<Alternative> &alternatives = production_of(nonterminal).alternatives;
    for (size_t i = 0; i < alternatives.size(); i++) {
        if (!holds(alternatives[i].guards, seen)) continue;
        unsigned options = 0;
        for (const Symbol &it : alternatives[i].symbols)
            options += it.is_optional;
        for (unsigned given = 1u << options; given-- > 0;)
            add_rule(nonterminal, static_cast<int>(i), given);
    }
}

bool Grammar::is_misplaced(const Rule &rule) const {
    const Alternative &alternative = production_of(rule.nonterminal).alternatives[static_cast<size_t>(rule.alternative)];
    return !holds(alternative.guards, nonterminals[static_cast<size_t>(rule.nonterminal)].parameters);
}

void Grammar::add_rule(int nonterminal, int alternative, unsigned given_options) {
    unsigned parameters = nonterminals[static_cast<size_t>(nonterminal)].parameters, option = 0;
    const vector<Symbol> &symbols = production_of(nonterminal).alternatives[static_cast<size_t>(alternative)].symbols;
    Rule rule{nonterminal, alternative, 0, static_cast<Dot>(elements.size()), {}};
    for (const Symbol &it : symbols) {
        bool is_child = it.kind == Symbol::Kind::Terminal || it.kind == Symbol::Kind::Nonterminal;
        int child = is_child ? rule.child_count++ : -1;
        bool is_given = !it.is_optional || (given_options >> option & 1);
        option += it.is_optional;
        if (is_given) push(element_of(it, parameters), child, rule);
    }
    int number = static_cast<int>(rules.size());
    elements.push_back(-1 - number);
    rule_at.push_back(number);
    rules.push_back(rule);
    nonterminals[static_cast<size_t>(nonterminal)].rules.push_back(number);
}

void Grammar::push(Element element, int child, Rule &rule) {
    elements.push_back(element);
    rule_at.push_back(static_cast<int>(rules.size()));
    rule.children.push_back(child);
}

Element Grammar::element_of(const Symbol &symbol, unsigned parameters) {
    if (symbol.kind == Symbol::Kind::Lookahead) return FIRST_LOOKAHEAD + symbol.lookahead;
    if (symbol.kind == Symbol::Kind::NoLineTerminator) return NO_LINE_TERMINATOR;
    if (symbol.kind == Symbol::Kind::Terminal) return terminal(symbol.text);
    int production = source.find(symbol.text);
    // A name without a production is a terminal of the lexical grammar.
    if (production < 0) return terminal("<" + symbol.text + ">");
    return FIRST_NONTERMINAL + nonterminal_of(production, given_parameters(symbol.arguments, parameters));
}

void Grammar::find_beginnings() {
    is_regexp_next.assign(elements.size(), 0);
    is_template_next.assign(elements.size(), 0);
    for (bool is_changed = true; is_changed;) {
        is_changed = false;
        for (const Rule &it : rules)
            is_changed |= find_beginnings_of(it);
    }
}

bool Grammar::find_beginnings_of(const Rule &rule) {
    int regexp = terminal("<RegularExpressionLiteral>"), middle = terminal("<TemplateMiddle>"), tail = terminal("<TemplateTail>");
    bool is_nullable = true, is_regexp = false, is_template = false;
    for (Dot dot = end_of(rule); dot-- > rule.first;) {
        Element it = element(dot);
        if (is_terminal(it)) {
            is_nullable = false;
            is_regexp = it == regexp;
            is_template = it == middle || it == tail;
        } else if (is_nonterminal(it)) {
            const Nonterminal &part = nonterminals[static_cast<size_t>(it - FIRST_NONTERMINAL)];
            is_nullable &= part.is_nullable;
            is_regexp = part.may_begin_regexp || (part.is_nullable && is_regexp);
            is_template = part.may_begin_template || (part.is_nullable && is_template);
        }
        is_regexp_next[static_cast<size_t>(dot)] = is_regexp;
        is_template_next[static_cast<size_t>(dot)] = is_template;
    }
    Nonterminal &whole = nonterminals[static_cast<size_t>(rule.nonterminal)];
    Nonterminal before = whole;
    whole.is_nullable |= is_nullable;
    whole.may_begin_regexp |= is_regexp;
    whole.may_begin_template |= is_template;
    return whole.is_nullable != before.is_nullable || whole.may_begin_regexp != before.may_begin_regexp ||
           whole.may_begin_template != before.may_begin_template;
}

// 11.9.1: no semicolon is inserted where it would be an EmptyStatement or one of the two in the head of a `for`; after the `)` of a
// `do` one is, whatever follows. The declaration in a head is the only LexicalDeclaration without In.
void Grammar::find_insertions() {
    is_insertion_barred.assign(elements.size(), 0);
    is_do_end.assign(elements.size(), 0);
    int semicolon = terminal(";"), for_word = terminal("for"), do_word = terminal("do");
    for (size_t dot = 0; dot < elements.size(); dot++) {
        if (elements[dot] != semicolon) continue;
        const Rule &rule = rule_of(static_cast<Dot>(dot));
        const string &name = name_of(rule.nonterminal);
        bool is_loop = name == "IterationStatement", is_declaration = name == "LexicalDeclaration";
        bool is_head = (is_loop && element(rule.first) == for_word) ||
                       (is_declaration && !(nonterminals[static_cast<size_t>(rule.nonterminal)].parameters & In));
        is_insertion_barred[dot] = name == "EmptyStatement" || is_head;
        is_do_end[dot] = is_loop && element(rule.first) == do_word;
    }
}
} // namespace standard
