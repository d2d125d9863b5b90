// A grammar without parameters and options: a nonterminal for each production and each set of its parameters.
#pragma once
#include "notation.hpp"
#include <unordered_map>

namespace standard {
// The right-hand sides of all rules stand one behind the other. An element is a terminal, a nonterminal, a restriction on the
// next token, or the end of its rule; a dot is a place in front of an element, so it says the rule too.
using Element = int;
using Dot = int;
constexpr Element FIRST_NONTERMINAL = 1000, FIRST_LOOKAHEAD = 100000, NO_LINE_TERMINATOR = 200000;
inline bool is_end(Element it) { return it < 0; }
inline bool is_terminal(Element it) { return it >= 0 && it < FIRST_NONTERMINAL; }
inline bool is_nonterminal(Element it) { return it >= FIRST_NONTERMINAL && it < FIRST_LOOKAHEAD; }
inline bool is_restriction(Element it) { return it >= FIRST_LOOKAHEAD; }

// One way to expand a nonterminal: an alternative of its production with each option given or left out.
struct Rule {
    int nonterminal, alternative, child_count = 0;
    Dot first = 0;
    vector<int> children; // of each element the number of the child that it makes, -1 for a restriction
};
struct Nonterminal {
    int production;
    unsigned parameters;
    vector<int> rules;
    bool is_nullable = false, may_begin_regexp = false, may_begin_template = false;
};

class Grammar {
  public:
    GrammarSource source;
    vector<Nonterminal> nonterminals;
    vector<Rule> rules;
    vector<Element> elements;
    vector<int> rule_at;                           // by dot
    vector<char> is_regexp_next, is_template_next; // by dot: what may come next from here on
    vector<char> is_insertion_barred, is_do_end;   // by dot, before a `;`: 11.9.1
    vector<string> terminals;
    std::set<string> reserved_words;

    explicit Grammar(GrammarSource given);
    explicit Grammar(const vector<string> &files);

    int terminal(const string &text);
    // -1 if the grammar has no such terminal.
    int find_terminal(const string &text) const;
    int nonterminal(const string &name, unsigned parameters);
    // Expands what was asked for, and what this asks for.
    void expand();

    const Production &production_of(int nonterminal) const {
        return source.productions[static_cast<size_t>(nonterminals[static_cast<size_t>(nonterminal)].production)];
    }
    const string &name_of(int nonterminal) const { return production_of(nonterminal).name; }
    const Rule &rule_of(Dot dot) const { return rules[static_cast<size_t>(rule_at[static_cast<size_t>(dot)])]; }
    Element element(Dot dot) const { return elements[static_cast<size_t>(dot)]; }
    Dot end_of(const Rule &rule) const { return rule.first + static_cast<Dot>(rule.children.size()); }
    bool has(const string &rule) const { return source.has(rule); }
    // Whether a rule stands where its guards don't hold: a `yield` or `await` that is an early error.
    bool is_misplaced(const Rule &rule) const;

  private:
    std::unordered_map<string, int> terminal_numbers_;
    std::unordered_map<int, int> nonterminal_numbers_;
    size_t expanded_ = 0;

    int nonterminal_of(int production, unsigned parameters);
    void read_reserved_words();
    void expand_nonterminal(int nonterminal);
    void add_rule(int nonterminal, int alternative, unsigned given_options);
    Element element_of(const Symbol &symbol, unsigned parameters);
    void push(Element element, int child, Rule &rule);
    void find_beginnings();
    bool find_beginnings_of(const Rule &rule);
    void find_insertions();
};
} // namespace standard
