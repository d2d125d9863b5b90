// A text read by the standard: tokens by the goals that are permitted, semicolons by 11.9.1, covers refined (5.1.4).
#pragma once
#include "derivations.hpp"
#include "program.hpp"
#include <memory>

namespace standard {
// What the standard makes of a text as a Script or a Module.
struct Reading {
    bool is_accepted = false;
    string reason;                    // why it isn't accepted
    int derivations = 0, refined = 0; // how many parse trees the cover grammar has, and how many are left after refinement
    bool is_cover_ambiguous = false;  // whether the tokens of a cover can be refined in two ways
    ParseNode *tree = nullptr;
};

// The text that was read, with its tokens, and what its parse tree says of itself.
class SourceText {
  public:
    explicit SourceText(const Grammar &grammar) : grammar_(grammar) {}

    string text;
    vector<Token> tokens;

    // Whether the grammar has a rule that isn't a production.
    bool has(const char *rule) const { return grammar_.has(rule); }
    // Of strict code.
    bool is_reserved(const string &word) const;
    const string &name(const ParseNode *node) const { return grammar_.source.productions[static_cast<size_t>(node->production)].name; }
    bool is(const ParseNode *node, const char *symbol) const { return node && !node->is_leaf() && name(node) == symbol; }
    const Token &token(const ParseNode *node) const { return tokens[static_cast<size_t>(node->from)]; }
    int start(const ParseNode *node) const { return token(node).start; }
    int end(const ParseNode *node) const { return tokens[static_cast<size_t>(node->to) - 1].end; }
    string spelled(const ParseNode *node) const {
        return text.substr(static_cast<size_t>(start(node)), static_cast<size_t>(end(node) - start(node)));
    }
    // Whether a node is this word or punctuator.
    bool is_token(const ParseNode *node, const char *spelling) const {
        return node && node->is_leaf() && token(node).is_spelled() && spelled(node) == spelling;
    }
    // What a node is below the productions of one symbol.
    ParseNode *bare(ParseNode *node) const;
    // The node of one of these symbols, below productions of one symbol; null if there is none.
    ParseNode *down_to(ParseNode *node, const char *symbol, const char *other) const;

  private:
    const Grammar &grammar_;
};

class Reader {
  public:
    Grammar &grammar;
    SourceText source;
    long scanned = 0; // tokens

    explicit Reader(Grammar &given, const string &goal_symbol = "Script");

    Reading read(const string &text);
    // Whether the cover grammar recognises the text. What a text shares with the one before it isn't read again.
    bool recognise(const string &text);
    // Whether no text that continues the one that was recognised last is a script.
    bool is_dead() const { return !steps_.empty() && steps_.back().is_dead && steps_.back().needed <= static_cast<int>(source.text.size()); }
    const GoalConflicts &conflicts() const { return chart_.conflicts; }
    int start_symbol() const { return start_symbol_; }
    // The program's language for this grammar and goal.
    Language language() const {
        return goal_symbol_ == "Module" ? Language::Module : grammar.has("edition-2022") ? Language::Script2022 : Language::Base;
    }
    int last_token_start() const { return last_.start; }

  private:
    // A token that was read, perhaps with a semicolon inserted before it: how many tokens there were then, where it ends, and up to
    // where the text has to stay for it to be read so again.
    struct Step {
        int tokens, end, needed;
        bool is_dead;
    };
    Lexer lexer_;
    Chart chart_, cover_chart_;
    string goal_symbol_;
    int start_symbol_, semicolon_;
    bool counts_slash_assign_;
    vector<Step> steps_;
    vector<Token> tokens_;
    Token last_;
    ParseNodes nodes_;

    Token inserted_semicolon() const;
    bool keep_common(const string &text);
    bool step(int at);
    bool insert_semicolon(int at, const Token &offending);
    bool recognise_end();
    int needed_for(const Token &token) const;
};
} // namespace standard
