// A general recogniser (Earley's), with restrictions on the next token.
#pragma once
#include "lexer.hpp"
#include <cstdint>

namespace standard {
// An Earley item: a rule with a dot in it, and the set in which it began.
struct Item {
    Dot dot;
    int origin;
};

// The items at a place between two tokens.
struct ItemSet {
    vector<Item> items;
    vector<int> next_waiting; // by item: the one before it that waits for the same nonterminal
    vector<int> last_waiting; // by nonterminal: the last item that waits for it
    vector<int> scanning;     // the items whose dot stands before a terminal
    vector<int> restricted;   // those whose dot stands before a restriction, which the next token settles
    size_t settled = 0;       // how many items there were before the next token was looked at
    Goal goal;
    bool is_extended = false;
};

// A set of items, emptied at once.
class ItemMarks {
  public:
    ItemMarks() : keys_(1 << 12), epochs_(1 << 12, 0) {}
    void clear();
    // False if it is there already.
    bool add(Item item);

  private:
    vector<uint64_t> keys_;
    vector<unsigned> epochs_;
    unsigned epoch_ = 0;
    size_t used_ = 0;
    void grow();
};

// How often two goals were permitted at one place that read the next character differently.
struct GoalConflicts {
    long div_and_regexp = 0, brace_and_template = 0;
};

// Which `;` a token may be read as: each, one that is inserted, one that is inserted behind a `do`.
enum class Semicolon { Written, Inserted, InsertedAfterDo };

class Chart {
  public:
    Grammar &grammar;
    vector<ItemSet> sets;
    GoalConflicts conflicts;

    Chart(Grammar &given, const Lexer &lexer);

    void begin(int nonterminal, const string &text);
    // What the items at a place permit (clause 11).
    Goal goal(int place);
    // Reads a token at a place; false if no item takes it. Where the token that follows isn't handed in, the text says it.
    bool scan(int place, const Token &token, Semicolon semicolon, const Token *following = nullptr);
    // Settles the restrictions at a place by the token that is next there.
    void extend(int place, const Token &token, const Token *following);
    // Forgets the token that was next there.
    void retract(int place);
    bool is_completed(int place, int nonterminal) const;
    bool permits(int place, int terminal) const;
    // Whether tokens that are given, from one place to another, are the nonterminal: no semicolon is inserted.
    bool recognise(const vector<Token> &tokens, int from, int to, int nonterminal, const string &text);
    bool is_spelled(const Token &token, const string &word) const;

  private:
    const Lexer &lexer_;
    const string *text_ = nullptr;
    ItemMarks marks_;
    vector<unsigned> predicted_;
    unsigned prediction_ = 0;
    int slash_, slash_assign_, right_brace_;

    ItemSet &emptied(int place);
    void add(ItemSet &set, Item item);
    void close(int place, size_t from);
    void complete(ItemSet &set, int nonterminal, int origin);
    void predict(ItemSet &set, size_t item, int nonterminal, int place);
    bool is_allowed(const Lookahead &lookahead, const Token &token, const Token *following) const;
    bool is_sequence(const vector<LookaheadToken> &sequence, const Token &token, const Token *following) const;
    vector<Item> settled_items(const ItemSet &set, const Token &token, const Token *following) const;
    void advance(const ItemSet &from, ItemSet &to, const Token &token, Semicolon semicolon);
};
} // namespace standard
