// The parse trees of what a chart recognised.
#pragma once
#include "earley.hpp"
#include <deque>
#include <functional>
#include <map>

namespace standard {
// A node of a parse tree. A leaf is a token; a child that an option left out is null.
struct ParseNode {
    int production = -1;
    unsigned parameters = 0;
    int alternative = 0;
    int from = 0, to = 0; // tokens
    vector<ParseNode *> children;

    bool is_leaf() const { return production < 0; }
    ParseNode *last() const { return children.back(); }
};
// Where nodes live; emptied at once.
using ParseNodes = std::deque<ParseNode>;

class Derivations {
  public:
    // `shift`: how many tokens stand before the chart's first. No tree with an unwanted node is given.
    Derivations(const Chart &chart, const vector<Token> &tokens, int shift, ParseNodes &nodes, std::function<bool(const ParseNode *)> is_unwanted);

    // All trees of a nonterminal from the first token to the last.
    const vector<ParseNode *> &all(int nonterminal);

  private:
    struct Span {
        int nonterminal, from, to;
        bool operator<(const Span &other) const { return std::tie(nonterminal, from, to) < std::tie(other.nonterminal, other.from, other.to); }
    };
    struct Completed {
        int rule, origin;
    };
    // A rule that is read from its end to its first element, with the children found so far.
    struct Partial {
        int rule, origin;
        vector<ParseNode *> children;
        vector<vector<ParseNode *>> found;
    };
    // More ways than this to split one rule aren't looked for.
    static constexpr size_t MOST_SPLITS = 16;

    const Chart &chart_;
    const Grammar &grammar_;
    const vector<Token> &tokens_;
    int shift_, count_;
    ParseNodes &nodes_;
    std::function<bool(const ParseNode *)> is_unwanted_;
    std::map<Span, vector<ParseNode *>> known_;
    vector<vector<Completed>> completed_;       // by place
    vector<vector<std::pair<Dot, int>>> items_; // by place, sorted

    void index_items();
    bool has_item(int place, Dot dot, int origin) const;
    const vector<ParseNode *> &derive(Span span);
    void split(Partial &partial, Dot dot, int place);
    void split_terminal(Partial &partial, Dot dot, int place, int child);
    void split_nonterminal(Partial &partial, Dot dot, int place, int child);
    ParseNode *leaf(int token);
};
} // namespace standard
