// What the standard says of a parse tree of the cover grammar: the supplemental symbols that refine it, and the early errors that make it
// no script in the profile's words.
#pragma once
#include "reader.hpp"

namespace standard {
class CoverRefiner {
  public:
    CoverRefiner(Chart &chart, const SourceText &source, ParseNodes &nodes, const string &goal_symbol);

    // The refined tree; null if it can't be refined, or if a rule refuses it, and then the reason is said.
    ParseNode *refine(ParseNode *node);
    // 13.6: an `else` belongs to the nearest `if` that has none. So a statement before an `else` never ends in an `if` without one.
    bool is_distant_else(const ParseNode *node) const;
    const string &reason() const { return reason_; }
    bool is_ambiguous() const { return is_ambiguous_; }

  private:
    Grammar &grammar_;
    const SourceText &source_;
    ParseNodes &nodes_;
    Chart &chart_;
    bool is_module_, reserves_await_, has_early_yield_, has_early_meta_, is_ambiguous_ = false;
    string reason_;
    std::map<std::tuple<int, int, int>, ParseNode *> read_again_;

    ParseNode *refuse(const string &reason);
    ParseNode *read_again(const ParseNode *node, const string &symbol, unsigned parameters);
    ParseNode *replace_cover(ParseNode *node);
    ParseNode *refine_children(ParseNode *node);
    ParseNode *refine_child(const ParseNode *parent, ParseNode *child);
    ParseNode *refine_target(ParseNode *left, unsigned parameters, const char *otherwise);
    bool is_target_position(const ParseNode *parent, const ParseNode *child) const;
    ParseNode *refine_simple(ParseNode *node, const char *otherwise);
    // AssignmentTargetType (12.1.3, 12.2.10.3, 12.3.1.6 and others); `eval` and `arguments` are simple here, as they are early errors.
    bool is_simple(const ParseNode *node) const;
    bool is_simple_member(const ParseNode *node) const;
    // Why the node is refused before its parts are looked at, or after; null if it isn't.
    const char *fault_before(const ParseNode *node) const;
    const char *name_fault(const ParseNode *node) const;
    const char *fault_after(const ParseNode *node) const;
    const char *parameter_fault(const ParseNode *node) const;
    bool has_private_method(const ParseNode *node) const;
    // 5.2.4, 14.2.3: Contains, of a kind of expression.
    bool contains(const ParseNode *node, const char *symbol) const;
    bool contains_yield_or_await(const ParseNode *node) const;
    bool is_labelled_function(ParseNode *statement) const;
    bool ends_in_if(const ParseNode *statement) const;
};
} // namespace standard
