#include "derivations.hpp"
#include <algorithm>

namespace standard {
namespace {
size_t index(int number) { return static_cast<size_t>(number); }
} // namespace

Derivations::Derivations(const Chart &chart, const vector<Token> &tokens, int shift, ParseNodes &nodes,
                         std::function<bool(const ParseNode *)> is_unwanted)
    : chart_(chart), grammar_(chart.grammar), tokens_(tokens), shift_(shift), count_(static_cast<int>(tokens.size())), nodes_(nodes),
      is_unwanted_(std::move(is_unwanted)) {
    index_items();
}

void Derivations::index_items() {
    completed_.resize(index(count_) + 1);
    items_.resize(index(count_) + 1);
    for (size_t place = 0; place < items_.size(); place++) {
        for (const Item &it : chart_.sets[place].items) {
            items_[place].push_back({it.dot, it.origin});
            if (is_end(grammar_.element(it.dot))) completed_[place].push_back({grammar_.rule_at[index(it.dot)], it.origin});
        }
        std::sort(items_[place].begin(), items_[place].end());
    }
}

bool Derivations::has_item(int place, Dot dot, int origin) const {
    return std::binary_search(items_[index(place)].begin(), items_[index(place)].end(), std::make_pair(dot, origin));
}

const vector<ParseNode *> &Derivations::all(int nonterminal) { return derive({nonterminal, 0, count_}); }

const vector<ParseNode *> &Derivations::derive(Span span) {
    auto it = known_.find(span);
    if (it != known_.end()) return it->second;
    vector<ParseNode *> found;
    for (const Completed &each : completed_[index(span.to)]) {
        const Rule &rule = grammar_.rules[index(each.rule)];
        if (each.origin != span.from || rule.nonterminal != span.nonterminal) continue;
        Partial partial{each.rule, each.origin, vector<ParseNode *>(index(rule.child_count), nullptr), {}};
        split(partial, grammar_.end_of(rule), span.to);
        const Nonterminal &whole = grammar_.nonterminals[index(span.nonterminal)];
        for (auto &children : partial.found) {
            nodes_.push_back({whole.production, whole.parameters, rule.alternative, span.from + shift_, span.to + shift_, children});
            if (!is_unwanted_(&nodes_.back())) found.push_back(&nodes_.back());
        }
    }
    return known_[span] = found;
}

// What stands before the dot, and ends at the place.
void Derivations::split(Partial &partial, Dot dot, int place) {
    if (partial.found.size() >= MOST_SPLITS || !has_item(place, dot, partial.origin)) return;
    const Rule &rule = grammar_.rules[index(partial.rule)];
    if (dot == rule.first) {
        if (place == partial.origin) partial.found.push_back(partial.children);
        return;
    }
    Element before = grammar_.element(dot - 1);
    int child = rule.children[index(dot - 1 - rule.first)];
    if (is_restriction(before)) split(partial, dot - 1, place);
    else if (is_terminal(before)) split_terminal(partial, dot, place, child);
    else split_nonterminal(partial, dot, place, child);
}

ParseNode *Derivations::leaf(int token) {
    nodes_.emplace_back();
    nodes_.back().from = token + shift_;
    nodes_.back().to = token + 1 + shift_;
    return &nodes_.back();
}

void Derivations::split_terminal(Partial &partial, Dot dot, int place, int child) {
    if (place <= partial.origin || !tokens_[index(place) - 1].is(grammar_.element(dot - 1))) return;
    // (a terminal behind [no LineTerminator here] was read with it, so no item has its dot between them)
    bool is_unbroken = dot - 1 > grammar_.rules[index(partial.rule)].first && grammar_.element(dot - 2) == NO_LINE_TERMINATOR;
    if (is_unbroken && tokens_[index(place) - 1].is_after_line_terminator) return;
    ParseNode *old = partial.children[index(child)];
    partial.children[index(child)] = leaf(place - 1);
    split(partial, is_unbroken ? dot - 2 : dot - 1, place - 1);
    partial.children[index(child)] = old;
}

void Derivations::split_nonterminal(Partial &partial, Dot dot, int place, int child) {
    int nonterminal = grammar_.element(dot - 1) - FIRST_NONTERMINAL;
    std::set<int> origins;
    for (const Completed &it : completed_[index(place)])
        if (grammar_.rules[index(it.rule)].nonterminal == nonterminal && it.origin >= partial.origin) origins.insert(it.origin);
    ParseNode *old = partial.children[index(child)];
    for (int origin : origins) {
        if (!has_item(origin, dot - 1, partial.origin)) continue;
        // (a copy: deriving further symbols moves what is known)
        const vector<ParseNode *> parts = derive({nonterminal, origin, place});
        for (ParseNode *it : parts) {
            partial.children[index(child)] = it;
            split(partial, dot - 1, origin);
        }
    }
    partial.children[index(child)] = old;
}
} // namespace standard
