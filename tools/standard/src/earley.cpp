#include "earley.hpp"

namespace standard {
namespace {
size_t index(int number) { return static_cast<size_t>(number); }
} // namespace

void ItemMarks::clear() {
    epoch_++;
    used_ = 0;
}

bool ItemMarks::add(Item item) {
    if (used_ * 2 >= keys_.size()) grow();
    uint64_t key = static_cast<uint64_t>(static_cast<unsigned>(item.dot)) << 32 | static_cast<unsigned>(item.origin);
    size_t mask = keys_.size() - 1, at = (key * 0x9E3779B97F4A7C15ull >> 40) & mask;
    while (epochs_[at] == epoch_) {
        if (keys_[at] == key) return false;
        at = (at + 1) & mask;
    }
    epochs_[at] = epoch_;
    keys_[at] = key;
    used_++;
    return true;
}

void ItemMarks::grow() {
    vector<uint64_t> old;
    for (size_t i = 0; i < keys_.size(); i++)
        if (epochs_[i] == epoch_) old.push_back(keys_[i]);
    keys_.assign(keys_.size() * 2, 0);
    epochs_.assign(keys_.size(), 0);
    epoch_ = 1;
    used_ = 0;
    for (uint64_t it : old)
        add({static_cast<Dot>(it >> 32), static_cast<int>(static_cast<unsigned>(it))});
}

Chart::Chart(Grammar &given, const Lexer &lexer) : grammar(given), lexer_(lexer) {
    slash_ = grammar.terminal("/");
    slash_assign_ = grammar.terminal("/=");
    right_brace_ = grammar.terminal("}");
}

ItemSet &Chart::emptied(int place) {
    if (sets.size() <= index(place)) sets.resize(index(place) + 8);
    ItemSet &set = sets[index(place)];
    set.items.clear();
    set.next_waiting.clear();
    set.scanning.clear();
    set.restricted.clear();
    set.last_waiting.assign(grammar.nonterminals.size(), -1);
    set.settled = 0;
    set.goal = Goal();
    set.is_extended = false;
    return set;
}

void Chart::add(ItemSet &set, Item item) {
    if (!marks_.add(item)) return;
    set.items.push_back(item);
    set.next_waiting.push_back(-1);
}

// Completes and predicts, from an item on.
void Chart::close(int place, size_t from) {
    ItemSet &set = sets[index(place)];
    if (predicted_.size() < grammar.nonterminals.size()) predicted_.resize(grammar.nonterminals.size(), 0);
    if (!from) prediction_++;
    for (size_t i = from; i < set.items.size(); i++) {
        Item item = set.items[i];
        Element next = grammar.element(item.dot);
        if (is_end(next)) complete(set, grammar.rule_of(item.dot).nonterminal, item.origin);
        else if (is_nonterminal(next)) predict(set, i, next - FIRST_NONTERMINAL, place);
        else {
            (is_terminal(next) ? set.scanning : set.restricted).push_back(static_cast<int>(i));
            set.goal.permits_regexp |= grammar.is_regexp_next[index(item.dot)] != 0;
            set.goal.permits_template_tail |= grammar.is_template_next[index(item.dot)] != 0;
        }
    }
}

void Chart::complete(ItemSet &set, int nonterminal, int origin) {
    ItemSet &begun = sets[index(origin)];
    for (int i = begun.last_waiting[index(nonterminal)]; i >= 0; i = begun.next_waiting[index(i)]) {
        Item waiting = begun.items[index(i)];
        add(set, {waiting.dot + 1, waiting.origin});
    }
}

void Chart::predict(ItemSet &set, size_t item, int nonterminal, int place) {
    set.next_waiting[item] = set.last_waiting[index(nonterminal)];
    set.last_waiting[index(nonterminal)] = static_cast<int>(item);
    if (predicted_[index(nonterminal)] != prediction_) {
        predicted_[index(nonterminal)] = prediction_;
        for (int rule : grammar.nonterminals[index(nonterminal)].rules)
            add(set, {grammar.rules[index(rule)].first, place});
    }
    Item waiting = set.items[item];
    if (grammar.nonterminals[index(nonterminal)].is_nullable) add(set, {waiting.dot + 1, waiting.origin});
}

void Chart::begin(int nonterminal, const string &text) {
    grammar.expand();
    text_ = &text;
    marks_.clear();
    ItemSet &set = emptied(0);
    for (int rule : grammar.nonterminals[index(nonterminal)].rules)
        add(set, {grammar.rules[index(rule)].first, 0});
    close(0, 0);
    set.settled = set.items.size();
}

bool Chart::permits(int place, int terminal) const {
    const ItemSet &set = sets[index(place)];
    for (int i : set.scanning)
        if (grammar.element(set.items[index(i)].dot) == terminal) return true;
    return false;
}

Goal Chart::goal(int place) {
    Goal goal = sets[index(place)].goal;
    if (goal.permits_regexp && (permits(place, slash_) || permits(place, slash_assign_))) conflicts.div_and_regexp++;
    if (goal.permits_template_tail && permits(place, right_brace_)) conflicts.brace_and_template++;
    return goal;
}

bool Chart::is_spelled(const Token &token, const string &word) const {
    return token.is_spelled() && static_cast<int>(word.size()) == token.end - token.start &&
           text_->compare(index(token.start), word.size(), word) == 0;
}

// Whether these tokens come next.
bool Chart::is_sequence(const vector<LookaheadToken> &sequence, const Token &token, const Token *following) const {
    if (!is_spelled(token, sequence[0].text)) return false;
    if (sequence.size() == 1) return true;
    Token second = following ? *following : lexer_.next(*text_, token.end, Goal());
    return is_spelled(second, sequence[1].text) && !(sequence[1].is_on_same_line && second.is_after_line_terminator);
}

bool Chart::is_allowed(const Lookahead &lookahead, const Token &token, const Token *following) const {
    for (const auto &it : lookahead.sequences)
        if (is_sequence(it, token, following)) return false;
    return true;
}

void Chart::retract(int place) {
    ItemSet &set = sets[index(place)];
    if (!set.is_extended) return;
    auto shorten = [&](vector<int> &numbers) {
        while (!numbers.empty() && index(numbers.back()) >= set.settled)
            numbers.pop_back();
    };
    set.items.resize(set.settled);
    set.next_waiting.assign(set.settled, -1);
    set.last_waiting.assign(grammar.nonterminals.size(), -1);
    shorten(set.scanning);
    shorten(set.restricted);
    for (size_t i = 0; i < set.settled; i++) {
        Element next = grammar.element(set.items[i].dot);
        if (!is_nonterminal(next)) continue;
        set.next_waiting[i] = set.last_waiting[index(next - FIRST_NONTERMINAL)];
        set.last_waiting[index(next - FIRST_NONTERMINAL)] = static_cast<int>(i);
    }
    set.is_extended = false;
}

// The items whose restriction holds. (That a `++` or a `=>` is on the same line is settled when it is read.)
vector<Item> Chart::settled_items(const ItemSet &set, const Token &token, const Token *following) const {
    vector<Item> found;
    for (int i : set.restricted) {
        Item item = set.items[index(i)];
        Element restriction = grammar.element(item.dot), next = grammar.element(item.dot + 1);
        bool holds = restriction == NO_LINE_TERMINATOR
                         ? !token.is_after_line_terminator && is_nonterminal(next)
                         : is_allowed(grammar.source.lookaheads[index(restriction - FIRST_LOOKAHEAD)], token, following);
        if (holds) found.push_back({item.dot + 1, item.origin});
    }
    return found;
}

void Chart::extend(int place, const Token &token, const Token *following) {
    retract(place);
    ItemSet &set = sets[index(place)];
    vector<Item> found = settled_items(set, token, following);
    if (found.empty()) return;
    marks_.clear();
    prediction_++;
    for (size_t i = 0; i < set.settled; i++) {
        marks_.add(set.items[i]);
        Element next = grammar.element(set.items[i].dot);
        if (is_nonterminal(next)) predicted_[index(next - FIRST_NONTERMINAL)] = prediction_;
    }
    for (Item it : found)
        add(set, it);
    if (set.items.size() == set.settled) return;
    Goal goal = set.goal;
    close(place, set.settled);
    set.goal = goal;
    set.is_extended = true;
}

// The items behind the token.
void Chart::advance(const ItemSet &from, ItemSet &to, const Token &token, Semicolon semicolon) {
    for (int i : from.scanning) {
        Item item = from.items[index(i)];
        bool is_taken = token.is(grammar.element(item.dot));
        bool is_barred = semicolon != Semicolon::Written && grammar.is_insertion_barred[index(item.dot)];
        bool is_other = semicolon == Semicolon::InsertedAfterDo && !grammar.is_do_end[index(item.dot)];
        if (is_taken && !is_barred && !is_other) add(to, {item.dot + 1, item.origin});
    }
    if (token.is_after_line_terminator) return;
    for (int i : from.restricted) {
        Item item = from.items[index(i)];
        if (grammar.element(item.dot) != NO_LINE_TERMINATOR) continue;
        Element next = grammar.element(item.dot + 1);
        if (is_terminal(next) && token.is(next)) add(to, {item.dot + 2, item.origin});
    }
}

bool Chart::scan(int place, const Token &token, Semicolon semicolon, const Token *following) {
    extend(place, token, following);
    emptied(place + 1);
    marks_.clear();
    ItemSet &set = sets[index(place) + 1];
    advance(sets[index(place)], set, token, semicolon);
    if (set.items.empty()) return false;
    close(place + 1, 0);
    set.settled = set.items.size();
    return true;
}

bool Chart::is_completed(int place, int nonterminal) const {
    for (const Item &it : sets[index(place)].items)
        if (it.origin == 0 && is_end(grammar.element(it.dot)) && grammar.rule_of(it.dot).nonterminal == nonterminal) return true;
    return false;
}

bool Chart::recognise(const vector<Token> &tokens, int from, int to, int nonterminal, const string &text) {
    begin(nonterminal, text);
    for (int i = from; i < to; i++) {
        const Token *following = index(i) + 1 < tokens.size() ? &tokens[index(i) + 1] : nullptr;
        if (!scan(i - from, tokens[index(i)], Semicolon::Written, following)) return false;
    }
    return is_completed(to - from, nonterminal);
}
} // namespace standard
