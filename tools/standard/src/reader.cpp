#include "reader.hpp"
#include "refinement.hpp"
#include <algorithm>

namespace standard {
namespace {
// The symbols that the static semantics asks for beside those that the start symbol reaches.
const char *const SUPPLEMENTAL[] = {"ParenthesizedExpression", "AssignmentPattern", "ArrowFormalParameters", "CallMemberExpression",
                                    "AsyncArrowHead"};
} // namespace

// 12.6.2, 13.1.1 of the 13th edition.
bool SourceText::is_reserved(const string &word) const {
    static const std::set<string> STRICT_WORDS{"implements", "interface", "let", "package", "private", "protected", "public", "static", "yield"};
    return STRICT_WORDS.count(word) || grammar_.reserved_words.count(word);
}

ParseNode *SourceText::bare(ParseNode *node) const {
    while (node && !node->is_leaf() && node->children.size() == 1 && node->children[0] && !node->children[0]->is_leaf())
        node = node->children[0];
    return node;
}

ParseNode *SourceText::down_to(ParseNode *node, const char *symbol, const char *other) const {
    while (node && !node->is_leaf()) {
        if (is(node, symbol) || is(node, other)) return node;
        if (node->children.size() != 1) return nullptr;
        node = node->children[0];
    }
    return nullptr;
}

Reader::Reader(Grammar &given, const string &goal_symbol)
    : grammar(given), source(given), lexer_(given), chart_(given, lexer_), cover_chart_(given, lexer_), goal_symbol_(goal_symbol) {
    start_symbol_ = grammar.nonterminal(goal_symbol, 0);
    semicolon_ = grammar.terminal(";");
    for (const char *symbol : SUPPLEMENTAL)
        for (unsigned parameters = 0; parameters <= (Yield | Await); parameters += Yield)
            grammar.nonterminal(symbol, parameters);
    grammar.expand();
    counts_slash_assign_ = grammar.has("slash-assign-counts-like-slash");
    chart_.begin(start_symbol_, source.text);
}

Token Reader::inserted_semicolon() const {
    Token token;
    token.kind = Token::Kind::Punctuator;
    token.is_inserted = true;
    token.terminals[0] = semicolon_;
    token.start = token.end = tokens_.empty() ? 0 : tokens_.back().end;
    return token;
}

// Reads one token more; false if the text is refused there.
bool Reader::step(int at) {
    int place = static_cast<int>(tokens_.size());
    last_ = lexer_.next(source.text, at, chart_.goal(place));
    scanned++;
    if (last_.kind == Token::Kind::Bad) return false;
    if (!chart_.scan(place, last_, Semicolon::Written)) return insert_semicolon(at, last_);
    tokens_.push_back(last_);
    return true;
}

// 11.9.1: a token that no production allows is the offending token. A semicolon is inserted before it if a line terminator or the `)`
// of a `do` is before it, or if it is `}`; then it is read again, by the goal that is right behind a semicolon.
bool Reader::insert_semicolon(int at, const Token &offending) {
    int place = static_cast<int>(tokens_.size());
    bool is_anywhere = offending.is_after_line_terminator || chart_.is_spelled(offending, "}");
    if (!is_anywhere && !(place > 0 && chart_.is_spelled(tokens_.back(), ")"))) return false;
    // The profile's choice: a `/=` stops a statement only where a `/` does.
    if (counts_slash_assign_ && chart_.is_spelled(offending, "/=") && chart_.permits(place, grammar.find_terminal("/"))) return false;
    Token semicolon = inserted_semicolon();
    if (!chart_.scan(place, semicolon, is_anywhere ? Semicolon::Inserted : Semicolon::InsertedAfterDo)) return false;
    tokens_.push_back(semicolon);
    last_ = lexer_.next(source.text, at, chart_.goal(place + 1));
    if (last_.kind != Token::Kind::Bad && chart_.scan(place + 1, last_, Semicolon::Written)) {
        tokens_.push_back(last_);
        return true;
    }
    tokens_.pop_back();
    return false;
}

// Up to where the text was looked at to read a token: four bytes for the longest punctuator that may begin in it, and after `let`
// and `async` what a restriction on two tokens looks at.
int Reader::needed_for(const Token &token) const {
    int end = token.end, size = static_cast<int>(source.text.size());
    if (token.kind == Token::Kind::Bad) return size + 1;
    bool is_parted = end < size && (source.text[static_cast<size_t>(end)] == ' ' || source.text[static_cast<size_t>(end)] == '\n');
    int needed = is_parted ? end + 1 : end + 4;
    if (chart_.is_spelled(token, "let") || chart_.is_spelled(token, "async")) {
        bool has_line_terminator = false;
        int after = lexer_.skip(source.text, end, has_line_terminator);
        needed = after < 0 ? size + 1 : after + 9;
    }
    return end >= size ? std::max(needed, size + 1) : needed;
}

// Takes over the tokens that the text shares with the one before it; false if they refuse it already.
bool Reader::keep_common(const string &text) {
    size_t common = 0;
    while (common < text.size() && common < source.text.size() && text[common] == source.text[common])
        common++;
    size_t kept = 0;
    while (kept < steps_.size() && steps_[kept].needed <= static_cast<int>(common))
        kept++;
    source.text = text;
    steps_.resize(kept);
    tokens_.resize(kept ? static_cast<size_t>(steps_.back().tokens) : 0);
    return !is_dead();
}

bool Reader::recognise(const string &text) {
    if (!keep_common(text)) return false;
    int at = steps_.empty() ? 0 : steps_.back().end;
    for (;;) {
        bool has_line_terminator = false;
        int next = lexer_.skip(source.text, at, has_line_terminator);
        if (next < 0) return false;
        if (next >= static_cast<int>(source.text.size())) return recognise_end();
        size_t count = tokens_.size();
        if (!step(at)) {
            tokens_.resize(count);
            steps_.push_back({static_cast<int>(count), last_.end, needed_for(last_), true});
            return false;
        }
        at = tokens_.back().end;
        steps_.push_back({static_cast<int>(tokens_.size()), at, needed_for(tokens_.back()), false});
    }
}

// At the end of the text, perhaps with a semicolon inserted there.
bool Reader::recognise_end() {
    int place = static_cast<int>(tokens_.size());
    source.tokens = tokens_;
    Token end;
    end.kind = Token::Kind::End;
    end.start = end.end = static_cast<int>(source.text.size());
    chart_.extend(place, end, nullptr);
    if (chart_.is_completed(place, start_symbol_)) return true;
    chart_.retract(place);
    if (!chart_.scan(place, inserted_semicolon(), Semicolon::Inserted)) return false;
    source.tokens.push_back(inserted_semicolon());
    chart_.extend(place + 1, end, nullptr);
    return chart_.is_completed(place + 1, start_symbol_);
}

Reading Reader::read(const string &text) {
    Reading reading;
    if (!recognise(text)) {
        reading.reason = "not recognised";
        return reading;
    }
    nodes_.clear();
    CoverRefiner refiner(cover_chart_, source, nodes_, goal_symbol_);
    Derivations derivations(chart_, source.tokens, 0, nodes_, [&](const ParseNode *it) { return refiner.is_distant_else(it); });
    const vector<ParseNode *> found = derivations.all(start_symbol_);
    reading.derivations = static_cast<int>(found.size());
    for (ParseNode *it : found) {
        ParseNode *refined = refiner.refine(it);
        reading.refined += refined != nullptr;
        if (!reading.tree) reading.tree = refined;
    }
    reading.is_cover_ambiguous = refiner.is_ambiguous();
    reading.is_accepted = reading.tree != nullptr;
    if (!reading.is_accepted) reading.reason = refiner.reason();
    return reading;
}
} // namespace standard
