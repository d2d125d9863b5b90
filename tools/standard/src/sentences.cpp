#include "sentences.hpp"
#include <algorithm>

namespace standard {
namespace {
constexpr size_t MOST_TOKENS = 40;
const char *const IDENTIFIERS[] = {"a", "b", "c", "d"};
const char *const CONTEXTUAL[] = {"of", "async", "get", "set", "await", "target", "eval", "arguments", "as"};
const char *const NAMES[] = {"a", "b", "constructor", "prototype", "get", "set", "static"};
const char *const WORDS[] = {"if", "let", "new", "class", "super", "await", "yield", "in", "function"};
const char *const NUMBERS[] = {"0", "1.", ".5", "1n", "0x1F", "1e3", "1_0"};
const char *const STRINGS[] = {"'s'", "\"t\"", "'constructor'", "'use strict'", "'prototype'"};
const char *const REGEXPS[] = {"/x/", "/[/]/g", "/=/", "/a/gg"};
const char *const TEMPLATES[] = {"`t`", "``", "`\\u`"};
const char *const PRIVATE[] = {"#a", "#b", "#constructor"};
const char *const MODULE_STRINGS[] = {"'a'", "\"\\u0061\"", "'\\ud800'", "'default'"};
const char *const TAILS[] = {"}`", "}\\1`"};
// How often of a hundred times an expression is just one of the next symbol, so that sentences stay short.
const std::map<string, unsigned> PLAIN{{"AssignmentExpression", 45}, {"LeftHandSideExpression", 70}, {"MemberExpression", 70},
                                       {"UpdateExpression", 70},     {"UnaryExpression", 70},        {"CallExpression", 40},
                                       {"ConditionalExpression", 85}};
const std::set<string> HAS_TARGET{"AssignmentExpression", "DestructuringAssignmentTarget", "IterationStatement", "UpdateExpression"};
const std::set<string> NAMED{"IdentifierReference", "BindingIdentifier", "LabelIdentifier"};
const string EXPRESSION = "Expression";

bool is_expression(const string &name) {
    return name.size() > EXPRESSION.size() && name.compare(name.size() - EXPRESSION.size(), EXPRESSION.size(), EXPRESSION) == 0;
}
size_t index(int number) { return static_cast<size_t>(number); }
} // namespace

unsigned Random::below(unsigned limit) {
    uint64_t z = state_ += 0x9E3779B97F4A7C15ull;
    z = (z ^ z >> 30) * 0xBF58476D1CE4E5B9ull;
    z = (z ^ z >> 27) * 0x94D049BB133111EBull;
    return static_cast<unsigned>((z ^ z >> 31) % limit);
}

SentenceMaker::SentenceMaker(Grammar &grammar, uint64_t seed) : grammar_(grammar), random_(seed * 2654435761u + 88172645463325252ull) {
    for (unsigned parameters = 0; parameters <= (Yield | Await); parameters += Yield)
        grammar.nonterminal("IdentifierReference", parameters);
    grammar.expand();
    heights_.assign(grammar.nonterminals.size(), 1000);
    for (bool is_changed = true; is_changed;) {
        is_changed = false;
        for (const Rule &it : grammar.rules) {
            int found = height(it), &known = heights_[index(it.nonterminal)];
            is_changed |= found < known;
            known = std::min(known, found);
        }
    }
}

int SentenceMaker::height(const Rule &rule) const {
    int highest = 0;
    for (Dot dot = rule.first; dot < grammar_.end_of(rule); dot++)
        if (is_nonterminal(grammar_.element(dot))) highest = std::max(highest, heights_[index(grammar_.element(dot) - FIRST_NONTERMINAL)]);
    return highest + 1;
}

void SentenceMaker::push_terminal(int terminal) {
    const string &text = grammar_.terminals[index(terminal)];
    string out = text;
    if (text == "<IdentifierName but not ReservedWord>") out = random_.below(12) ? random_.pick(IDENTIFIERS) : random_.pick(CONTEXTUAL);
    else if (text == "<IdentifierName>") out = random_.below(3) ? random_.pick(NAMES) : random_.pick(WORDS);
    else if (text == "<NumericLiteral>") out = random_.pick(NUMBERS);
    else if (text == "<StringLiteral>") out = random_.pick(STRINGS);
    else if (text == "<RegularExpressionLiteral>") out = random_.pick(REGEXPS);
    else if (text == "<NoSubstitutionTemplate>") out = random_.pick(TEMPLATES);
    else if (text == "<TemplateHead>") out = "`h${";
    else if (text == "<TemplateMiddle>") out = "}m${";
    else if (text == "<TemplateTail>") out = random_.pick(TAILS);
    else if (text == "<PrivateIdentifier>") out = random_.below(10) ? random_.below(3) ? PRIVATE[0] : PRIVATE[1] : PRIVATE[2];
    tokens_.push_back(out);
}

// The symbol by which a cover is made, mostly: what refines it, so that most sentences are scripts.
int SentenceMaker::replacement(int parent, int nonterminal) {
    const string &name = grammar_.name_of(nonterminal), &around = grammar_.name_of(parent);
    unsigned parameters = grammar_.nonterminals[index(parent)].parameters & (Yield | Await);
    if (around == "ArrowParameters" && name[0] == 'C') return grammar_.nonterminal("ArrowFormalParameters", parameters);
    if (around == "AsyncArrowFunction" && name[0] == 'C') return grammar_.nonterminal("AsyncArrowHead", 0);
    if (name == "CoverParenthesizedExpressionAndArrowParameterList" && random_.below(20))
        return grammar_.nonterminal("ParenthesizedExpression", parameters);
    if (name != "LeftHandSideExpression" || !HAS_TARGET.count(around)) return nonterminal;
    if (around != "UpdateExpression" && random_.below(2)) return grammar_.nonterminal("AssignmentPattern", parameters);
    return random_.below(3) ? grammar_.nonterminal("IdentifierReference", parameters) : nonterminal;
}

int SentenceMaker::plainer_rule(int nonterminal, const vector<int> &rules, int chosen) {
    const string &name = grammar_.name_of(nonterminal);
    auto with_alternative = [&](int alternative) {
        for (int it : rules)
            if (grammar_.rules[index(it)].alternative == alternative) return it;
        return chosen;
    };
    auto plain = PLAIN.find(name);
    if (is_expression(name) && name != "PrimaryExpression" && random_.below(100) < (plain == PLAIN.end() ? 95 : plain->second)) return rules[0];
    if (name == "PrimaryExpression" && random_.below(3) == 0) return with_alternative(1);
    if (name == "Statement" && random_.below(3) == 0) return with_alternative(3);
    if (name == "FormalParameters" && random_.below(3) == 0) return rules[0];
    if (NAMED.count(name) && random_.below(40)) return grammar_.nonterminals[index(nonterminal)].rules[0];
    return chosen;
}

// A rule within the budget of height, else one of the lowest; -1 if there is none.
int SentenceMaker::chosen_rule(int nonterminal, int budget) {
    vector<int> rules;
    for (int highest : {budget, heights_[index(nonterminal)]}) {
        if (!rules.empty()) break;
        for (int it : grammar_.nonterminals[index(nonterminal)].rules)
            if (height(grammar_.rules[index(it)]) <= highest && (!grammar_.is_misplaced(grammar_.rules[index(it)]) || random_.below(30) == 0))
                rules.push_back(it);
    }
    if (rules.empty()) return -1;
    return plainer_rule(nonterminal, rules, rules[random_.below(static_cast<unsigned>(rules.size()))]);
}

void SentenceMaker::make(int nonterminal, int budget) {
    int rule = chosen_rule(nonterminal, tokens_.size() > MOST_TOKENS ? 0 : budget);
    if (rule >= 0) make_rule(rule, budget);
}

void SentenceMaker::make_rule(int rule, int budget) {
    const Rule made = grammar_.rules[index(rule)];
    for (Dot dot = made.first; dot < grammar_.end_of(made); dot++) {
        Element it = grammar_.element(dot);
        bool is_module_name = grammar_.name_of(made.nonterminal) == "ModuleExportName";
        if (is_terminal(it) && is_module_name && grammar_.terminals[index(it)] == "<StringLiteral>") tokens_.push_back(random_.pick(MODULE_STRINGS));
        else if (is_terminal(it)) push_terminal(it);
        else if (is_nonterminal(it)) make(replacement(made.nonterminal, it - FIRST_NONTERMINAL), budget - 1);
    }
}

// Takes a token out, doubles one, swaps two, puts another in its place, takes a `;` out at a line end, or puts a pair round some.
void SentenceMaker::change_token() {
    unsigned count = static_cast<unsigned>(tokens_.size());
    size_t at = random_.below(count), other = random_.below(count);
    auto place = [&](size_t it) { return tokens_.begin() + static_cast<long>(it); };
    switch (random_.below(6)) {
    case 0: tokens_.erase(place(at)); break;
    case 1: {
        string token = tokens_[other];
        tokens_.insert(place(at), token);
        break;
    }
    case 2: std::swap(tokens_[at], tokens_[other]); break;
    case 3:
        push_terminal(static_cast<int>(random_.below(static_cast<unsigned>(grammar_.terminals.size()))));
        tokens_[at] = tokens_.back();
        tokens_.pop_back();
        break;
    case 4: {
        auto semicolon = std::find(place(at), tokens_.end(), ";");
        if (semicolon != tokens_.end()) *semicolon = "\n";
        break;
    }
    default: tokens_.insert(place(std::min(at + 1 + random_.below(6), tokens_.size())), ")"); tokens_.insert(place(at), "(");
    }
}

// Puts a class around, mostly, that has the private names.
void SentenceMaker::enclose_private_names() {
    bool has_any = std::any_of(tokens_.begin(), tokens_.end(), [](const string &it) { return it[0] == '#'; });
    if (!has_any || !random_.below(4)) return;
    static const vector<string> BEFORE{"class", "A", "extends", "B", "{", "#a", ";", "#b", ";", "m", "(", ")", "{"};
    tokens_.insert(tokens_.begin(), BEFORE.begin(), BEFORE.end());
    tokens_.insert(tokens_.end(), {"}", "}"});
}

string SentenceMaker::sentence(int nonterminal) {
    tokens_.clear();
    make(nonterminal, 30 + static_cast<int>(random_.below(100)));
    for (unsigned changes = random_.below(4); changes > 0 && !tokens_.empty(); changes--)
        change_token();
    enclose_private_names();
    string out;
    for (const string &it : tokens_)
        out += it + (random_.below(9) ? ' ' : '\n');
    return out;
}
} // namespace standard
