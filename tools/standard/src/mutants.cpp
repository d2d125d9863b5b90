#include "mutants.hpp"
#include "estree.hpp"
#include "positions.hpp"
#include <algorithm>
#include <cstdio>

namespace standard {
namespace {
// The symbols of expressions, loosest first: a slip takes the next one.
const vector<string> LEVELS{"Expression",           "AssignmentExpression",     "ConditionalExpression",    "ShortCircuitExpression",
                            "LogicalORExpression",  "LogicalANDExpression",     "BitwiseORExpression",      "BitwiseXORExpression",
                            "BitwiseANDExpression", "EqualityExpression",       "RelationalExpression",     "ShiftExpression",
                            "AdditiveExpression",   "MultiplicativeExpression", "ExponentiationExpression", "UnaryExpression",
                            "UpdateExpression",     "LeftHandSideExpression",   "CallExpression",           "MemberExpression",
                            "PrimaryExpression"};
constexpr int ALPHABET_LENGTH = 3;

template <class Item> void erase_at(vector<Item> &items, size_t at) { items.erase(items.begin() + static_cast<long>(at)); }

// Makes the slips of one alternative.
class SlipMaker {
  public:
    SlipMaker(const GrammarSource &source, size_t production, size_t alternative, vector<Mutant> &out)
        : source_(source), production_(production), alternative_(alternative), given_(source.productions[production].alternatives[alternative]),
          out_(out) {}

    void make() {
        Mutant &gone = add("alternative gone");
        erase_at(gone.source.productions[production_].alternatives, alternative_);
        for (size_t i = 0; i < given_.guards.size(); i++)
            erase_at(altered(add("guard gone")).guards, i);
        for (size_t i = 0; i < given_.symbols.size(); i++)
            make_of(i);
    }

  private:
    const GrammarSource &source_;
    size_t production_, alternative_;
    const Alternative &given_;
    vector<Mutant> &out_;

    Mutant &add(const string &slip) {
        const string &name = source_.productions[production_].name;
        out_.push_back({name, slip + " in " + name + " : " + given_.text, source_});
        return out_.back();
    }
    Alternative &altered(Mutant &mutant) const { return mutant.source.productions[production_].alternatives[alternative_]; }

    void make_of(size_t at) {
        const Symbol &symbol = given_.symbols[at];
        bool is_lookahead = symbol.kind == Symbol::Kind::Lookahead;
        if (is_lookahead || symbol.kind == Symbol::Kind::NoLineTerminator) erase_at(altered(add("restriction gone")).symbols, at);
        if (is_lookahead) make_of_lookahead(symbol);
        if (symbol.is_optional) altered(add("option gone from " + symbol.text)).symbols[at].is_optional = false;
        if (symbol.kind != Symbol::Kind::Nonterminal) return;
        for (size_t i = 0; i < symbol.arguments.size(); i++)
            make_of_argument(at, i);
        make_of_level(at);
    }

    void make_of_lookahead(const Symbol &symbol) {
        size_t number = static_cast<size_t>(symbol.lookahead);
        const auto &sequences = source_.lookaheads[number].sequences;
        for (size_t i = 0; i < sequences.size() && sequences.size() > 1; i++)
            erase_at(add("lookahead " + sequences[i][0].text + " gone").source.lookaheads[number].sequences, i);
    }

    // The profile has neither Yield nor Await, nor Default.
    void make_of_argument(size_t at, size_t number) {
        const Symbol &symbol = given_.symbols[at];
        const Argument &argument = symbol.arguments[number];
        if (argument.parameter != In && argument.parameter != Return && argument.parameter != Tagged) return;
        for (char sign : {'+', '~', '?'}) {
            bool has_own = source_.productions[production_].parameters & argument.parameter;
            if (sign == argument.sign || (sign == '?' && !has_own)) continue;
            Mutant &mutant = add("argument " + parameter_name(argument.parameter) + " as " + string(1, sign) + " of " + symbol.text);
            altered(mutant).symbols[at].arguments[number].sign = sign;
        }
    }

    void make_of_level(size_t at) {
        const Symbol &symbol = given_.symbols[at];
        auto level = std::find(LEVELS.begin(), LEVELS.end(), symbol.text);
        if (level == LEVELS.end()) return;
        for (long step : {-1, 1}) {
            long number = level - LEVELS.begin() + step;
            if (number < 0 || number >= static_cast<long>(LEVELS.size())) continue;
            const string &other = LEVELS[static_cast<size_t>(number)];
            Symbol &changed = altered(add(symbol.text + " as " + other)).symbols[at];
            changed.text = other;
            bool has_in = std::any_of(changed.arguments.begin(), changed.arguments.end(), [](const Argument &it) { return it.parameter == In; });
            bool needs_in = source_.productions[static_cast<size_t>(source_.find(other))].parameters & In;
            bool has_own = source_.productions[production_].parameters & In;
            if (!has_in && needs_in) changed.arguments.push_back({In, has_own ? '?' : '+'});
        }
    }
};

// Whether a nonterminal derives itself alone: then it has no end of derivations.
class SelfDerivation {
  public:
    explicit SelfDerivation(const Grammar &grammar)
        : grammar_(grammar), units_(grammar.nonterminals.size()), states_(grammar.nonterminals.size(), State::New) {
        for (const Rule &it : grammar.rules)
            find_units(it);
    }

    bool exists() {
        for (size_t i = 0; i < units_.size(); i++)
            if (states_[i] == State::New && leads_back(i)) return true;
        return false;
    }

  private:
    enum class State { New, Open, Done };
    const Grammar &grammar_;
    vector<vector<size_t>> units_;
    vector<State> states_;

    void find_units(const Rule &rule) {
        vector<size_t> parts;
        size_t needed = 0;
        for (Dot dot = rule.first; dot < grammar_.end_of(rule); dot++) {
            Element it = grammar_.element(dot);
            if (is_terminal(it)) return;
            if (!is_nonterminal(it)) continue;
            parts.push_back(static_cast<size_t>(it - FIRST_NONTERMINAL));
            needed += !grammar_.nonterminals[parts.back()].is_nullable;
        }
        for (size_t it : parts)
            if (needed == 0 || (needed == 1 && !grammar_.nonterminals[it].is_nullable)) units_[static_cast<size_t>(rule.nonterminal)].push_back(it);
    }

    bool leads_back(size_t nonterminal) {
        states_[nonterminal] = State::Open;
        for (size_t it : units_[nonterminal])
            if (states_[it] == State::Open || (states_[it] == State::New && leads_back(it))) return true;
        states_[nonterminal] = State::Done;
        return false;
    }
};
} // namespace

vector<Mutant> mutants_of(const GrammarSource &source) {
    vector<Mutant> out;
    for (size_t i = 0; i < source.productions.size(); i++)
        for (size_t j = 0; j < source.productions[i].alternatives.size(); j++)
            SlipMaker(source, i, j, out).make();
    uint64_t state = 1;
    for (size_t i = out.size(); i > 1; i--) {
        state = state * 6364136223846793005ull + 1442695040888963407ull;
        std::swap(out[i - 1], out[(state >> 33) % i]);
    }
    return out;
}

MutantRun::MutantRun(const vector<string> &files, const string &goal_symbol, const vector<Alphabet> &alphabets) : goal_symbol_(goal_symbol) {
    for (const string &it : files)
        source_.read(it);
    Grammar grammar(source_);
    Reader reader(grammar, goal_symbol_);
    language_ = reader.language();
    know_positions(reader);
    know_alphabets(alphabets);
}

size_t MutantRun::know(const string &text, std::map<string, size_t> &numbers) {
    auto found = numbers.emplace(text, texts_.size());
    if (!found.second) return found.first->second;
    ProgramAnswer answer = program_answer(text, language_);
    texts_.push_back({text, answer.verdict, std::hash<string>()(answer.tree)});
    return texts_.size() - 1;
}

void MutantRun::know_positions(Reader &reader) {
    std::map<string, size_t> numbers;
    std::map<string, std::set<size_t>> by_production;
    Positions(reader.grammar, reader.start_symbol()).texts([&](int production, const string &text) {
        by_production[source_.productions[static_cast<size_t>(production)].name].insert(know(text, numbers));
    });
    for (const auto &it : by_production)
        nearby_[it.first].assign(it.second.begin(), it.second.end());
    for (size_t i = 0; i < texts_.size(); i++)
        if (texts_[i].text.find('\n') == string::npos) elsewhere_.push_back(i);
}

void MutantRun::know_alphabets(const vector<Alphabet> &alphabets) {
    std::map<string, size_t> numbers;
    for (const Alphabet &it : alphabets)
        Enumeration(it).each(ALPHABET_LENGTH, [&](const string &text) { elsewhere_.push_back(know(text, numbers)); });
}

bool MutantRun::differs(Reader &reader, const Known &known) const {
    Reading reading = reader.read(known.text);
    if (reading.refined > 1 || reading.is_cover_ambiguous || reading.is_accepted == (known.verdict == Verdict::SyntaxError)) return true;
    if (known.verdict != Verdict::Accepted) return false;
    Estree estree(reader.source);
    return std::hash<string>()(estree.program(reading.tree)) != known.tree;
}

bool MutantRun::is_shown(Reader &reader, const vector<size_t> &texts) const {
    return std::any_of(texts.begin(), texts.end(), [&](size_t it) { return differs(reader, texts_[it]); });
}

MutantRun::Outcome MutantRun::outcome(const Mutant &mutant) const {
    auto nearby = nearby_.find(mutant.production);
    if (nearby == nearby_.end()) return Outcome::Unreached;
    Grammar grammar(mutant.source);
    Reader reader(grammar, goal_symbol_);
    if (SelfDerivation(grammar).exists()) return Outcome::DerivesItself;
    if (is_shown(reader, nearby->second)) return Outcome::ShownNearby;
    return is_shown(reader, elsewhere_) ? Outcome::ShownElsewhere : Outcome::Unshown;
}

bool MutantRun::run(size_t most, const vector<string> &words, const std::function<bool()> &is_over) {
    vector<Mutant> mutants = mutants_of(source_);
    std::map<Outcome, size_t> counts;
    vector<string> unshown;
    size_t tried = 0;
    for (const Mutant &it : mutants) {
        bool is_wanted =
            words.empty() || std::any_of(words.begin(), words.end(), [&](const string &word) { return it.slip.find(word) != string::npos; });
        if (!is_wanted) continue;
        if (tried == most || is_over()) break;
        tried++;
        Outcome found = outcome(it);
        counts[found]++;
        if (found == Outcome::Unshown) unshown.push_back(it.slip);
    }
    printf("slips %zu, tried %zu: shown at positions of the production %zu, by other texts %zu, not shown %zu; a symbol derives itself %zu, no "
           "position in the profile %zu\n",
           mutants.size(), tried, counts[Outcome::ShownNearby], counts[Outcome::ShownElsewhere], counts[Outcome::Unshown],
           counts[Outcome::DerivesItself], counts[Outcome::Unreached]);
    for (const string &it : unshown)
        printf("    %s\n", it.c_str());
    return tried > 0;
}
} // namespace standard
