#include "comparison.hpp"
#include "early_errors.hpp"
#include "estree.hpp"
#include <algorithm>
#include <cstdio>

namespace standard {
namespace {
constexpr size_t EXAMPLES = 6, SHOWN_BYTES = 300;

string named(Verdict verdict, int error_number) {
    if (verdict == Verdict::Accepted) return "accepts";
    if (verdict == Verdict::EarlyError) return "early error E" + std::to_string(error_number);
    return verdict == Verdict::SyntaxError ? "syntax error" : "another refusal";
}
} // namespace

string shown(const string &text) {
    string out;
    for (char c : text.size() > SHOWN_BYTES ? text.substr(0, SHOWN_BYTES) + " .." : text)
        out += c == '\n' ? string("\\n") : string(1, c);
    return out;
}

string line_and_column(const string &text, int at) {
    int line = 1, column = 1;
    for (int i = 0; i < at;) {
        bool is_pair = text.compare(static_cast<size_t>(i), 2, "\r\n") == 0;
        Character it = character_at(text, i);
        bool is_end = is_line_terminator(it.code);
        line += is_end;
        column = is_end ? 1 : column + 1;
        i += is_pair ? 2 : it.length;
    }
    return std::to_string(line) + ":" + std::to_string(column);
}

void Tally::disagree(const string &how, const string &text) {
    disagreements[how]++;
    vector<string> &known = examples[how];
    if (known.size() < EXAMPLES) known.push_back(text);
}

long Tally::disagreement_count() const {
    long count = 0;
    for (const auto &it : disagreements)
        count += it.second;
    return count;
}

StandardAnswer standard_answer(Reader &reader, const string &text) {
    StandardAnswer out;
    out.reading = reader.read(text);
    if (!out.reading.is_accepted) return out;
    out.verdict = Verdict::Accepted;
    EarlyErrors early(reader.source);
    const vector<EarlyError> &errors = early.of_script(out.reading.tree);
    if (errors.empty()) return out;
    EarlyError least = *std::min_element(errors.begin(), errors.end());
    out.verdict = Verdict::EarlyError;
    out.error_number = least.number;
    out.place = line_and_column(text, least.place);
    return out;
}

void Comparison::compare(const string &text) {
    ProgramAnswer program = program_answer(text, reader.language());
    tally.texts++;
    if (program.verdict == Verdict::TooDeep) {
        tally.too_deep++;
        return;
    }
    // patterns of regular expressions aren't read here
    if (program.verdict == Verdict::EarlyError && program.error_number == 37) {
        tally.patterns++;
        return;
    }
    StandardAnswer standard = standard_answer(reader, text);
    if (standard.reading.refined > 1) tally.disagree("two derivations are left", text);
    if (standard.reading.is_cover_ambiguous) tally.disagree("a cover is refined in two ways", text);
    if (standard.verdict != program.verdict || standard.error_number != program.error_number) {
        string reason = standard.reading.is_accepted ? "" : " (" + standard.reading.reason + ")";
        tally.disagree("standard " + named(standard.verdict, standard.error_number) + reason + ", program " +
                           named(program.verdict, program.error_number),
                       text);
    } else if (standard.verdict == Verdict::SyntaxError) {
        tally.refused++;
    } else if (standard.verdict == Verdict::EarlyError) {
        tally.early++;
        if (standard.place != program.place)
            tally.disagree("place of E" + std::to_string(standard.error_number),
                           text + "   [standard " + standard.place + ", program " + program.place + "]");
    } else {
        tally.accepted++;
        compare_trees(text, standard.reading, program);
    }
}

void Comparison::compare_trees(const string &text, const Reading &reading, const ProgramAnswer &program) {
    cover(reading.tree);
    Estree estree(reader.source);
    string tree = estree.program(reading.tree);
    if (tree != program.tree) return tally.disagree("tree", text + "\n        standard " + tree + "\n        program  " + program.tree);
    int pairs = program_pairs(text, reader.language());
    if (pairs != estree.grouping_pairs())
        tally.disagree("grouping pairs",
                       text + "   [standard " + std::to_string(estree.grouping_pairs()) + ", program " + std::to_string(pairs) + "]");
}

void Comparison::cover(const ParseNode *node) {
    if (!node || node->is_leaf()) return;
    covered_.insert({node->production, node->alternative});
    for (const ParseNode *it : node->children)
        cover(it);
}

void Comparison::report() const {
    printf("  texts %ld: accepted by both, with one tree and number of pairs %ld, early error by both, with number and place %ld, refused by both "
           "%ld; disagreements %ld; nested too deep %ld; refused for a pattern %ld\n",
           tally.texts, tally.accepted, tally.early, tally.refused, tally.disagreement_count(), tally.too_deep, tally.patterns);
    for (const auto &it : tally.disagreements) {
        printf("  ! %ld x %s\n", it.second, it.first.c_str());
        for (const string &text : tally.examples.at(it.first))
            printf("      %s\n", shown(text).c_str());
    }
    fflush(stdout);
}

void Comparison::report_uncovered() const {
    std::set<std::pair<int, int>> left;
    for (const Rule &it : reader.grammar.rules)
        left.insert({reader.grammar.nonterminals[static_cast<size_t>(it.nonterminal)].production, it.alternative});
    for (const auto &it : covered_)
        left.erase(it);
    printf("alternatives in trees that both accept: %zu; in none: %zu\n", covered_.size(), left.size());
    for (const auto &it : left) {
        const Production &production = reader.grammar.source.productions[static_cast<size_t>(it.first)];
        printf("    %s : %s\n", production.name.c_str(), production.alternatives[static_cast<size_t>(it.second)].text.c_str());
    }
}
} // namespace standard
