// Slips in the grammar, each of which some text is to show.
#pragma once
#include "alphabets.hpp"
#include <functional>

namespace standard {
// A grammar with one slip.
struct Mutant {
    string production, slip;
    GrammarSource source;
};
// All slips of one alternative or one symbol, in an order that looks like none, so that the first of them are a sample.
vector<Mutant> mutants_of(const GrammarSource &source);

class MutantRun {
  public:
    MutantRun(const vector<string> &files, const string &goal_symbol, const vector<Alphabet> &alphabets);

    // Tries the mutants whose slip holds one of the words, all if there is no word, until so many were tried or the time is up, and prints
    // those that no text shows. False if none was tried.
    bool run(size_t most, const vector<string> &words, const std::function<bool()> &is_over);

  private:
    // What the program says of a text.
    struct Known {
        string text;
        Verdict verdict;
        size_t tree;
    };
    enum class Outcome { ShownNearby, ShownElsewhere, Unshown, DerivesItself, Unreached };
    GrammarSource source_;
    string goal_symbol_;
    Language language_ = Language::Base;
    vector<Known> texts_;
    std::map<string, vector<size_t>> nearby_; // by production: the texts at its positions
    vector<size_t> elsewhere_;                // texts of all productions and of the alphabets

    void know_positions(Reader &reader);
    void know_alphabets(const vector<Alphabet> &alphabets);
    size_t know(const string &text, std::map<string, size_t> &numbers);
    Outcome outcome(const Mutant &mutant) const;
    bool is_shown(Reader &reader, const vector<size_t> &texts) const;
    bool differs(Reader &reader, const Known &known) const;
};
} // namespace standard
