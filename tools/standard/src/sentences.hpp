// Sentences of the grammar, made at random from a seed, and what is beside them.
#pragma once
#include "grammar.hpp"
#include <cstdint>

namespace standard {
// SplitMix64.
class Random {
  public:
    explicit Random(uint64_t seed) : state_(seed) {}
    unsigned below(unsigned limit);
    template <size_t N> string pick(const char *const (&words)[N]) { return words[below(N)]; }

  private:
    uint64_t state_;
};

class SentenceMaker {
  public:
    SentenceMaker(Grammar &grammar, uint64_t seed);
    // A sentence of the nonterminal, in three of four cases with one to three tokens changed.
    string sentence(int nonterminal);

  private:
    Grammar &grammar_;
    Random random_;
    vector<int> heights_; // by nonterminal: the height of its lowest tree
    vector<string> tokens_;

    int height(const Rule &rule) const;
    void push_terminal(int terminal);
    void make(int nonterminal, int budget);
    void make_rule(int rule, int budget);
    int chosen_rule(int nonterminal, int budget);
    int plainer_rule(int nonterminal, const vector<int> &rules, int chosen);
    int replacement(int parent, int nonterminal);
    void change_token();
    void enclose_private_names();
};
} // namespace standard
