// Each position of each alternative of the grammar: the shortest sentence that has it, and what is tried there.
#pragma once
#include "grammar.hpp"
#include <functional>

namespace standard {
class Positions {
  public:
    // A text, and the production whose position it tries.
    using Take = std::function<void(int production, const string &text)>;

    Positions(Grammar &grammar, int start_symbol);
    // Gives each text; the number of positions.
    long texts(const Take &take) const;
    // What is put at each of them.
    vector<const char *> probes() const;

  private:
    using Words = vector<string>;
    static constexpr long UNREACHED = 1 << 20;
    Grammar &grammar_;
    vector<long> lengths_; // by nonterminal: how many tokens its shortest sentence has
    vector<int> shortest_; // the rule of that
    vector<char> is_reached_;
    vector<Words> before_, after_; // the shortest sentence around it

    long length(const Rule &rule) const;
    void find_shortest();
    void find_contexts(int start_symbol);
    bool reach(int nonterminal, const Words &before, const Words &after);
    bool reach_children(const Rule &rule);
    string spelled(int terminal) const;
    void push_shortest(int nonterminal, Words &out) const;
    void push_elements(Dot from, Dot to, Words &out) const;
    void try_probes(const Rule &rule, Dot dot, const Take &take) const;
    void try_around(int production, const Words &words, size_t from, size_t to, const Take &given) const;
};
} // namespace standard
