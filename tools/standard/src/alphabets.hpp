// All strings over an alphabet, up to a length.
#pragma once
#include "comparison.hpp"
#include <functional>

namespace standard {
struct Alphabet {
    string name, before, after;
    vector<string> pieces;
    bool is_spaced = true; // whether a blank stands between two pieces
    int full_length = 0;   // the length to which all strings are tried
    int deep_length = 0;   // that to which those are whose beginnings can all be continued
};
// The alphabets of a file; with a name only that one.
vector<Alphabet> read_alphabets(const string &path, const string &name);

class Enumeration {
  public:
    using Take = std::function<void(const string &text)>;

    explicit Enumeration(const Alphabet &alphabet) : alphabet_(alphabet) {}

    // All strings of at most this length.
    void each(int length, const Take &take) const { walk(alphabet_.before, 0, length, nullptr, take); }
    // Those of just this length, but none behind a beginning that no script continues.
    void each_living(int length, Reader &reader, const Take &take) const { walk(alphabet_.before, 0, length, &reader, take); }

  private:
    const Alphabet &alphabet_;

    void walk(const string &prefix, int length, int longest, Reader *living, const Take &take) const;
    string joined(const string &prefix, const string &piece) const;
};
} // namespace standard
