// Texts read by the standard and by the program, and compared.
#pragma once
#include "program.hpp"
#include "reader.hpp"

namespace standard {
// What came of the texts that were compared.
struct Tally {
    long texts = 0, accepted = 0, early = 0, refused = 0, too_deep = 0, patterns = 0;
    std::map<string, long> disagreements;
    std::map<string, vector<string>> examples;

    void disagree(const string &how, const string &text);
    long disagreement_count() const;
};

// What the standard says of a text: the verdict, the least early error and its place.
struct StandardAnswer {
    Verdict verdict = Verdict::SyntaxError;
    int error_number = 0;
    string place;
    Reading reading;
};
StandardAnswer standard_answer(Reader &reader, const string &text);
// Line and column, from 1, of a byte.
string line_and_column(const string &text, int at);
string shown(const string &text);

class Comparison {
  public:
    Reader &reader;
    Tally tally;

    explicit Comparison(Reader &given) : reader(given) {}
    // Compares verdict, early error with number and place, tree, and number of grouping pairs. The standard knows no limit of nesting, so
    // a text beyond it is only counted.
    void compare(const string &text);
    void report() const;
    // The alternatives of the grammar that stand in no tree that both accept.
    void report_uncovered() const;

  private:
    std::set<std::pair<int, int>> covered_; // productions with the number of an alternative

    void compare_trees(const string &text, const Reading &reading, const ProgramAnswer &program);
    void cover(const ParseNode *node);
};
} // namespace standard
