// The program, asked through its C library.
#pragma once
#include <cstdint>
#include <string>

namespace standard {
using std::string;

enum class Verdict { Accepted, SyntaxError, EarlyError, TooDeep, Other };

struct ProgramAnswer {
    Verdict verdict = Verdict::Other;
    int error_number = 0;
    string place;   // of an early error, as LINE:COLUMN
    string refusal; // the words of a refusal
    string tree;    // of an accepted text: its JSON without the values of literals and templates
};

// The languages, by the numbers of jslint.h.
enum class Language : uint32_t { Base = 0, Script2022 = 2, Module = 3 };

ProgramAnswer program_answer(const string &text, Language language);
// How many grouping pairs `verify` counts in an accepted text; -1 if it refuses.
int program_pairs(const string &text, Language language);
} // namespace standard
