// Clause 11: the token that a goal symbol reads. A backslash in a name, and what Annex B adds, is no token here.
#pragma once
#include "grammar.hpp"

namespace standard {
struct Token {
    enum class Kind : unsigned char { Word, Punctuator, Number, String, RegularExpression, Template, PrivateIdentifier, End, Bad };
    Kind kind = Kind::Bad;
    bool is_after_line_terminator = false, is_inserted = false, has_bad_escape = false;
    int start = 0, end = 0;
    // The terminals of the grammar that it is, -1 for none.
    int terminals[3] = {-1, -1, -1};

    bool is(int terminal) const { return terminals[0] == terminal || terminals[1] == terminal || terminals[2] == terminal; }
    bool is_spelled() const { return (kind == Kind::Word || kind == Kind::Punctuator) && !is_inserted; }
};

// The goal symbols, by what they permit beside InputElementDiv.
struct Goal {
    bool permits_regexp = false, permits_template_tail = false;
};

// The character at a place in UTF-8, and its length.
struct Character {
    unsigned code;
    int length;
};
Character character_at(const string &text, int at);
bool is_line_terminator(unsigned code);

class Lexer {
  public:
    explicit Lexer(Grammar &grammar);

    Token next(const string &text, int at, Goal goal) const;
    // The place after white space and comments; -1 if a comment has no end.
    int skip(const string &text, int at, bool &has_line_terminator) const;

  private:
    Grammar &grammar_;
    bool has_separators_, has_private_identifiers_, has_hashbang_;
    int identifier_name_, identifier_, number_, string_, regexp_, no_substitution_, head_, middle_, tail_, private_identifier_;

    void read_token(const string &text, Goal goal, Token &token) const;
    void read_name(const string &text, Token &token) const;
    void read_private_identifier(const string &text, Token &token) const;
    void read_number(const string &text, Token &token) const;
    void read_string(const string &text, Token &token) const;
    void read_template(const string &text, Token &token) const;
    void read_regexp(const string &text, Token &token) const;
    void read_punctuator(const string &text, Token &token) const;
    int digits_end(const string &text, int at, bool (*is_digit)(unsigned)) const;
    int number_end(const string &text, int at) const;
    int decimal_end(const string &text, int at) const;
};
} // namespace standard
