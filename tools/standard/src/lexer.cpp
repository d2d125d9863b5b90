#include "lexer.hpp"
#include "identifier_characters.hpp"
#include <algorithm>
#include <cstring>

namespace standard {
namespace {
const char *const PUNCTUATORS[] = {
    ">>>=", "...", "===", "!==", "**=", "<<=", ">>=", ">>>", "&&=", "||=", "?\?=", "=>", "==", "!=", "<=", ">=", "&&", "||", "??",
    "?.",   "++",  "--",  "+=",  "-=",  "*=",  "/=",  "%=",  "&=",  "|=",  "^=",   "<<", ">>", "**", "{",  "}",  "(",  ")",  "[",
    "]",    ".",   ";",   ",",   "<",   ">",   "+",   "-",   "*",   "/",   "%",    "&",  "|",  "^",  "!",  "~",  "?",  ":",  "="};

int size_of(const string &text) { return static_cast<int>(text.size()); }
unsigned byte_at(const string &text, int at) { return at < size_of(text) ? static_cast<unsigned char>(text[static_cast<size_t>(at)]) : 0; }
bool is_at(const string &text, int at, const char *what) { return text.compare(static_cast<size_t>(at), strlen(what), what) == 0; }

template <size_t N> bool is_in(const unsigned (&ranges)[N][2], unsigned code) {
    auto it =
        std::upper_bound(std::begin(ranges), std::end(ranges), code, [](unsigned given, const unsigned(&range)[2]) { return given < range[0]; });
    return it != std::begin(ranges) && code <= (*(it - 1))[1];
}
bool is_digit(unsigned c) { return c >= '0' && c <= '9'; }
bool is_octal_digit(unsigned c) { return c >= '0' && c <= '7'; }
bool is_binary_digit(unsigned c) { return c == '0' || c == '1'; }
bool is_hex_digit(unsigned c) { return c < 0x80 && isxdigit(static_cast<int>(c)); }
bool is_start(unsigned c) { return c < 0x80 ? isalpha(static_cast<int>(c)) || c == '$' || c == '_' : is_in(IDENTIFIER_STARTS, c); }
bool is_part(unsigned c) { return is_start(c) || is_digit(c) || c == 0x200C || c == 0x200D || (c >= 0x80 && is_in(IDENTIFIER_PARTS, c)); }
bool is_white_space(unsigned c) {
    return c == 9 || c == 11 || c == 12 || c == 32 || c == 0xA0 || c == 0xFEFF || c == 0x1680 || (c >= 0x2000 && c <= 0x200A) || c == 0x202F ||
           c == 0x205F || c == 0x3000;
}

int name_end(const string &text, int at) {
    while (at < size_of(text)) {
        Character it = character_at(text, at);
        if (!is_part(it.code)) break;
        at += it.length;
    }
    return at;
}

int line_comment_end(const string &text, int at) {
    while (at < size_of(text)) {
        Character it = character_at(text, at);
        if (is_line_terminator(it.code)) break;
        at += it.length;
    }
    return at;
}

int block_comment_end(const string &text, int at, bool &has_line_terminator) {
    while (at + 1 < size_of(text)) {
        if (is_at(text, at, "*/")) return at + 2;
        Character it = character_at(text, at);
        has_line_terminator |= is_line_terminator(it.code);
        at += it.length;
    }
    return -1;
}

// `u{..}`, from the brace on.
int code_point_end(const string &text, int at) {
    int digit = at + 1;
    unsigned long value = 0;
    while (is_hex_digit(byte_at(text, digit))) {
        unsigned c = byte_at(text, digit++);
        value = std::min(0x110000ul, value * 16 + (is_digit(c) ? c - '0' : (c | 32) - 'a' + 10));
    }
    return digit > at + 1 && byte_at(text, digit) == '}' && value <= 0x10FFFF ? digit + 1 : -1;
}

// The end of the escape whose backslash stands before a place; -1 if it is none of a string's (11.8.4).
int escape_end(const string &text, int at) {
    if (at >= size_of(text)) return -1;
    Character it = character_at(text, at);
    if (it.code == '\r') return byte_at(text, at + 1) == '\n' ? at + 2 : at + 1;
    if (it.code == '0') return is_digit(byte_at(text, at + 1)) ? -1 : at + 1;
    if (is_digit(it.code)) return -1;
    if (it.code == 'u' && byte_at(text, at + 1) == '{') return code_point_end(text, at + 1);
    if (it.code != 'x' && it.code != 'u') return at + it.length;
    int count = it.code == 'x' ? 2 : 4;
    for (int i = 1; i <= count; i++)
        if (!is_hex_digit(byte_at(text, at + i))) return -1;
    return at + 1 + count;
}
} // namespace

Character character_at(const string &text, int at) {
    unsigned c = byte_at(text, at);
    auto low = [&](int i) { return byte_at(text, at + i) & 63; };
    if (c < 0x80) return {c, 1};
    if (c < 0xE0) return {(c & 31) << 6 | low(1), 2};
    if (c < 0xF0) return {(c & 15) << 12 | low(1) << 6 | low(2), 3};
    return {(c & 7) << 18 | low(1) << 12 | low(2) << 6 | low(3), 4};
}

bool is_line_terminator(unsigned c) { return c == '\n' || c == '\r' || c == 0x2028 || c == 0x2029; }

Lexer::Lexer(Grammar &grammar)
    : grammar_(grammar), has_separators_(grammar.has("numeric-separators")), has_private_identifiers_(grammar.has("private-identifiers")),
      has_hashbang_(grammar.has("hashbang")) {
    identifier_name_ = grammar.terminal("<IdentifierName>");
    identifier_ = grammar.terminal("<IdentifierName but not ReservedWord>");
    number_ = grammar.terminal("<NumericLiteral>");
    string_ = grammar.terminal("<StringLiteral>");
    regexp_ = grammar.terminal("<RegularExpressionLiteral>");
    no_substitution_ = grammar.terminal("<NoSubstitutionTemplate>");
    head_ = grammar.terminal("<TemplateHead>");
    middle_ = grammar.terminal("<TemplateMiddle>");
    tail_ = grammar.terminal("<TemplateTail>");
    private_identifier_ = has_private_identifiers_ ? grammar.terminal("<PrivateIdentifier>") : -1;
}

int Lexer::skip(const string &text, int at, bool &has_line_terminator) const {
    if (at == 0 && has_hashbang_ && is_at(text, 0, "#!")) at = line_comment_end(text, 2);
    while (at >= 0 && at < size_of(text)) {
        Character it = character_at(text, at);
        if (is_at(text, at, "//")) at = line_comment_end(text, at + 2);
        else if (is_at(text, at, "/*")) at = block_comment_end(text, at + 2, has_line_terminator);
        else if (is_white_space(it.code) || is_line_terminator(it.code)) {
            has_line_terminator |= is_line_terminator(it.code);
            at += it.length;
        } else break;
    }
    return at;
}

Token Lexer::next(const string &text, int at, Goal goal) const {
    Token token;
    int start = skip(text, at, token.is_after_line_terminator);
    token.start = start < 0 ? at : start;
    token.end = start < 0 ? at : start + 1;
    if (start == size_of(text)) {
        token.kind = Token::Kind::End;
        token.end = start;
    } else if (start >= 0) read_token(text, goal, token);
    return token;
}

// The token that begins at its start; it stays Bad if none does.
void Lexer::read_token(const string &text, Goal goal, Token &token) const {
    unsigned c = character_at(text, token.start).code;
    if (is_start(c)) read_name(text, token);
    else if (c == '#' && has_private_identifiers_) read_private_identifier(text, token);
    else if (is_digit(c) || (c == '.' && is_digit(byte_at(text, token.start + 1)))) read_number(text, token);
    else if (c == '"' || c == '\'') read_string(text, token);
    else if (c == '`' || (c == '}' && goal.permits_template_tail)) read_template(text, token);
    else if (c == '/' && goal.permits_regexp) read_regexp(text, token);
    else read_punctuator(text, token);
}

void Lexer::read_name(const string &text, Token &token) const {
    token.end = name_end(text, token.start);
    if (byte_at(text, token.end) == '\\') return;
    string word = text.substr(static_cast<size_t>(token.start), static_cast<size_t>(token.end - token.start));
    token.kind = Token::Kind::Word;
    token.terminals[0] = identifier_name_;
    token.terminals[1] = grammar_.reserved_words.count(word) ? -1 : identifier_;
    token.terminals[2] = grammar_.find_terminal(word);
}

void Lexer::read_private_identifier(const string &text, Token &token) const {
    if (token.start + 1 >= size_of(text) || !is_start(character_at(text, token.start + 1).code)) return;
    token.end = name_end(text, token.start + 1);
    token.kind = Token::Kind::PrivateIdentifier;
    token.terminals[0] = private_identifier_;
}

// After one digit or more, perhaps with separators between them; -1 if there is none.
int Lexer::digits_end(const string &text, int at, bool (*is_digit)(unsigned)) const {
    if (!is_digit(byte_at(text, at))) return -1;
    at++;
    for (;;) {
        if (is_digit(byte_at(text, at))) at++;
        else if (has_separators_ && byte_at(text, at) == '_' && is_digit(byte_at(text, at + 1))) at += 2;
        else return at;
    }
}

int Lexer::number_end(const string &text, int at) const {
    unsigned prefix = byte_at(text, at) == '0' ? byte_at(text, at + 1) | 32 : 0;
    if (prefix != 'x' && prefix != 'o' && prefix != 'b') return decimal_end(text, at);
    int end = digits_end(text, at + 2, prefix == 'x' ? is_hex_digit : prefix == 'o' ? is_octal_digit : is_binary_digit);
    return end >= 0 && byte_at(text, end) == 'n' ? end + 1 : end;
}

int Lexer::decimal_end(const string &text, int at) const {
    int end = at;
    if (byte_at(text, at) != '.') {
        end = byte_at(text, at) == '0' ? at + 1 : digits_end(text, at, is_digit);
        if (byte_at(text, end) == 'n') return end + 1;
    }
    if (byte_at(text, end) == '.') {
        int fraction = digits_end(text, end + 1, is_digit);
        end = fraction < 0 ? end + 1 : fraction;
    }
    if ((byte_at(text, end) | 32) != 'e') return end;
    unsigned sign = byte_at(text, end + 1);
    int exponent = digits_end(text, end + (sign == '+' || sign == '-' ? 2 : 1), is_digit);
    return exponent < 0 ? end : exponent;
}

void Lexer::read_number(const string &text, Token &token) const {
    int end = number_end(text, token.start);
    if (end < 0) return;
    token.end = end;
    if (end < size_of(text) && (is_start(character_at(text, end).code) || is_digit(byte_at(text, end)) || byte_at(text, end) == '\\')) return;
    token.kind = Token::Kind::Number;
    token.terminals[0] = number_;
}

void Lexer::read_string(const string &text, Token &token) const {
    int at = token.start + 1;
    while (at >= 0 && at < size_of(text) && byte_at(text, at) != '\n' && byte_at(text, at) != '\r') {
        if (byte_at(text, at) == byte_at(text, token.start)) {
            token.end = at + 1;
            token.kind = Token::Kind::String;
            token.terminals[0] = string_;
            return;
        }
        at = byte_at(text, at) == '\\' ? escape_end(text, at + 1) : at + character_at(text, at).length;
    }
    token.end = size_of(text);
}

void Lexer::read_template(const string &text, Token &token) const {
    bool is_first = byte_at(text, token.start) == '`';
    for (int at = token.start + 1; at < size_of(text);) {
        bool is_last = byte_at(text, at) == '`';
        if (is_last || is_at(text, at, "${")) {
            token.end = at + (is_last ? 1 : 2);
            token.kind = Token::Kind::Template;
            token.terminals[0] = is_last ? (is_first ? no_substitution_ : tail_) : is_first ? head_ : middle_;
            return;
        }
        bool is_escape = byte_at(text, at) == '\\';
        int end = is_escape ? escape_end(text, at + 1) : at + character_at(text, at).length;
        token.has_bad_escape |= end < 0;
        // (a backslash that begins no escape takes one character)
        at = end >= 0 ? end : at + 1 + (at + 1 < size_of(text) ? character_at(text, at + 1).length : 0);
    }
    token.end = size_of(text);
}

void Lexer::read_regexp(const string &text, Token &token) const {
    bool is_in_class = false;
    for (int at = token.start + 1; at < size_of(text);) {
        Character it = character_at(text, at);
        if (it.code == '\\') {
            at++;
            it = at < size_of(text) ? character_at(text, at) : Character{'\n', 1};
        } else if (it.code == '/' && !is_in_class) {
            token.end = name_end(text, at + 1);
            if (byte_at(text, token.end) == '\\') return;
            token.kind = Token::Kind::RegularExpression;
            token.terminals[0] = regexp_;
            return;
        } else is_in_class = it.code == '[' || (is_in_class && it.code != ']');
        if (is_line_terminator(it.code)) break;
        at += it.length;
    }
    token.end = size_of(text);
}

void Lexer::read_punctuator(const string &text, Token &token) const {
    for (const char *it : PUNCTUATORS) {
        int length = static_cast<int>(strlen(it));
        if (!is_at(text, token.start, it)) continue;
        if (!strcmp(it, "?.") && is_digit(byte_at(text, token.start + 2))) continue;
        int terminal = grammar_.find_terminal(it);
        // (`&&=` and its kin are `&&` and `=` before the 12th edition)
        if (terminal < 0 && length == 3) continue;
        if (terminal < 0) return;
        token.kind = Token::Kind::Punctuator;
        token.end = token.start + length;
        token.terminals[0] = terminal;
        return;
    }
}
} // namespace standard
