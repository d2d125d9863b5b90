#include "alphabets.hpp"
#include <fstream>
#include <sstream>
#include <stdexcept>

namespace standard {
namespace {
string replaced(string text, const string &what, const string &with) {
    for (size_t at = 0; (at = text.find(what, at)) != string::npos; at += with.size())
        text.replace(at, what.size(), with);
    return text;
}

// A piece is written without blanks and line ends.
string unescaped(const string &text) { return text == "-" ? "" : replaced(replaced(text, "\\u0020", " "), "\\n", "\n"); }

vector<string> split(const string &line, const string &between) {
    vector<string> out;
    size_t from = 0;
    for (size_t to; (to = line.find(between, from)) != string::npos; from = to + between.size())
        out.push_back(line.substr(from, to - from));
    out.push_back(line.substr(from));
    return out;
}

Alphabet read_alphabet(const string &line) {
    vector<string> parts = split(line, " :: ");
    Alphabet out;
    string mode, piece;
    if (parts.size() != 4) throw std::runtime_error("no alphabet: " + line);
    std::stringstream head(parts[0]), pieces(parts[3]);
    head >> out.name >> out.full_length >> out.deep_length >> mode;
    out.is_spaced = mode != "tight";
    out.before = unescaped(parts[1]);
    out.after = unescaped(parts[2]);
    while (pieces >> piece)
        out.pieces.push_back(piece == "-" ? "-" : unescaped(piece));
    return out;
}
} // namespace

vector<Alphabet> read_alphabets(const string &path, const string &name) {
    std::ifstream file(path);
    if (!file) throw std::runtime_error("no file " + path);
    vector<Alphabet> out;
    for (string line; std::getline(file, line);)
        if (!line.empty() && line[0] != '#' && (name.empty() || line.compare(0, name.size() + 1, name + " ") == 0))
            out.push_back(read_alphabet(line));
    if (out.empty()) throw std::runtime_error("no alphabet " + name + " in " + path);
    return out;
}

string Enumeration::joined(const string &prefix, const string &piece) const {
    bool is_parted = alphabet_.is_spaced && !prefix.empty() && !piece.empty();
    return prefix + (is_parted ? " " : "") + piece;
}

void Enumeration::walk(const string &prefix, int length, int longest, Reader *living, const Take &take) const {
    if (!living || length == longest) take(joined(prefix, alphabet_.after));
    if (length == longest) return;
    if (living) {
        living->recognise(joined(prefix, " "));
        if (living->is_dead()) return;
    }
    for (const string &it : alphabet_.pieces)
        walk(joined(prefix, it), length + 1, longest, living, take);
}
} // namespace standard
