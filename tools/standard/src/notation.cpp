#include "notation.hpp"
#include <algorithm>
#include <fstream>
#include <stdexcept>

namespace standard {
namespace {
const char *const PARAMETERS[PARAMETER_COUNT] = {"In", "Yield", "Await", "Return", "Default", "Tagged"};
const string NO_LINE_TERMINATOR = "[no LineTerminator here]", LOOKAHEAD = "[lookahead <! {", EMPTY = "[empty]", BUT_NOT = " but not ";

bool begins(const string &text, size_t at, const string &with) { return text.compare(at, with.size(), with) == 0; }

string squeezed(const string &text) {
    string out;
    for (char c : text)
        if (c != ' ' || (!out.empty() && out.back() != ' ')) out += c;
    while (!out.empty() && out.back() == ' ')
        out.pop_back();
    return out;
}

size_t end_of_name(const string &text, size_t at) {
    while (at < text.size() && isalpha(static_cast<unsigned char>(text[at])))
        at++;
    return at;
}

// What is between brackets, parted by commas.
vector<string> listed(const string &text) {
    vector<string> out(1);
    for (char c : text)
        if (c == ',') out.emplace_back();
        else if (c != ' ') out.back() += c;
    return out;
}

// Reads one alternative of a production.
class AlternativeReader {
  public:
    AlternativeReader(const string &line, vector<Lookahead> &lookaheads) : text_(squeezed(line)), lookaheads_(lookaheads) {}

    Alternative read() {
        out_.text = text_;
        while (at_ < text_.size())
            read_element();
        return out_;
    }

  private:
    string text_;
    vector<Lookahead> &lookaheads_;
    Alternative out_;
    size_t at_ = 0;

    size_t find(char c, size_t from) const {
        size_t at = text_.find(c, from);
        if (at == string::npos) throw std::runtime_error("grammar: no " + string(1, c) + " in: " + text_);
        return at;
    }

    void read_element() {
        if (text_[at_] == ' ') at_++;
        else if (text_[at_] == '`') read_terminal();
        else if (begins(text_, at_, EMPTY)) at_ += EMPTY.size();
        else if (begins(text_, at_, NO_LINE_TERMINATOR)) {
            push(Symbol::Kind::NoLineTerminator);
            at_ += NO_LINE_TERMINATOR.size();
        } else if (begins(text_, at_, LOOKAHEAD)) read_lookahead();
        else if (text_[at_] == '[') read_guard();
        else if (isalpha(static_cast<unsigned char>(text_[at_]))) read_nonterminal();
        else throw std::runtime_error("grammar: can't be read: " + text_);
    }

    Symbol &push(Symbol::Kind kind) {
        out_.symbols.emplace_back();
        out_.symbols.back().kind = kind;
        return out_.symbols.back();
    }

    string quoted() {
        size_t end = find('`', at_ + 1);
        string inside = text_.substr(at_ + 1, end - at_ - 1);
        at_ = end + 1;
        return inside;
    }

    void read_terminal() {
        string text = quoted();
        push(Symbol::Kind::Terminal).text = text;
    }

    void read_lookahead() {
        at_ += LOOKAHEAD.size();
        Lookahead lookahead{{{}}};
        bool is_on_same_line = false;
        while (text_[at_] != '}') {
            if (text_[at_] == '`') {
                lookahead.sequences.back().push_back({quoted(), is_on_same_line});
                is_on_same_line = false;
                continue;
            }
            if (text_[at_] == ',') lookahead.sequences.emplace_back();
            is_on_same_line |= text_[at_] == '[';
            at_ += text_[at_] == '[' ? NO_LINE_TERMINATOR.size() : 1;
        }
        at_ += 2;
        push(Symbol::Kind::Lookahead).lookahead = static_cast<int>(lookaheads_.size());
        lookaheads_.push_back(lookahead);
    }

    void read_guard() {
        size_t end = find(']', at_);
        out_.guards.push_back({parameter_named(text_.substr(at_ + 2, end - at_ - 2)), text_[at_ + 1]});
        at_ = end + 1;
    }

    void read_nonterminal() {
        size_t end = end_of_name(text_, at_);
        Symbol &symbol = push(Symbol::Kind::Nonterminal);
        symbol.text = text_.substr(at_, end - at_);
        at_ = end;
        if (text_[at_] == '[') {
            end = find(']', at_);
            for (const string &it : listed(text_.substr(at_ + 1, end - at_ - 1)))
                symbol.arguments.push_back({parameter_named(it.substr(1)), it[0]});
            at_ = end + 1;
        }
        symbol.is_optional = text_[at_] == '?';
        at_ += symbol.is_optional;
        if (begins(text_, at_, BUT_NOT)) {
            symbol.text += text_.substr(at_);
            at_ = text_.size();
        }
    }
};

bool names(const Alternative &alternative, const string &name) {
    return std::any_of(alternative.symbols.begin(), alternative.symbols.end(),
                       [&](const Symbol &it) { return it.kind == Symbol::Kind::Nonterminal && it.text == name; });
}

// Takes out what the test says of, and counts it.
template <class Test> size_t take_out(vector<Alternative> &alternatives, Test test) {
    auto end = std::remove_if(alternatives.begin(), alternatives.end(), test);
    size_t count = static_cast<size_t>(alternatives.end() - end);
    alternatives.erase(end, alternatives.end());
    return count;
}
} // namespace

unsigned parameter_named(const string &name) {
    for (unsigned i = 0; i < PARAMETER_COUNT; i++)
        if (name == PARAMETERS[i]) return 1u << i;
    throw std::runtime_error("grammar: no such parameter: " + name);
}

string parameter_name(unsigned parameter) {
    for (unsigned i = 0; i < PARAMETER_COUNT; i++)
        if (parameter == 1u << i) return PARAMETERS[i];
    return "";
}

int GrammarSource::find(const string &name) const {
    auto it = numbers_.find(name);
    return it == numbers_.end() ? -1 : it->second;
}

void GrammarSource::read(const string &path) {
    std::ifstream file(path);
    if (!file) throw std::runtime_error("no file " + path);
    for (string line; std::getline(file, line);)
        read_line(line);
}

void GrammarSource::read_line(const string &line) {
    if (line.empty() || line[0] == '#') return;
    if (line[0] == '@') clause_ = line.substr(1);
    else if (begins(line, 0, "%set ")) rules_.insert(line.substr(5));
    else if (begins(line, 0, "%refine ")) read_refinement(line.substr(8));
    else if (begins(line, 0, "drop ")) drop_symbol(line.substr(5));
    else if (begins(line, 0, "drop-alternative ")) drop_alternative(line.substr(17));
    else if (line[0] == ' ') read_alternative(line);
    else read_head(line);
}

// `Name[In, Yield] :` begins a production anew; `+Name :` adds alternatives to it.
void GrammarSource::read_head(const string &line) {
    bool is_addition = line[0] == '+';
    size_t end = end_of_name(line, is_addition);
    string name = line.substr(is_addition, end - is_addition);
    if (name.empty()) throw std::runtime_error("grammar: can't be read: " + line);
    is_one_of_ = line.find("one of") != string::npos;
    current_ = find(name);
    if (is_addition && current_ < 0) throw std::runtime_error("grammar: nothing to add to: " + line);
    if (is_addition) return;
    if (current_ < 0) {
        current_ = numbers_[name] = static_cast<int>(productions.size());
        productions.emplace_back();
    }
    Production &production = productions[static_cast<size_t>(current_)];
    production = {name, clause_, 0, {}};
    if (line[end] != '[') return;
    for (const string &it : listed(line.substr(end + 1, line.find(']', end) - end - 1)))
        production.parameters |= parameter_named(it);
}

// `%refine Parent : Cover by Symbol`.
void GrammarSource::read_refinement(const string &line) {
    size_t colon = line.find(" : "), by = line.find(" by ");
    if (colon == string::npos || by == string::npos) throw std::runtime_error("grammar: can't be read: " + line);
    refinements.push_back({line.substr(0, colon), line.substr(colon + 3, by - colon - 3), line.substr(by + 4)});
}

void GrammarSource::read_alternative(const string &line) {
    if (current_ < 0) throw std::runtime_error("grammar: an alternative of nothing: " + line);
    vector<Alternative> &alternatives = productions[static_cast<size_t>(current_)].alternatives;
    Alternative read = AlternativeReader(line, lookaheads).read();
    if (!is_one_of_) {
        alternatives.push_back(read);
        return;
    }
    for (const Symbol &it : read.symbols)
        alternatives.push_back({"`" + it.text + "`", {}, {it}});
}

// `drop Name` takes out each alternative that names it.
void GrammarSource::drop_symbol(const string &name) {
    size_t count = 0;
    for (Production &it : productions)
        count += take_out(it.alternatives, [&](const Alternative &each) { return names(each, name); });
    if (!count) throw std::runtime_error("grammar: nothing to drop: " + name);
}

// `drop-alternative Name : alternative` takes out one.
void GrammarSource::drop_alternative(const string &line) {
    size_t colon = line.find(" : ");
    int number = colon == string::npos ? -1 : find(line.substr(0, colon));
    string text = number < 0 ? "" : squeezed(line.substr(colon + 3));
    if (number < 0 || take_out(productions[static_cast<size_t>(number)].alternatives, [&](const Alternative &it) { return it.text == text; }) != 1)
        throw std::runtime_error("grammar: not dropped: " + line);
}
} // namespace standard
