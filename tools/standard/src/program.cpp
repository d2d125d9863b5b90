#include "program.hpp"
#include <algorithm>
#include <cstring>
#include <vector>
extern "C" {
#include "jslint.h"
}

namespace standard {
namespace {
struct Output {
    bool is_refusal;
    string text;
};

Output answer(Language language, uint32_t command, const string &text, const string &second) {
    static thread_local std::vector<uint8_t> room(1 << 20);
    static const uint8_t nothing[1] = {0};
    auto bytes = [](const string &it) { return it.empty() ? nothing : reinterpret_cast<const uint8_t *>(it.data()); };
    for (;;) {
        jslint_outcome outcome;
        jslint_answer_in(static_cast<uint32_t>(language), command, bytes(text), text.size(), bytes(second), second.size(), room.data(), room.size(),
                         &outcome);
        if (outcome.length <= room.size()) return {outcome.is_refusal != 0, string(reinterpret_cast<const char *>(room.data()), outcome.length)};
        room.resize(outcome.length);
    }
}

// Writes JSON again without the values of literals and of templates' parts.
class ValuelessJson {
  public:
    explicit ValuelessJson(const string &json) : json_(json) {}

    string value() {
        if (json_[at_] == '"') return text();
        if (json_[at_] == '[') return array();
        if (json_[at_] == '{') return object();
        size_t from = at_;
        while (!strchr(",]}", json_[at_]))
            at_++;
        return json_.substr(from, at_ - from);
    }

  private:
    const string &json_;
    size_t at_ = 0;

    string text() {
        size_t from = at_++;
        while (json_[at_] != '"')
            at_ += json_[at_] == '\\' ? 2 : 1;
        at_++;
        return json_.substr(from, at_ - from);
    }

    string array() {
        string out = "[";
        at_++;
        while (json_[at_] != ']') {
            if (json_[at_] == ',') out += json_[at_++];
            out += value();
        }
        at_++;
        return out + "]";
    }

    string object() {
        std::vector<std::pair<string, string>> fields;
        string type;
        at_++;
        while (json_[at_] != '}') {
            at_ += json_[at_] == ',';
            string name = text();
            at_++;
            fields.push_back({name, value()});
            if (name == "\"type\"") type = fields.back().second;
        }
        at_++;
        bool is_literal = type == "\"Literal\"", is_part = type == "\"TemplateElement\"";
        string out = "{";
        for (const auto &it : fields) {
            bool is_value = it.first == "\"value\"" && (is_literal || is_part);
            if (is_value || (it.first == "\"regex\"" && is_literal)) continue;
            out += (out.size() > 1 ? "," : "") + it.first + ":" + it.second;
        }
        return out + "}";
    }
};
} // namespace

ProgramAnswer program_answer(const string &text, Language language) {
    ProgramAnswer out;
    Output tree = answer(language, JSLINT_TREE, text, "");
    if (!tree.is_refusal) {
        out.verdict = Verdict::Accepted;
        out.tree = ValuelessJson(tree.text).value();
        return out;
    }
    out.refusal = tree.text;
    size_t early = tree.text.find("early error E"), at = tree.text.rfind(" at ");
    if (tree.text.find("syntax error") != string::npos) out.verdict = Verdict::SyntaxError;
    if (tree.text.find("nested too deep") != string::npos) out.verdict = Verdict::TooDeep;
    if (early == string::npos || at == string::npos) return out;
    out.verdict = Verdict::EarlyError;
    out.error_number = atoi(tree.text.c_str() + early + strlen("early error E"));
    // (a hint may stand behind the place)
    out.place = tree.text.substr(at + 4, tree.text.find_first_of(" \n", at + 4) - at - 4);
    return out;
}

int program_pairs(const string &text, Language language) {
    Output table = answer(language, JSLINT_COST, text, "");
    Output verified = table.is_refusal ? table : answer(language, JSLINT_VERIFY, text, table.text);
    return verified.is_refusal || verified.text.compare(0, 6, "pairs ") ? -1 : atoi(verified.text.c_str() + 6);
}
} // namespace standard
