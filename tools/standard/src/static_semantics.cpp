#include "static_semantics.hpp"
#include <cstdlib>
#include <cstring>

namespace standard {
namespace {
const std::set<string> DECLARES_ITSELF{"FunctionDeclaration", "ClassDeclaration", "GeneratorDeclaration", "AsyncFunctionDeclaration",
                                       "AsyncGeneratorDeclaration"};
const std::set<string> BINDS_NOTHING{"Initializer", "PropertyName", "ModuleExportName"};
const std::set<string> HOLDS_STATEMENTS{"Statement",
                                        "BlockStatement",
                                        "Block",
                                        "StatementList",
                                        "StatementListItem",
                                        "IfStatement",
                                        "BreakableStatement",
                                        "IterationStatement",
                                        "WithStatement",
                                        "SwitchStatement",
                                        "CaseBlock",
                                        "CaseClauses",
                                        "CaseClause",
                                        "DefaultClause",
                                        "LabelledStatement",
                                        "LabelledItem",
                                        "TryStatement",
                                        "Catch",
                                        "Finally"};
const std::set<string> HOLDS_ITEMS{"StatementList", "CaseBlock", "CaseClauses", "CaseClause", "DefaultClause"};

// How many bytes the line terminator at a place has, 0 if there is none.
size_t line_terminator_length(const string &text, size_t at) {
    if (text.compare(at, 2, "\r\n") == 0) return 2;
    Character it = character_at(text, static_cast<int>(at));
    return is_line_terminator(it.code) ? static_cast<size_t>(it.length) : 0;
}

// The character that an escape stands for, and the place after it.
unsigned escaped(const string &text, size_t &at) {
    static const std::map<unsigned, unsigned> SHORT{{'b', 8}, {'f', 12}, {'n', 10}, {'r', 13}, {'t', 9}, {'v', 11}, {'0', 0}};
    auto number = [&](size_t from, size_t count) { return static_cast<unsigned>(strtol(text.substr(from, count).c_str(), nullptr, 16)); };
    Character it = character_at(text, static_cast<int>(at));
    at += static_cast<size_t>(it.length);
    if (it.code == 'x') return at += 2, number(at - 2, 2);
    if (it.code == 'u' && text[at] == '{') {
        size_t from = at + 1, end = text.find('}', at);
        at = end + 1;
        return number(from, end - from);
    }
    if (it.code == 'u') return at += 4, number(at - 4, 4);
    auto known = SHORT.find(it.code);
    return known == SHORT.end() ? it.code : known->second;
}

void push_code_units(unsigned code, vector<unsigned> &out) {
    if (code < 0x10000) return out.push_back(code);
    out.push_back(0xD800 + (code - 0x10000) / 0x400);
    out.push_back(0xDC00 + (code - 0x10000) % 0x400);
}

bool is_high(unsigned unit) { return unit >= 0xD800 && unit < 0xDC00; }
bool is_low(unsigned unit) { return unit >= 0xDC00 && unit < 0xE000; }
bool is_pair(const vector<unsigned> &units, size_t at) { return is_high(units[at]) && at + 1 < units.size() && is_low(units[at + 1]); }

void push_utf8(unsigned code, string &out) {
    auto push = [&](unsigned byte) { out += static_cast<char>(byte); };
    if (code < 0x80) return push(code);
    if (code < 0x800) push(0xC0 | code >> 6);
    else {
        push(code < 0x10000 ? 0xE0 | code >> 12 : 0xF0 | code >> 18);
        if (code >= 0x10000) push(0x80 | (code >> 12 & 63));
        push(0x80 | (code >> 6 & 63));
    }
    push(0x80 | (code & 63));
}
} // namespace

NamesAt StaticSemantics::bound_names(const ParseNode *node) const {
    NamesAt out;
    push_bound(node, out);
    return out;
}

void StaticSemantics::push_bound(const ParseNode *node, NamesAt &out) const {
    if (!node || node->is_leaf()) return;
    const string &name = source_.name(node);
    if (name == "BindingIdentifier") {
        out.push_back({source_.spelled(node), source_.start(node)});
        return;
    }
    if (BINDS_NOTHING.count(name)) return;
    bool is_own_alone = DECLARES_ITSELF.count(name) > 0;
    for (const ParseNode *it : node->children)
        if (!is_own_alone || is(it, "BindingIdentifier")) push_bound(it, out);
}

NamesAt StaticSemantics::lexically_declared_names(const ParseNode *node) const {
    NamesAt out;
    push_lexical(node, out);
    return out;
}

void StaticSemantics::push_lexical(const ParseNode *node, NamesAt &out) const {
    if (!node || node->is_leaf()) return;
    if (is(node, "StatementListItem") && is(node->children[0], "Declaration")) push_bound(node->children[0], out);
    else if (is(node, "StatementListItem")) push_labelled(node->children[0], out);
    else if (HOLDS_ITEMS.count(source_.name(node)))
        for (const ParseNode *it : node->children)
            push_lexical(it, out);
}

// 13.13.6: the function that a label may stand before.
void StaticSemantics::push_labelled(ParseNode *statement, NamesAt &out) const {
    ParseNode *labelled = source_.down_to(statement, "LabelledStatement", "LabelledStatement");
    if (!labelled) return;
    ParseNode *item = labelled->children[2]->children[0];
    if (is(item, "FunctionDeclaration")) push_bound(item, out);
    else push_labelled(item, out);
}

NamesAt StaticSemantics::var_declared_names(const ParseNode *node) const {
    NamesAt out;
    push_var(node, out);
    return out;
}

void StaticSemantics::push_var(const ParseNode *node, NamesAt &out) const {
    if (!node || node->is_leaf()) return;
    const string &name = source_.name(node);
    if (name == "VariableStatement") push_bound(node->children[1], out);
    if (!HOLDS_STATEMENTS.count(name)) return;
    for (size_t i = 0; i < node->children.size(); i++) {
        // In the head of a `for`.
        if (i > 0 && source_.is_token(node->children[i - 1], "var")) push_bound(node->children[i], out);
        else push_var(node->children[i], out);
    }
}

vector<ParseNode *> StaticSemantics::items(const ParseNode *list) const {
    vector<ParseNode *> out;
    for (const ParseNode *it = list; it; it = it->children.size() == 2 ? it->children[0] : nullptr)
        out.insert(out.begin(), it->last());
    return out;
}

NamesAt StaticSemantics::top_level_lexically_declared_names(const ParseNode *list) const {
    NamesAt out;
    for (const ParseNode *it : items(list)) {
        const ParseNode *first = it->children[0];
        if (is(first, "Declaration") && !is(first->children[0], "HoistableDeclaration")) push_bound(first, out);
    }
    return out;
}

NamesAt StaticSemantics::top_level_var_declared_names(const ParseNode *list) const {
    NamesAt out;
    for (const ParseNode *it : items(list)) {
        const ParseNode *first = it->children[0];
        if (is(first, "Statement")) push_var(first, out);
        else if (is(first->children[0], "HoistableDeclaration")) push_bound(first, out);
    }
    return out;
}

bool StaticSemantics::is_simple_parameter_list(const ParseNode *node) const {
    if (!node || node->is_leaf()) return true;
    if (is(node, "FunctionRestParameter") || is(node, "BindingPattern") || is(node, "Initializer")) return false;
    for (const ParseNode *it : node->children)
        if (!is_simple_parameter_list(it)) return false;
    return true;
}

int StaticSemantics::use_strict(const ParseNode *list) const {
    for (const ParseNode *it : items(list)) {
        const ParseNode *statement = is(it->children[0], "Statement") ? it->children[0]->children[0] : nullptr;
        const ParseNode *value = is(statement, "ExpressionStatement") ? statement->children[0] : nullptr;
        if (!value || value->to - value->from != 1 || source_.token(value).kind != Token::Kind::String) return -1;
        string raw = source_.spelled(value);
        if (raw.substr(1, raw.size() - 2) == "use strict") return source_.start(value);
    }
    return -1;
}

string StaticSemantics::prop_name(const ParseNode *name) const {
    const ParseNode *key = name->children[0];
    if (is(key, "ComputedPropertyName")) return "";
    Token::Kind kind = source_.token(key).kind;
    if (kind == Token::Kind::Word) return source_.spelled(key);
    return kind == Token::Kind::String ? string_value(key) : "";
}

vector<unsigned> StaticSemantics::code_units(const ParseNode *string_token) const {
    string spelled = source_.spelled(string_token);
    vector<unsigned> out;
    for (size_t at = 1; at + 1 < spelled.size();) {
        bool is_escape = spelled[at] == '\\';
        size_t continuation = is_escape ? line_terminator_length(spelled, at + 1) : 0;
        Character it = character_at(spelled, static_cast<int>(at));
        if (continuation) at += 1 + continuation;
        else if (is_escape) push_code_units(escaped(spelled, ++at), out);
        else {
            push_code_units(it.code, out);
            at += static_cast<size_t>(it.length);
        }
    }
    return out;
}

bool StaticSemantics::is_well_formed(const ParseNode *string_token) const {
    vector<unsigned> units = code_units(string_token);
    for (size_t i = 0; i < units.size(); i++) {
        if (is_pair(units, i)) i++;
        else if (is_high(units[i]) || is_low(units[i])) return false;
    }
    return true;
}

// (a lone surrogate has three bytes)
string StaticSemantics::string_value(const ParseNode *string_token) const {
    vector<unsigned> units = code_units(string_token);
    string out;
    for (size_t i = 0; i < units.size(); i++) {
        bool is_two = is_pair(units, i);
        push_utf8(is_two ? 0x10000 + (units[i] - 0xD800) * 0x400 + units[i + 1] - 0xDC00 : units[i], out);
        i += is_two;
    }
    return out;
}

ClassElement StaticSemantics::class_element(const ParseNode *element) const {
    ClassElement out;
    out.is_static = element->children.size() > 1 && source_.is_token(element->children[0], "static");
    const ParseNode *it = element->children[out.is_static ? 1 : 0];
    if (is(it, "ClassStaticBlock")) out.block = it;
    if (!is(it, "MethodDefinition") && !is(it, "FieldDefinition")) return out;
    out.definition = it;
    bool is_special = is(it, "MethodDefinition") && it->children.size() == 1;
    if (is_special) it = it->children[0];
    for (const ParseNode *part : it->children)
        if (is(part, "PropertyName") || is(part, "ClassElementName")) out.name = part;
    bool is_accessor = !is_special && it->children[0] != out.name;
    out.kind = is(it, "FieldDefinition") ? "field" : is_special ? "special" : is_accessor ? source_.spelled(it->children[0]) : "method";
    if (is(out.name, "ClassElementName")) out.name = out.name->children[0];
    out.is_private = out.name->is_leaf();
    return out;
}

// Imports and exports.

ModuleNames StaticSemantics::module_names(const ParseNode *module) const {
    ModuleNames out;
    const ParseNode *list = module->children[0] ? module->children[0]->children[0] : nullptr;
    for (const ParseNode *item : items(list)) {
        const ParseNode *it = item->children[0];
        if (is(it, "ImportDeclaration")) push_import(it, out.lexical);
        else if (is(it, "ExportDeclaration")) push_export(it, out);
        else {
            push_lexical(it, out.lexical);
            push_var(it, out.var);
        }
    }
    return out;
}

void StaticSemantics::push_import(const ParseNode *node, NamesAt &out) const { push_bound(node, out); }

void StaticSemantics::push_export(const ParseNode *node, ModuleNames &out) const {
    bool is_default = source_.is_token(node->children[1], "default");
    const ParseNode *what = node->children[is_default ? 2 : 1];
    NamesAt bound;
    if (is(what, "VariableStatement") || is(what, "Declaration") || is(what, "HoistableDeclaration") || is(what, "ClassDeclaration"))
        push_bound(what, bound);
    NamesAt &declared = is(what, "VariableStatement") ? out.var : out.lexical;
    declared.insert(declared.end(), bound.begin(), bound.end());
    if (is_default) out.exported.push_back({"default", source_.start(node)});
    else out.exported.insert(out.exported.end(), bound.begin(), bound.end());
    bool is_clause = is(what, "ExportFromClause");
    if (is_clause && what->children.size() == 3) out.exported.push_back(export_name(what->children[2]));
    if (is(what, "NamedExports") || is_clause) push_specifiers(what, is_clause, out);
}

void StaticSemantics::push_specifiers(const ParseNode *node, bool has_source, ModuleNames &out) const {
    for (const ParseNode *it : node->children) {
        if (!it || it->is_leaf()) continue;
        if (!is(it, "ExportSpecifier")) {
            if (!is(it, "ModuleExportName")) push_specifiers(it, has_source, out);
            continue;
        }
        out.exported.push_back(export_name(it->last()));
        if (has_source) continue;
        NameAt local = export_name(it->children[0]);
        bool is_string = source_.token(it->children[0]).kind == Token::Kind::String;
        out.referenced.push_back({is_string ? "" : local.name, local.place});
    }
}

NameAt StaticSemantics::export_name(const ParseNode *node) const {
    bool is_string = source_.token(node).kind == Token::Kind::String;
    return {is_string ? string_value(node) : source_.spelled(node), source_.start(node)};
}
} // namespace standard
