// Functions, classes, statements and declarations.
#include "estree.hpp"
#include "static_semantics.hpp"
#include <stdexcept>
#include <unordered_map>

namespace standard {
string Estree::property_key(Node name, bool &is_computed) {
    Node key = name->children[0];
    if (is(name, "ClassElementName")) {
        is_computed = false;
        return key->is_leaf() ? name_or_private(key) : property_key(key, is_computed);
    }
    is_computed = is(key, "ComputedPropertyName");
    if (is_computed) return expression(key->children[1]);
    return source_.token(key).kind == Token::Kind::Word ? identifier(key) : literal(key);
}

string Estree::property(Node node, const string &key, const string &value, const string &kind, bool is_method, bool is_shorthand,
                        bool is_computed) const {
    return object("Property", node,
                  {{"key", key},
                   {"value", value},
                   {"kind", quoted(kind)},
                   {"method", flag(is_method)},
                   {"shorthand", flag(is_shorthand)},
                   {"computed", flag(is_computed)}});
}

// By the symbol that derives it: `async` and `*`.
string Estree::function(const string &type, Node first, Node last, const string &id, const string &parameters, const string &body,
                        const string &symbol, Fields more) const {
    bool is_generator = symbol.find("Generator") != string::npos, is_async = symbol.compare(0, 5, "Async") == 0;
    more.insert(more.end(), {{"id", id}, {"params", parameters}, {"body", body}, {"generator", flag(is_generator)}, {"async", flag(is_async)}});
    return object(type, source_.start(first), source_.end(last), more);
}

// A declaration or an expression.
string Estree::named_function(const string &type, Node node) {
    const auto &parts = node->children;
    size_t count = parts.size();
    string id = "null", given = "[]";
    for (Node it : parts) {
        if (is(it, "BindingIdentifier")) id = identifier(it);
        if (is(it, "FormalParameters")) given = parameters(it);
    }
    return function(type, node, node, id, given, function_body(parts[count - 3], parts[count - 2], parts[count - 1]), source_.name(node));
}

string Estree::function_body(Node open, Node body, Node close) {
    Items items;
    if (!is(body, "FunctionBody")) body = body->children[0];
    Node list = body->children[0]->children[0];
    if (list) push_items(list, items, true);
    return object("BlockStatement", source_.start(open), source_.end(close), {{"body", listed(items)}});
}

Estree::Method Estree::method(Node node) {
    bool is_special = node->children.size() == 1;
    if (is_special) node = node->children[0];
    const auto &parts = node->children;
    size_t count = parts.size(), name = 0;
    while (!is(parts[name], "PropertyName") && !is(parts[name], "ClassElementName"))
        name++;
    Method out;
    out.name = parts[name];
    out.kind = is_special ? "special" : name == 0 ? "method" : source_.spelled(parts[0]);
    out.key = property_key(out.name, out.is_computed);
    string given = "[]";
    if (out.kind == "set") given = listed({binding_element(parts[name + 2]->children[0]->children[0])});
    else if (out.kind != "get") given = parameters(parts[name + 2]->children[0]);
    string body = function_body(parts[count - 3], parts[count - 2], parts[count - 1]);
    out.function = function("FunctionExpression", parts[name + 1], parts[count - 1], "null", given, body, source_.name(node));
    return out;
}

string Estree::class_of(const string &type, Node node, Node id, Node tail) {
    Node heritage = tail->children[0], body = tail->children[2];
    string name = id ? identifier(id) : "null", super_class = heritage ? expression(heritage->children[1]) : "null";
    Items members;
    if (body) push_members(body->children[0], members);
    string shown = object("ClassBody", source_.start(tail->children[1]), source_.end(tail), {{"body", listed(members)}});
    return object(type, node, {{"id", name}, {"superClass", super_class}, {"body", shown}});
}

void Estree::push_members(Node node, Items &out) {
    if (node->children.size() == 2) push_members(node->children[0], out);
    Node element = node->last();
    ClassElement read = StaticSemantics(source_).class_element(element);
    if (read.block) out.push_back(static_block(read.block));
    if (!read.name) return;
    if (read.kind == "field") return out.push_back(field(element, read.definition, read.is_static));
    Method it = method(read.definition);
    bool is_constructor =
        !read.is_static && it.kind == "method" && !read.is_private && StaticSemantics(source_).prop_name(read.name) == "constructor";
    if (it.kind == "special") it.kind = "method";
    if (is_constructor) it.kind = "constructor";
    out.push_back(object(
        "MethodDefinition", element,
        {{"key", it.key}, {"value", it.function}, {"kind", quoted(it.kind)}, {"computed", flag(it.is_computed)}, {"static", flag(read.is_static)}}));
}

string Estree::field(Node element, Node definition, bool is_static) {
    Node initializer = definition->children[1];
    bool is_computed = false;
    string key = property_key(definition->children[0], is_computed), value = initializer ? expression(initializer->children[1]) : "null";
    return object("PropertyDefinition", element, {{"key", key}, {"value", value}, {"computed", flag(is_computed)}, {"static", flag(is_static)}});
}

string Estree::static_block(Node node) {
    Items items;
    Node list = node->children[2]->children[0]->children[0];
    if (list) push_items(list, items, false);
    return object("StaticBlock", node, {{"body", listed(items)}});
}

// The items of a StatementList; in a prologue directives are marked (14.1.1).
void Estree::push_items(Node list, Items &out, bool has_prologue) {
    vector<Node> nodes;
    for (Node it = list;; it = it->children[0]) {
        nodes.insert(nodes.begin(), it->last());
        if (it->children.size() == 1) break;
    }
    for (Node it : nodes) {
        string shown = has_prologue ? directive(it) : "";
        has_prologue &= !shown.empty();
        out.push_back(shown.empty() ? item(it) : shown);
    }
}

// An ExpressionStatement that is a string token alone; otherwise nothing.
string Estree::directive(Node item) {
    if (is(item, "ModuleItem")) item = item->children[0];
    if (!is(item, "StatementListItem")) return "";
    Node statement = is(item->children[0], "Statement") ? item->children[0]->children[0] : nullptr;
    if (!is(statement, "ExpressionStatement")) return "";
    Node value = statement->children[0];
    if (value->to - value->from != 1 || source_.token(value).kind != Token::Kind::String) return "";
    string raw = source_.spelled(value);
    return object("ExpressionStatement", statement, {{"expression", expression(value)}, {"directive", quoted(raw.substr(1, raw.size() - 2))}});
}

string Estree::item(Node node) {
    Node it = node->children[0];
    if (is(it, "ImportDeclaration")) return import_declaration(it);
    if (is(it, "ExportDeclaration")) return export_declaration(it);
    if (is(it, "StatementListItem")) return item(it);
    return is(it, "Statement") ? statement(it) : declared(it);
}

// A Declaration, or what `export default` may stand before.
string Estree::declared(Node it) {
    while (is(it, "Declaration") || is(it, "HoistableDeclaration"))
        it = it->children[0];
    const auto &parts = it->children;
    if (is(it, "ClassDeclaration")) return class_of("ClassDeclaration", it, is(parts[1], "BindingIdentifier") ? parts[1] : nullptr, it->last());
    if (is(it, "LexicalDeclaration")) return declaration(it, source_.end(it), source_.spelled(parts[0]), parts[1]);
    return named_function("FunctionDeclaration", it);
}

// A ModuleExportName, an IdentifierName or a ModuleSpecifier.
string Estree::module_name(Node node) { return source_.token(node).kind == Token::Kind::String ? literal(node) : identifier(node); }

string Estree::import_declaration(Node node) {
    Items specifiers;
    Node source = node->children[1];
    if (is(source, "ImportClause")) {
        push_import_specifiers(source, specifiers);
        source = node->children[2]->children[1];
    }
    return object("ImportDeclaration", node, {{"specifiers", listed(specifiers)}, {"source", literal(source)}});
}

void Estree::push_import_specifiers(Node node, Items &out) {
    for (Node it : node->children) {
        if (!it || it->is_leaf()) continue;
        if (is(it, "ImportedDefaultBinding")) out.push_back(object("ImportDefaultSpecifier", it, {{"local", identifier(it)}}));
        else if (is(it, "NameSpaceImport")) out.push_back(object("ImportNamespaceSpecifier", it, {{"local", identifier(it->last())}}));
        else if (is(it, "ImportSpecifier"))
            out.push_back(object("ImportSpecifier", it, {{"imported", module_name(it->children[0])}, {"local", identifier(it->last())}}));
        else push_import_specifiers(it, out);
    }
}

string Estree::export_declaration(Node node) {
    Node what = node->children[1];
    if (is_token(what, "default")) {
        Node given = node->children[2];
        bool is_declaration = is(given, "HoistableDeclaration") || is(given, "ClassDeclaration");
        return object("ExportDefaultDeclaration", node, {{"declaration", is_declaration ? declared(given) : expression(given)}});
    }
    Items specifiers;
    bool is_clause = is(what, "ExportFromClause");
    string source = is_clause ? literal(node->children[2]->children[1]) : "null", declaration = "null";
    if (is_clause && is_token(what->children[0], "*"))
        return object("ExportAllDeclaration", node,
                      {{"exported", what->children.size() > 1 ? module_name(what->last()) : "null"}, {"source", source}});
    if (is(what, "VariableStatement")) declaration = variable_statement(what);
    else if (is(what, "Declaration")) declaration = declared(what);
    else push_export_specifiers(what, specifiers);
    return object("ExportNamedDeclaration", node, {{"declaration", declaration}, {"specifiers", listed(specifiers)}, {"source", source}});
}

void Estree::push_export_specifiers(Node node, Items &out) {
    for (Node it : node->children) {
        if (!it || it->is_leaf()) continue;
        if (is(it, "ExportSpecifier"))
            out.push_back(object("ExportSpecifier", it, {{"local", module_name(it->children[0])}, {"exported", module_name(it->last())}}));
        else push_export_specifiers(it, out);
    }
}

string Estree::declaration(Node first, int end, const string &kind, Node list) {
    Items declarators;
    push_declarators(list, declarators);
    return object("VariableDeclaration", source_.start(first), end, {{"kind", quoted(kind)}, {"declarations", listed(declarators)}});
}

void Estree::push_declarators(Node node, Items &out) {
    if (node->children.size() == 3) push_declarators(node->children[0], out);
    Node it = node->last(), initializer = it->children[1];
    string id = bound(it->children[0]);
    out.push_back(object("VariableDeclarator", it, {{"id", id}, {"init", initializer ? expression(initializer->children[1]) : "null"}}));
}

// In the head of a for-in or for-of.
string Estree::declaration_of_one(Node first, const string &kind, Node binding) {
    string declarator = object("VariableDeclarator", binding, {{"id", bound(binding)}, {"init", "null"}});
    return object("VariableDeclaration", source_.start(first), source_.end(binding),
                  {{"kind", quoted(kind)}, {"declarations", listed({declarator})}});
}

string Estree::statement(Node node) {
    static const std::unordered_map<string, Shape> SHAPES{
        {"BlockStatement", &Estree::block_statement},
        {"EmptyStatement", &Estree::empty_statement},
        {"DebuggerStatement", &Estree::debugger_statement},
        {"VariableStatement", &Estree::variable_statement},
        {"ExpressionStatement", &Estree::expression_statement},
        {"IfStatement", &Estree::if_statement},
        {"IterationStatement", &Estree::iteration_statement},
        {"ContinueStatement", &Estree::jump_statement},
        {"BreakStatement", &Estree::jump_statement},
        {"ReturnStatement", &Estree::return_statement},
        {"ThrowStatement", &Estree::throw_statement},
        {"LabelledStatement", &Estree::labelled_statement},
        {"SwitchStatement", &Estree::switch_statement},
        {"TryStatement", &Estree::try_statement},
    };
    Node it = node->children[0];
    if (is(it, "BreakableStatement")) it = it->children[0];
    auto shape = SHAPES.find(source_.name(it));
    if (shape == SHAPES.end()) throw std::runtime_error("no shape for " + source_.name(it));
    return (this->*shape->second)(it);
}

string Estree::block(Node node) {
    Items items;
    if (node->children[1]) push_items(node->children[1], items, false);
    return object("BlockStatement", node, {{"body", listed(items)}});
}

string Estree::block_statement(Node node) { return block(node->children[0]); }
string Estree::empty_statement(Node node) { return object("EmptyStatement", node); }
string Estree::debugger_statement(Node node) { return object("DebuggerStatement", node); }
string Estree::variable_statement(Node node) { return declaration(node, source_.end(node), "var", node->children[1]); }
string Estree::expression_statement(Node node) { return object("ExpressionStatement", node, {{"expression", expression(node->children[0])}}); }
string Estree::throw_statement(Node node) { return object("ThrowStatement", node, {{"argument", expression(node->children[1])}}); }
string Estree::return_statement(Node node) {
    return object("ReturnStatement", node, {{"argument", node->children.size() > 2 ? expression(node->children[1]) : "null"}});
}
string Estree::jump_statement(Node node) {
    return object(source_.name(node), node, {{"label", node->children.size() > 2 ? identifier(node->children[1]) : "null"}});
}

string Estree::if_statement(Node node) {
    const auto &parts = node->children;
    string test = expression(parts[2]), consequent = statement(parts[4]), alternate = parts.size() > 5 ? statement(parts[6]) : "null";
    return object("IfStatement", node, {{"test", test}, {"consequent", consequent}, {"alternate", alternate}});
}

string Estree::labelled_statement(Node node) {
    return object("LabeledStatement", node, {{"label", identifier(node->children[0])}, {"body", statement(node->children[2]->children[0])}});
}

string Estree::iteration_statement(Node node) {
    const auto &parts = node->children;
    if (is_token(parts[0], "do")) return object("DoWhileStatement", node, {{"body", statement(parts[1])}, {"test", expression(parts[4])}});
    if (is_token(parts[0], "while")) return object("WhileStatement", node, {{"test", expression(parts[2])}, {"body", statement(parts[4])}});
    size_t head = is_token(parts[1], "await") ? 3 : 2;
    head += is_token(parts[head], "var");
    bool is_in_of = is_token(parts[head + 1], "in") || is_token(parts[head + 1], "of");
    return is_in_of ? for_in_of(node, head) : for_statement(node, head);
}

string Estree::for_in_of(Node node, size_t head) {
    const auto &parts = node->children;
    Node first = parts[head];
    bool is_of = is_token(parts[head + 1], "of");
    bool is_await = is_token(parts[1], "await");
    string left = is_token(parts[head - 1], "var") ? declaration_of_one(parts[head - 1], "var", first)
                  : is(first, "ForDeclaration")    ? declaration_of_one(first, source_.spelled(first->children[0]), first->children[1])
                                                   : target(first);
    string right = expression(parts[head + 2]), body = statement(node->last());
    Fields fields{{"left", left}, {"right", right}, {"body", body}};
    if (is_of) fields.push_back({"await", flag(is_await)});
    return object(is_of ? "ForOfStatement" : "ForInStatement", node, fields);
}

string Estree::for_statement(Node node, size_t head) {
    const auto &parts = node->children;
    Node first = parts[head];
    bool is_lexical = is(first, "LexicalDeclaration");
    string init = head == 3    ? declaration(parts[2], source_.end(first), "var", first)
                  : is_lexical ? declaration(first, source_.end(first->children[1]), source_.spelled(first->children[0]), first->children[1])
                               : optional(first);
    // (the `;` behind a LexicalDeclaration is its own)
    size_t test = head + (is_lexical ? 1 : 2);
    string shown = optional(parts[test]), update = optional(parts[test + 2]), body = statement(node->last());
    return object("ForStatement", node, {{"init", init}, {"test", shown}, {"update", update}, {"body", body}});
}

string Estree::switch_statement(Node node) {
    Items cases;
    string discriminant = expression(node->children[2]);
    for (Node it : node->children[4]->children)
        push_cases(it, cases);
    return object("SwitchStatement", node, {{"discriminant", discriminant}, {"cases", listed(cases)}});
}

void Estree::push_cases(Node node, Items &out) {
    if (is(node, "CaseClause") || is(node, "DefaultClause")) out.push_back(switch_case(node));
    else if (is(node, "CaseClauses"))
        for (Node it : node->children)
            push_cases(it, out);
}

string Estree::switch_case(Node node) {
    string test = is(node, "CaseClause") ? expression(node->children[1]) : "null";
    Items items;
    if (node->last()) push_items(node->last(), items, false);
    return object("SwitchCase", node, {{"test", test}, {"consequent", listed(items)}});
}

string Estree::try_statement(Node node) {
    string body = block(node->children[1]), handler = "null", finalizer = "null";
    for (Node it : node->children) {
        if (is(it, "Catch")) handler = catch_clause(it);
        if (is(it, "Finally")) finalizer = block(it->children[1]);
    }
    return object("TryStatement", node, {{"block", body}, {"handler", handler}, {"finalizer", finalizer}});
}

string Estree::catch_clause(Node node) {
    string parameter = node->children.size() > 2 ? bound(node->children[2]) : "null";
    return object("CatchClause", node, {{"param", parameter}, {"body", block(node->last())}});
}

string Estree::program(Node script) {
    Items items;
    if (script->children[0]) push_items(script->children[0]->children[0], items, true);
    string type = is(script, "Module") ? "module" : "script";
    return object("Program", 0, static_cast<int>(source_.text.size()), {{"body", listed(items)}, {"sourceType", quoted(type)}});
}
} // namespace standard
