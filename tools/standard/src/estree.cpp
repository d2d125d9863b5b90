#include "estree.hpp"
#include <algorithm>
#include <stdexcept>
#include <unordered_map>

namespace standard {
string quoted(const string &text) {
    static const std::map<char, string> SHORT{{'"', "\\\""}, {'\\', "\\\\"}, {'\n', "\\n"}, {'\t', "\\t"},
                                              {'\r', "\\r"}, {'\b', "\\b"},  {'\f', "\\f"}};
    string out = "\"";
    for (char c : text) {
        auto it = SHORT.find(c);
        char escape[8];
        snprintf(escape, sizeof escape, "\\u%04x", static_cast<unsigned char>(c));
        out += it != SHORT.end() ? it->second : static_cast<unsigned char>(c) < 32 ? string(escape) : string(1, c);
    }
    return out + "\"";
}

string listed(const vector<string> &items) {
    string out = "[";
    for (const string &it : items)
        out += (out.size() > 1 ? "," : "") + it;
    return out + "]";
}

string flag(bool is_so) { return is_so ? "true" : "false"; }

string Estree::object(const string &type, int start, int end, Fields fields) const {
    fields.push_back({"type", quoted(type)});
    fields.push_back({"start", std::to_string(start)});
    fields.push_back({"end", std::to_string(end)});
    std::sort(fields.begin(), fields.end());
    string out = "{";
    for (const auto &it : fields)
        out += (out.size() > 1 ? ",\"" : "\"") + it.first + "\":" + it.second;
    return out + "}";
}

string Estree::identifier(Node node) { return object("Identifier", node, {{"name", quoted(source_.spelled(node))}}); }
string Estree::literal(Node node) { return object("Literal", node, {{"raw", quoted(source_.spelled(node))}}); }

string Estree::expression(Node node) {
    static const std::unordered_map<string, Shape> SHAPES{
        {"Identifier", &Estree::identifier},
        {"IdentifierReference", &Estree::identifier},
        {"BindingIdentifier", &Estree::identifier},
        {"PrimaryExpression", &Estree::primary},
        {"NullLiteral", &Estree::literal},
        {"BooleanLiteral", &Estree::literal},
        {"Literal", &Estree::literal},
        {"ParenthesizedExpression", &Estree::parenthesized},
        {"ArrayLiteral", &Estree::array_literal},
        {"ObjectLiteral", &Estree::object_literal},
        {"FunctionExpression", &Estree::function_expression},
        {"GeneratorExpression", &Estree::function_expression},
        {"AsyncFunctionExpression", &Estree::function_expression},
        {"AsyncGeneratorExpression", &Estree::function_expression},
        {"ClassExpression", &Estree::class_expression},
        {"TemplateLiteral", &Estree::template_literal},
        {"SubstitutionTemplate", &Estree::template_literal},
        {"MemberExpression", &Estree::member_or_call},
        {"CallExpression", &Estree::member_or_call},
        {"CallMemberExpression", &Estree::member_or_call},
        {"SuperProperty", &Estree::super_property},
        {"SuperCall", &Estree::super_call},
        {"ImportCall", &Estree::import_call},
        {"NewTarget", &Estree::new_target},
        {"ImportMeta", &Estree::new_target},
        {"NewExpression", &Estree::new_expression},
        {"OptionalExpression", &Estree::optional_expression},
        {"UpdateExpression", &Estree::update},
        {"UnaryExpression", &Estree::unary},
        {"ConditionalExpression", &Estree::conditional},
        {"AssignmentExpression", &Estree::assignment},
        {"ArrowFunction", &Estree::arrow},
        {"AsyncArrowFunction", &Estree::arrow},
        {"YieldExpression", &Estree::yield_expression},
        {"AwaitExpression", &Estree::await_expression},
        {"Expression", &Estree::sequence},
    };
    // (a PrivateIdentifier before `in`)
    if (node->is_leaf()) return name_or_private(node);
    node = source_.bare(const_cast<ParseNode *>(node));
    auto it = SHAPES.find(source_.name(node));
    if (it != SHAPES.end()) return (this->*it->second)(node);
    if (node->children.size() != 3) throw std::runtime_error("no shape for " + source_.name(node));
    return binary(node);
}

string Estree::primary(Node node) { return is_token(node->children[0], "this") ? object("ThisExpression", node) : literal(node); }

string Estree::parenthesized(Node node) {
    pairs_++;
    return expression(node->children[1]);
}

void Estree::push_holes(Node elision, Items &out) const {
    for (int i = elision ? elision->to - elision->from : 0; i > 0; i--)
        out.push_back("null");
}

string Estree::array_literal(Node node) {
    Items elements;
    for (Node it : node->children) {
        if (is(it, "ElementList")) push_elements(it, elements);
        else if (is(it, "Elision")) push_holes(it, elements);
    }
    return object("ArrayExpression", node, {{"elements", listed(elements)}});
}

void Estree::push_elements(Node node, Items &out) {
    for (Node it : node->children) {
        if (!it || it->is_leaf()) continue;
        if (is(it, "ElementList")) push_elements(it, out);
        else if (is(it, "Elision")) push_holes(it, out);
        else out.push_back(is(it, "SpreadElement") ? spread(it->children[0], it->children[1]) : expression(it));
    }
}

string Estree::spread(Node first, Node argument) {
    return object("SpreadElement", source_.start(first), source_.end(argument), {{"argument", expression(argument)}});
}

string Estree::object_literal(Node node) {
    Items properties;
    if (node->children.size() > 2) push_definitions(node->children[1], properties);
    return object("ObjectExpression", node, {{"properties", listed(properties)}});
}

void Estree::push_definitions(Node node, Items &out) {
    if (is(node->children[0], "PropertyDefinitionList")) push_definitions(node->children[0], out);
    Node definition = node->last(), first = definition->children[0];
    bool is_computed = false;
    if (is(first, "IdentifierReference")) {
        out.push_back(property(definition, identifier(first), identifier(first), "init", false, true, false));
    } else if (is(first, "PropertyName")) {
        string key = property_key(first, is_computed);
        out.push_back(property(definition, key, expression(definition->children[2]), "init", false, false, is_computed));
    } else if (is(first, "MethodDefinition")) {
        Method it = method(first);
        bool is_method = it.kind == "method" || it.kind == "special";
        out.push_back(property(definition, it.key, it.function, is_method ? "init" : it.kind, is_method, false, it.is_computed));
    } else out.push_back(spread(first, definition->children[1]));
}

string Estree::function_expression(Node node) { return named_function("FunctionExpression", node); }

string Estree::class_expression(Node node) { return class_of("ClassExpression", node, node->children[1], node->children[2]); }

string Estree::template_element(Node node, bool is_tail) const {
    int end = source_.end(node) - (source_.text[static_cast<size_t>(source_.end(node)) - 1] == '{' ? 2 : 1);
    return object("TemplateElement", source_.start(node) + 1, end, {{"tail", flag(is_tail)}});
}

// Tokens of a template, and the expressions between them.
void Estree::push_spans(Node node, Items &elements, Items &expressions) {
    for (Node it : node->children) {
        bool is_part = is(it, "SubstitutionTemplate") || is(it, "TemplateSpans") || is(it, "TemplateMiddleList");
        if (is_part) push_spans(it, elements, expressions);
        else if (it->is_leaf()) elements.push_back(template_element(it, source_.text[static_cast<size_t>(source_.end(it)) - 1] == '`'));
        else expressions.push_back(expression(it));
    }
}

string Estree::template_literal(Node node) {
    Items elements, expressions;
    push_spans(node, elements, expressions);
    return object("TemplateLiteral", node, {{"quasis", listed(elements)}, {"expressions", listed(expressions)}});
}

string Estree::member(int start, Node last, const string &of, const string &property, bool is_computed, bool is_optional) const {
    return object("MemberExpression", start, source_.end(last),
                  {{"object", of}, {"property", property}, {"computed", flag(is_computed)}, {"optional", flag(is_optional)}});
}

string Estree::call(int start, Node last, const string &callee, const string &arguments, bool is_optional) const {
    return object("CallExpression", start, source_.end(last), {{"callee", callee}, {"arguments", arguments}, {"optional", flag(is_optional)}});
}

string Estree::arguments(Node node) {
    Items out;
    if (node->children.size() > 2) push_arguments(node->children[1], out);
    return listed(out);
}

void Estree::push_arguments(Node node, Items &out) {
    size_t count = node->children.size();
    if (is(node->children[0], "ArgumentList")) push_arguments(node->children[0], out);
    bool is_spread = count > 1 && is_token(node->children[count - 2], "...");
    out.push_back(is_spread ? spread(node->children[count - 2], node->last()) : expression(node->last()));
}

string Estree::member_or_call(Node node) {
    const auto &parts = node->children;
    int start = source_.start(node);
    if (is_token(parts[0], "new")) {
        string callee = expression(parts[1]);
        return object("NewExpression", node, {{"callee", callee}, {"arguments", arguments(parts[2])}});
    }
    string first = expression(parts[0]);
    if (is(parts[1], "Arguments")) return call(start, node, first, arguments(parts[1]), false);
    if (parts.size() == 2) return object("TaggedTemplateExpression", node, {{"tag", first}, {"quasi", template_literal(parts[1])}});
    bool is_computed = parts.size() == 4;
    return member(start, node, first, is_computed ? expression(parts[2]) : name_or_private(parts[2]), is_computed, false);
}

string Estree::super_node(Node node) const { return object("Super", node->children[0]); }

string Estree::super_property(Node node) {
    bool is_computed = node->children.size() == 4;
    return member(source_.start(node), node, super_node(node), is_computed ? expression(node->children[2]) : identifier(node->children[2]),
                  is_computed, false);
}

string Estree::super_call(Node node) { return call(source_.start(node), node, super_node(node), arguments(node->children[1]), false); }

string Estree::import_call(Node node) { return object("ImportExpression", node, {{"source", expression(node->children[2])}}); }

string Estree::new_target(Node node) {
    return object("MetaProperty", node, {{"meta", identifier(node->children[0])}, {"property", identifier(node->children[2])}});
}

string Estree::new_expression(Node node) { return object("NewExpression", node, {{"callee", expression(node->children[1])}, {"arguments", "[]"}}); }

string Estree::optional_expression(Node node) { return object("ChainExpression", node, {{"expression", chain(node)}}); }

string Estree::chain(Node node) {
    Node base = node->children[0];
    return chain_parts(node->children[1], source_.start(node), is(base, "OptionalExpression") ? chain(base) : expression(base));
}

// What an OptionalChain makes of its base.
string Estree::chain_parts(Node node, int start, const string &base) {
    const auto &parts = node->children;
    bool is_optional = !is(parts[0], "OptionalChain");
    string of = is_optional ? base : chain_parts(parts[0], start, base);
    if (is(parts[1], "Arguments")) return call(start, node, of, arguments(parts[1]), is_optional);
    bool is_computed = is_token(parts[1], "[");
    Node property = is_computed || is_token(parts[1], ".") ? parts[2] : parts[1];
    return member(start, node, of, is_computed ? expression(property) : name_or_private(property), is_computed, is_optional);
}

string Estree::update(Node node) {
    bool is_prefix = node->children[0]->is_leaf();
    Node sign = node->children[is_prefix ? 0 : 1], operand = node->children[is_prefix ? 1 : 0];
    return object("UpdateExpression", node,
                  {{"operator", quoted(source_.spelled(sign))}, {"prefix", flag(is_prefix)}, {"argument", expression(operand)}});
}

string Estree::unary(Node node) {
    return object("UnaryExpression", node,
                  {{"operator", quoted(source_.spelled(node->children[0]))}, {"prefix", "true"}, {"argument", expression(node->children[1])}});
}

string Estree::conditional(Node node) {
    const auto &parts = node->children;
    string test = expression(parts[0]), consequent = expression(parts[2]), alternate = expression(parts[4]);
    return object("ConditionalExpression", node, {{"test", test}, {"consequent", consequent}, {"alternate", alternate}});
}

string Estree::assignment(Node node) {
    string left = target(node->children[0]), right = expression(node->children[2]);
    return object("AssignmentExpression", node, {{"operator", quoted(source_.spelled(node->children[1]))}, {"left", left}, {"right", right}});
}

string Estree::binary(Node node) {
    string sign = source_.spelled(node->children[1]), left = expression(node->children[0]), right = expression(node->children[2]);
    bool is_logical = sign == "&&" || sign == "||" || sign == "??";
    return object(is_logical ? "LogicalExpression" : "BinaryExpression", node, {{"operator", quoted(sign)}, {"left", left}, {"right", right}});
}

string Estree::sequence(Node node) {
    Items expressions;
    push_sequence(node, expressions);
    return object("SequenceExpression", node, {{"expressions", listed(expressions)}});
}

void Estree::push_sequence(Node node, Items &out) {
    if (node->children.size() == 3) push_sequence(node->children[0], out);
    out.push_back(expression(node->last()));
}

string Estree::arrow(Node node) {
    Node given = node->children[0], body = node->last();
    if (given->is_leaf()) given = node->children[1];
    else given = given->children[is(given, "AsyncArrowHead") ? 1 : 0];
    bool is_concise = body->children.size() == 1;
    string names = is(given, "ArrowFormalParameters") ? parameters(given->children[1]->children[0]) : listed({identifier(given)});
    string shown = is_concise ? expression(body->children[0]->children[0]) : function_body(body->children[0], body->children[1], body->children[2]);
    return function("ArrowFunctionExpression", node, node, "null", names, shown, source_.name(node), {{"expression", flag(is_concise)}});
}

string Estree::yield_expression(Node node) {
    size_t count = node->children.size();
    return object("YieldExpression", node, {{"argument", count > 1 ? expression(node->last()) : "null"}, {"delegate", flag(count > 2)}});
}

string Estree::await_expression(Node node) { return object("AwaitExpression", node, {{"argument", expression(node->children[1])}}); }

// An IdentifierName or a PrivateIdentifier.
string Estree::name_or_private(Node leaf) {
    if (source_.token(leaf).kind != Token::Kind::PrivateIdentifier) return identifier(leaf);
    return object("PrivateIdentifier", leaf, {{"name", quoted(source_.spelled(leaf).substr(1))}});
}

// Targets and assignment patterns; binding patterns and parameters.

string Estree::target(Node node) {
    if (is(node, "DestructuringAssignmentTarget")) return target(node->children[0]);
    if (!is(node, "AssignmentPattern")) return expression(node);
    Node pattern = node->children[0];
    return is(pattern, "ObjectAssignmentPattern") ? object_pattern(node, pattern) : array_pattern(node, pattern);
}

string Estree::binding_pattern(Node node) {
    Node pattern = node->children[0];
    return is(pattern, "ObjectBindingPattern") ? object_pattern(node, pattern) : array_pattern(node, pattern);
}

// A BindingIdentifier or a BindingPattern, below what holds nothing else.
string Estree::bound(Node node) {
    if (is(node, "BindingPattern")) return binding_pattern(node);
    return is(node, "BindingIdentifier") ? identifier(node) : bound(node->children[0]);
}

string Estree::rest(Node node, const string &argument) const { return object("RestElement", node, {{"argument", argument}}); }

string Estree::with_default(Node node, const string &left, Node initializer) {
    return initializer ? object("AssignmentPattern", node, {{"left", left}, {"right", expression(initializer->children[1])}}) : left;
}

string Estree::assignment_element(Node node) { return with_default(node, target(node->children[0]), node->children[1]); }

string Estree::single_name(Node node) { return with_default(node, identifier(node->children[0]), node->children[1]); }

string Estree::binding_element(Node node) {
    Node first = node->children[0];
    return is(first, "SingleNameBinding") ? single_name(first) : with_default(node, binding_pattern(first), node->children[1]);
}

string Estree::array_pattern(Node whole, Node pattern) {
    Items elements;
    push_pattern_elements(pattern, elements);
    return object("ArrayPattern", whole, {{"elements", listed(elements)}});
}

void Estree::push_pattern_elements(Node node, Items &out) {
    for (Node it : node->children) {
        if (!it || it->is_leaf()) continue;
        if (is(it, "Elision")) push_holes(it, out);
        else if (is(it, "AssignmentElement")) out.push_back(assignment_element(it));
        else if (is(it, "BindingElement")) out.push_back(binding_element(it));
        else if (is(it, "AssignmentRestElement")) out.push_back(rest(it, target(it->children[1])));
        else if (is(it, "BindingRestElement")) out.push_back(rest(it, bound(it->children[1])));
        else push_pattern_elements(it, out);
    }
}

string Estree::object_pattern(Node whole, Node pattern) {
    Items properties;
    push_pattern_properties(pattern, properties);
    return object("ObjectPattern", whole, {{"properties", listed(properties)}});
}

void Estree::push_pattern_properties(Node node, Items &out) {
    for (Node it : node->children) {
        if (!it || it->is_leaf()) continue;
        if (is(it, "AssignmentProperty") || is(it, "BindingProperty")) out.push_back(pattern_property(it));
        else if (is(it, "AssignmentRestProperty")) out.push_back(rest(it, target(it->children[1])));
        else if (is(it, "BindingRestProperty")) out.push_back(rest(it, identifier(it->children[1])));
        else push_pattern_properties(it, out);
    }
}

string Estree::pattern_property(Node node) {
    Node first = node->children[0];
    bool is_computed = false;
    if (is(first, "PropertyName")) {
        string key = property_key(first, is_computed);
        Node element = node->children[2];
        return property(node, key, is(element, "AssignmentElement") ? assignment_element(element) : binding_element(element), "init", false, false,
                        is_computed);
    }
    bool is_binding = is(first, "SingleNameBinding");
    string key = identifier(is_binding ? first->children[0] : first);
    return property(node, key, is_binding ? single_name(first) : with_default(node, key, node->children[1]), "init", false, true, false);
}

string Estree::parameters(Node node) {
    Items out;
    push_parameters(node, out);
    return listed(out);
}

void Estree::push_parameters(Node node, Items &out) {
    for (Node it : node->children) {
        if (is(it, "FormalParameterList")) push_parameters(it, out);
        else if (is(it, "FormalParameter")) out.push_back(binding_element(it->children[0]));
        else if (is(it, "FunctionRestParameter")) out.push_back(rest(it->children[0], bound(it->children[0]->children[1])));
    }
}
} // namespace standard
