#include "early_errors.hpp"
#include <algorithm>
#include <cstring>
#include <unordered_map>

namespace standard {
namespace {
// Between labels and the loop that they stand before.
const std::set<string> KEEPS_LABELS{"Statement", "BreakableStatement", "LabelledItem", "LabelledStatement", "IterationStatement"};

bool has(const vector<string> &names, const string &name) { return std::find(names.begin(), names.end(), name) != names.end(); }
} // namespace

const vector<EarlyError> &EarlyErrors::of_script(const ParseNode *node) {
    errors_.clear();
    is_module_ = is(node, "Module");
    walk(node, Surroundings());
    return errors_;
}

void EarlyErrors::report_duplicates(const NamesAt &names, int number) {
    std::set<string> seen;
    for (const NameAt &it : names)
        if (!seen.insert(it.name).second) report(number, it.place);
}

// The names that are among the others too.
void EarlyErrors::report_shared(const NamesAt &names, const NamesAt &others, int number) {
    std::set<string> known;
    for (const NameAt &it : others)
        known.insert(it.name);
    for (const NameAt &it : names)
        if (known.count(it.name)) report(number, it.place);
}

void EarlyErrors::report_declarations(const NamesAt &lexical, const NamesAt &var) {
    report_duplicates(lexical, 3);
    report_shared(lexical, var, 4);
}

// 12.1.1, 12.1.3.
void EarlyErrors::report_restricted_name(Node node) {
    string name = source_.spelled(node);
    if (name == "eval" || name == "arguments") report(1, source_.start(node));
}

void EarlyErrors::report_restricted_target(Node target) {
    while (target && !target->is_leaf()) {
        bool is_grouped = is(target, "ParenthesizedExpression");
        if (is(target, "IdentifierReference")) return report_restricted_name(target);
        if (!is_grouped && target->children.size() != 1) return;
        target = target->children[is_grouped ? 1 : 0];
    }
}

void EarlyErrors::walk(Node node, Surroundings around) {
    static const std::unordered_map<string, Walk> WALKS{
        {"Statement", &EarlyErrors::single_statement},
        {"BreakableStatement", &EarlyErrors::single_statement},
        {"LabelledItem", &EarlyErrors::single_statement},
        {"BindingIdentifier", &EarlyErrors::binding_identifier},
        {"AssignmentExpression", &EarlyErrors::assignment},
        {"UpdateExpression", &EarlyErrors::update},
        {"DestructuringAssignmentTarget", &EarlyErrors::assignment_target},
        {"AssignmentProperty", &EarlyErrors::assignment_property},
        {"UnaryExpression", &EarlyErrors::unary},
        {"LexicalDeclaration", &EarlyErrors::lexical_declaration},
        {"Block", &EarlyErrors::block},
        {"CaseBlock", &EarlyErrors::case_block},
        {"Script", &EarlyErrors::script},
        {"Module", &EarlyErrors::module},
        {"ModuleExportName", &EarlyErrors::module_export_name},
        {"ClassElementName", &EarlyErrors::class_element_name},
        {"IdentifierReference", &EarlyErrors::identifier_reference},
        {"ImportMeta", &EarlyErrors::import_meta},
        {"Catch", &EarlyErrors::catch_clause},
        {"ContinueStatement", &EarlyErrors::jump},
        {"BreakStatement", &EarlyErrors::jump},
        {"LabelledStatement", &EarlyErrors::labelled},
        {"SwitchStatement", &EarlyErrors::switch_statement},
        {"IterationStatement", &EarlyErrors::iteration},
        {"FunctionDeclaration", &EarlyErrors::function},
        {"FunctionExpression", &EarlyErrors::function},
        {"GeneratorDeclaration", &EarlyErrors::function},
        {"GeneratorExpression", &EarlyErrors::function},
        {"AsyncFunctionDeclaration", &EarlyErrors::function},
        {"AsyncFunctionExpression", &EarlyErrors::function},
        {"AsyncGeneratorDeclaration", &EarlyErrors::function},
        {"AsyncGeneratorExpression", &EarlyErrors::function},
        {"ArrowFunction", &EarlyErrors::arrow},
        {"AsyncArrowFunction", &EarlyErrors::arrow},
        {"MethodDefinition", &EarlyErrors::method},
        {"ClassTail", &EarlyErrors::class_tail},
        {"SuperProperty", &EarlyErrors::super_property},
        {"SuperCall", &EarlyErrors::super_call},
        {"NewTarget", &EarlyErrors::new_target},
        {"TemplateLiteral", &EarlyErrors::template_literal},
        {"ObjectLiteral", &EarlyErrors::object_literal},
    };
    if (!node) return;
    if (node->is_leaf()) return walk_regexp(node);
    auto it = WALKS.find(source_.name(node));
    if (!KEEPS_LABELS.count(source_.name(node))) around.pending_labels.clear();
    if (it == WALKS.end()) walk_children(node, around);
    else (this->*it->second)(node, around);
}

void EarlyErrors::walk_children(Node node, const Surroundings &around) {
    // 15.5, 15.8, and the [Yield] and [Await] of the productions.
    bool has_yield = node->parameters & Yield, has_await = node->parameters & Await;
    for (Node it : node->children) {
        if (is(it, "YieldExpression") && !(has_yield && !around.bars_yield)) report(22, source_.start(it));
        if (is(it, "AwaitExpression") && !(has_await && !around.bars_await)) report(23, source_.start(it));
        if (it && it->is_leaf() && source_.token(it).kind == Token::Kind::PrivateIdentifier) report_private_reference(it, around);
        walk(it, around);
    }
}

// 12.2.8.1: the flags.
void EarlyErrors::walk_regexp(Node leaf) {
    if (source_.token(leaf).kind != Token::Kind::RegularExpression) return;
    string spelled = source_.spelled(leaf), flags = spelled.substr(spelled.rfind('/') + 1);
    std::set<char> seen;
    for (char c : flags)
        if (!strchr(source_.has("indices-flag") ? "dgimsuy" : "gimsuy", c) || !seen.insert(c).second) return report(21, source_.start(leaf));
}

void EarlyErrors::binding_identifier(Node node, const Surroundings &) { report_restricted_name(node); }

// 12.15.1.
void EarlyErrors::assignment(Node node, const Surroundings &around) {
    bool is_assignment = node->children.size() == 3;
    if (is_assignment && !is(node->children[0], "AssignmentPattern")) report_restricted_target(node->children[0]);
    walk_children(node, around);
}

// 12.4.1.
void EarlyErrors::update(Node node, const Surroundings &around) {
    if (node->children.size() == 2) report_restricted_target(node->children[node->children[0]->is_leaf() ? 1 : 0]);
    walk_children(node, around);
}

// 12.15.5.1.
void EarlyErrors::assignment_target(Node node, const Surroundings &around) {
    if (!is(node->children[0], "AssignmentPattern")) report_restricted_target(node->children[0]);
    walk_children(node, around);
}

void EarlyErrors::assignment_property(Node node, const Surroundings &around) {
    if (is(node->children[0], "IdentifierReference")) report_restricted_target(node->children[0]);
    walk_children(node, around);
}

// 12.5.3.1.
void EarlyErrors::unary(Node node, const Surroundings &around) {
    if (is_token(node->children[0], "delete")) {
        ParseNode *operand = source_.bare(node->children[1]);
        while (is(operand, "ParenthesizedExpression"))
            operand = source_.bare(operand->children[1]);
        if (is(operand, "Identifier") || is(operand, "IdentifierReference")) report(2, source_.start(node));
        if (has_private_end(operand)) report(29, source_.start(node));
    }
    walk_children(node, around);
}

// 13.5.1.1 of the 13th edition: a member or a chain that ends in a private name.
bool EarlyErrors::has_private_end(Node operand) const {
    if (operand->is_leaf()) return false;
    Node last = operand->last();
    if (is(operand, "OptionalExpression")) last = last->last();
    return last && last->is_leaf() && !is(operand, "ClassElementName") && source_.token(last).kind == Token::Kind::PrivateIdentifier;
}

// 13.3.1.1.
void EarlyErrors::lexical_declaration(Node node, const Surroundings &around) {
    report_duplicates(semantics_.bound_names(node->children[1]), 3);
    if (is_token(node->children[0]->children[0], "const")) report_uninitialized(node->children[1]);
    walk_children(node, around);
}

void EarlyErrors::report_uninitialized(Node list) {
    for (Node it : list->children) {
        if (is(it, "BindingList")) report_uninitialized(it);
        else if (is(it, "LexicalBinding") && is(it->children[0], "BindingIdentifier") && !it->children[1]) report(5, source_.start(it));
    }
}

// 13.2.1.
void EarlyErrors::block(Node node, const Surroundings &around) {
    report_declarations(semantics_.lexically_declared_names(node->children[1]), semantics_.var_declared_names(node->children[1]));
    walk_children(node, around);
}

// 13.12.1.
void EarlyErrors::case_block(Node node, const Surroundings &around) {
    report_declarations(semantics_.lexically_declared_names(node), semantics_.var_declared_names(node));
    walk_children(node, around);
}

// 15.1.1.
void EarlyErrors::script(Node node, const Surroundings &around) {
    Node list = node->children[0] ? node->children[0]->children[0] : nullptr;
    report_declarations(semantics_.top_level_lexically_declared_names(list), semantics_.top_level_var_declared_names(list));
    walk_children(node, around);
}

// 13.15.1.
void EarlyErrors::catch_clause(Node node, const Surroundings &around) {
    if (node->children.size() > 2) {
        NamesAt names = semantics_.bound_names(node->children[2]);
        report_duplicates(names, 12);
        report_shared(names, semantics_.lexically_declared_names(node->last()->children[1]), 12);
        report_shared(names, semantics_.var_declared_names(node->last()), 12);
    }
    walk_children(node, around);
}

// 13.8.1, 13.9.1, 13.1.2, 13.1.3.
void EarlyErrors::jump(Node node, const Surroundings &around) {
    bool is_continue = is(node, "ContinueStatement"), is_bare = node->children.size() == 2;
    if (is_bare && !(is_continue ? around.is_in_loop : around.is_breakable)) report(9, source_.start(node));
    if (is_bare) return;
    Node label = node->children[1];
    if (!has(is_continue ? around.loop_labels : around.labels, source_.spelled(label))) report(10, source_.start(label));
}

void EarlyErrors::single_statement(Node node, const Surroundings &around) { walk(node->children[0], around); }

// 13.1.1.
void EarlyErrors::labelled(Node node, const Surroundings &around) {
    string label = source_.spelled(node->children[0]);
    if (has(around.labels, label)) report(11, source_.start(node->children[0]));
    Surroundings inside = around;
    inside.labels.push_back(label);
    inside.pending_labels.push_back(label);
    walk(node->children[2], inside);
}

void EarlyErrors::switch_statement(Node node, const Surroundings &around) {
    walk(node->children[2], around);
    Surroundings inside = around;
    inside.is_breakable = true;
    walk(node->children[4], inside);
}

// 13.7.4.1, 13.7.5.1.
void EarlyErrors::iteration(Node node, const Surroundings &around) {
    NamesAt head;
    Node body = nullptr;
    for (Node it : node->children) {
        if (is(it, "Statement")) body = it;
        if (is(it, "ForDeclaration")) report_duplicates(semantics_.bound_names(it), 3);
        if (is(it, "ForDeclaration") || is(it, "LexicalDeclaration")) head = semantics_.bound_names(it);
        if (is(it, "LeftHandSideExpression")) report_restricted_target(it);
    }
    bool is_await = is_token(node->children[1], "await");
    if (is_await && (!(node->parameters & Await) || around.bars_await)) report(23, source_.start(node));
    if (!is_await && source_.has("edition-2022")) report_async_of(node);
    report_shared(head, semantics_.var_declared_names(body), 13);
    Surroundings outside = around, inside = around;
    outside.pending_labels.clear();
    for (Node it : node->children)
        if (it != body) walk(it, outside);
    inside.loop_labels.insert(inside.loop_labels.end(), around.pending_labels.begin(), around.pending_labels.end());
    inside.pending_labels.clear();
    inside.is_in_loop = inside.is_breakable = true;
    walk(body, inside);
}

// 14.7.5: `async` before `of`, grouped or not.
void EarlyErrors::report_async_of(Node node) {
    Node target = node->children[2];
    if (!is(target, "LeftHandSideExpression") || !is_token(node->children[3], "of")) return;
    while (target && !target->is_leaf() && !is(target, "IdentifierReference")) {
        bool is_grouped = is(target, "ParenthesizedExpression");
        if (!is_grouped && target->children.size() != 1) return;
        target = target->children[is_grouped ? 1 : 0];
    }
    if (target && source_.spelled(target) == "async") report(35, source_.start(target));
}

EarlyErrors::Surroundings EarlyErrors::begun(const Surroundings &around) {
    Surroundings inside;
    inside.private_names = around.private_names;
    return inside;
}

// 14.1.2, 14.2.1, 14.3.1; the body may be an ExpressionBody.
void EarlyErrors::walk_function(Node parameters, Node body, const Surroundings &inside) {
    NamesAt names = semantics_.bound_names(parameters);
    report_duplicates(names, 6);
    while (!is(body, "FunctionBody") && !is(body, "ExpressionBody"))
        body = body->children[0];
    if (is(body, "FunctionBody")) {
        Node list = body->children[0]->children[0];
        NamesAt lexical = semantics_.top_level_lexically_declared_names(list);
        report_shared(lexical, names, 7);
        report_declarations(lexical, semantics_.top_level_var_declared_names(list));
        int directive = semantics_.use_strict(list);
        if (directive >= 0 && !semantics_.is_simple_parameter_list(parameters)) report(8, directive);
    }
    // 15.5.1, 15.6.1, 15.8.1, 15.9.1: parameters contain no YieldExpression and no AwaitExpression.
    Surroundings of_parameters = inside;
    of_parameters.bars_yield = of_parameters.bars_await = true;
    walk(parameters, of_parameters);
    walk(body, inside);
}

void EarlyErrors::function(Node node, const Surroundings &around) {
    Surroundings inside = begun(around);
    inside.has_new_target = true;
    Node parameters = nullptr;
    for (Node it : node->children) {
        if (is(it, "BindingIdentifier")) walk(it, around);
        if (is(it, "FormalParameters")) parameters = it;
    }
    walk_function(parameters, node->children[node->children.size() - 2], inside);
}

// 14.2.3: `super` and `new.target` belong to what surrounds an arrow; `arguments` too.
void EarlyErrors::arrow(Node node, const Surroundings &around) {
    Surroundings inside = begun(around);
    inside.has_super_property = around.has_super_property;
    inside.has_super_call = around.has_super_call;
    inside.has_new_target = around.has_new_target;
    inside.bars_arguments = around.bars_arguments;
    Node given = node->children[0], body = node->last();
    if (given->is_leaf()) given = node->children[1];
    else if (is(given, "AsyncArrowHead")) given = given->children[1];
    else given = given->children[0];
    walk_function(is(given, "ArrowFormalParameters") ? given->children[1] : given, body->children[body->children.size() == 1 ? 0 : 1], inside);
}

void EarlyErrors::method(Node node, const Surroundings &around) { walk_method(node, around, false); }

void EarlyErrors::walk_method(Node node, const Surroundings &around, bool may_call_super) {
    if (node->children.size() == 1) node = node->children[0];
    Node parameters = nullptr;
    for (Node it : node->children) {
        if (is(it, "PropertyName") || is(it, "ClassElementName")) walk(it, around);
        if (is(it, "UniqueFormalParameters") || is(it, "PropertySetParameterList")) parameters = it;
    }
    Surroundings inside = begun(around);
    inside.has_super_property = inside.has_new_target = true;
    inside.has_super_call = may_call_super;
    walk_function(parameters, node->children[node->children.size() - 2], inside);
}

// 15.7.1 of the 13th edition; 14.6.1.
void EarlyErrors::class_tail(Node node, const Surroundings &around) {
    walk(node->children[0], around);
    int constructors = 0;
    Node list = node->children[2] ? node->children[2]->children[0] : nullptr;
    PrivateNames names{{}, around.private_names};
    Surroundings inside = around;
    inside.private_names = &names;
    report_private_duplicates(list, names);
    for (Node it : semantics_.items(list))
        walk_class_element(it, inside, node->children[0] != nullptr, constructors);
}

// PrivateBoundIdentifiers: twice only as a getter and a setter, both static or neither.
void EarlyErrors::report_private_duplicates(Node list, PrivateNames &names) {
    std::map<string, vector<ClassElement>> by_name;
    for (Node it : semantics_.items(list)) {
        ClassElement element = semantics_.class_element(it);
        if (element.name && element.is_private) by_name[source_.spelled(element.name)].push_back(element);
    }
    for (const auto &it : by_name) {
        const vector<ClassElement> &elements = it.second;
        names.names.insert(it.first);
        bool is_pair = elements.size() == 2 && elements[0].is_static == elements[1].is_static &&
                       ((elements[0].kind == "get" && elements[1].kind == "set") || (elements[0].kind == "set" && elements[1].kind == "get"));
        for (size_t i = 1; i < elements.size() && !is_pair; i++)
            report(26, source_.start(elements[i].name));
    }
}

void EarlyErrors::walk_class_element(Node node, const Surroundings &around, bool is_derived, int &constructors) {
    ClassElement element = semantics_.class_element(node);
    if (element.block) return walk_static_block(element.block, around);
    if (!element.name) return;
    string key = element.is_private ? "" : semantics_.prop_name(element.name);
    bool is_constructor = !element.is_static && key == "constructor";
    if (element.is_static && key == "prototype") report(19, source_.start(element.name));
    if (element.kind == "field") {
        if (key == "constructor") report(24, source_.start(element.name));
        return walk_field(element.definition, around);
    }
    if (is_constructor && element.kind == "method" && constructors++) report(17, source_.start(element.name));
    if (is_constructor && element.kind != "method") report(18, source_.start(element.name));
    walk_method(element.definition, around, is_constructor && element.kind == "method" && is_derived);
}

// A field's value and a static block: `super` properties and `new.target` may stand in them, calls of `super` and `arguments` not.
EarlyErrors::Surroundings EarlyErrors::initializing(const Surroundings &around) {
    Surroundings inside = begun(around);
    inside.has_super_property = inside.has_new_target = inside.bars_arguments = true;
    return inside;
}

void EarlyErrors::walk_field(Node field, const Surroundings &around) {
    walk(field->children[0], around);
    walk(field->children[1], initializing(around));
}

void EarlyErrors::walk_static_block(Node block, const Surroundings &around) {
    Node list = block->children[2]->children[0]->children[0];
    report_declarations(semantics_.top_level_lexically_declared_names(list), semantics_.top_level_var_declared_names(list));
    Surroundings inside = initializing(around);
    inside.bars_await = true;
    walk(list, inside);
}

// 15.7.1: no private name is `#constructor`.
void EarlyErrors::class_element_name(Node node, const Surroundings &around) {
    if (!node->children[0]->is_leaf()) return walk_children(node, around);
    if (source_.spelled(node) == "#constructor") report(25, source_.start(node));
}

// 8.3.1 of later editions, AllPrivateIdentifiersValid.
void EarlyErrors::report_private_reference(Node leaf, const Surroundings &around) {
    for (const PrivateNames *it = around.private_names; it; it = it->around)
        if (it->names.count(source_.spelled(leaf))) return;
    report(27, source_.start(leaf));
}

// ContainsArguments.
void EarlyErrors::identifier_reference(Node node, const Surroundings &around) {
    if (around.bars_arguments && source_.spelled(node) == "arguments") report(28, source_.start(node));
}

// 13.3.12.1.
void EarlyErrors::import_meta(Node node, const Surroundings &) {
    if (!is_module_) report(30, source_.start(node));
}

// 16.2.1.1, 16.2.3.1.
void EarlyErrors::module(Node node, const Surroundings &around) {
    ModuleNames names = semantics_.module_names(node);
    report_declarations(names.lexical, names.var);
    report_duplicates(names.exported, 31);
    std::set<string> declared;
    for (const NamesAt *it : {&names.lexical, &names.var})
        for (const NameAt &each : *it)
            declared.insert(each.name);
    for (const NameAt &it : names.referenced) {
        if (it.name.empty() || source_.is_reserved(it.name)) report(32, it.place);
        else if (!declared.count(it.name)) report(33, it.place);
    }
    walk_children(node, around);
}

// 16.2: a string is well-formed Unicode.
void EarlyErrors::module_export_name(Node node, const Surroundings &) {
    if (source_.token(node).kind == Token::Kind::String && !semantics_.is_well_formed(node)) report(34, source_.start(node));
}

// 15.1.1, 14.1.2.
void EarlyErrors::super_property(Node node, const Surroundings &around) {
    if (!around.has_super_property) report(14, source_.start(node));
    walk_children(node, around);
}

void EarlyErrors::super_call(Node node, const Surroundings &around) {
    if (!around.has_super_call) report(15, source_.start(node));
    walk_children(node, around);
}

void EarlyErrors::new_target(Node node, const Surroundings &around) {
    if (!around.has_new_target) report(16, source_.start(node));
}

// 13.2.5.1 of the 13th edition.
void EarlyErrors::object_literal(Node node, const Surroundings &around) {
    int prototypes = 0;
    if (source_.has("indices-flag")) report_prototypes(node, prototypes);
    walk_children(node, around);
}

void EarlyErrors::report_prototypes(Node node, int &prototypes) {
    for (Node it : node->children) {
        if (is(it, "PropertyDefinitionList")) report_prototypes(it, prototypes);
        if (!is(it, "PropertyDefinition") || !is(it->children[0], "PropertyName")) continue;
        if (semantics_.prop_name(it->children[0]) == "__proto__" && prototypes++) report(36, source_.start(it));
    }
}

// 12.2.9.1.
void EarlyErrors::template_literal(Node node, const Surroundings &around) {
    if (!(node->parameters & Tagged) && has_bad_part(node)) report(20, source_.start(node));
    walk_children(node, around);
}

// Whether a part of this template is bad, not one of a template in it.
bool EarlyErrors::has_bad_part(Node tmpl) const {
    for (Node it : tmpl->children) {
        bool is_part = is(it, "SubstitutionTemplate") || is(it, "TemplateSpans") || is(it, "TemplateMiddleList");
        if (it->is_leaf() ? source_.token(it).has_bad_escape : is_part && has_bad_part(it)) return true;
    }
    return false;
}
} // namespace standard
