// The refined parse tree as ESTree's JSON, fields in the order of their names, without the values of literals; and the number of
// ParenthesizedExpressions in it.
#pragma once
#include "reader.hpp"

namespace standard {
class Estree {
  public:
    explicit Estree(const SourceText &source) : source_(source) {}

    string program(const ParseNode *script);
    int grouping_pairs() const { return pairs_; }

  private:
    using Node = const ParseNode *;
    using Fields = vector<std::pair<string, string>>;
    using Items = vector<string>;
    using Shape = string (Estree::*)(Node);
    struct Method {
        string key, kind, function; // the kind `special` is a method's with `*` or `async`
        bool is_computed;
        Node name;
    };
    const SourceText &source_;
    int pairs_ = 0;

    bool is(Node node, const char *symbol) const { return source_.is(node, symbol); }
    bool is_token(Node node, const char *spelling) const { return source_.is_token(node, spelling); }
    string object(const string &type, int start, int end, Fields fields) const;
    string object(const string &type, Node node, Fields fields = {}) const {
        return object(type, source_.start(node), source_.end(node), std::move(fields));
    }
    string identifier(Node node);
    string literal(Node node);

    // Expressions.
    string expression(Node node);
    string primary(Node node);
    string parenthesized(Node node);
    string array_literal(Node node);
    string object_literal(Node node);
    string function_expression(Node node);
    string class_expression(Node node);
    string template_literal(Node node);
    string member_or_call(Node node);
    string super_property(Node node);
    string super_call(Node node);
    string import_call(Node node);
    string new_target(Node node);
    string new_expression(Node node);
    string optional_expression(Node node);
    string update(Node node);
    string unary(Node node);
    string conditional(Node node);
    string assignment(Node node);
    string arrow(Node node);
    string yield_expression(Node node);
    string await_expression(Node node);
    string name_or_private(Node leaf);
    string sequence(Node node);
    string binary(Node node);
    void push_sequence(Node node, Items &out);
    void push_arguments(Node node, Items &out);
    void push_elements(Node node, Items &out);
    void push_holes(Node elision, Items &out) const;
    void push_definitions(Node node, Items &out);
    void push_spans(Node node, Items &elements, Items &expressions);
    string arguments(Node node);
    string template_element(Node node, bool is_tail) const;
    string chain(Node node);
    string chain_parts(Node node, int start, const string &base);
    string member(int start, Node last, const string &of, const string &property, bool is_computed, bool is_optional) const;
    string call(int start, Node last, const string &callee, const string &arguments, bool is_optional) const;
    string spread(Node first, Node argument);
    string super_node(Node node) const;

    // Targets, patterns and parameters.
    string target(Node node);
    string assignment_element(Node node);
    string binding_pattern(Node node);
    string binding_element(Node node);
    string single_name(Node node);
    string bound(Node node);
    string rest(Node node, const string &argument) const;
    string with_default(Node node, const string &left, Node initializer);
    string array_pattern(Node whole, Node pattern);
    string object_pattern(Node whole, Node pattern);
    void push_pattern_elements(Node node, Items &out);
    void push_pattern_properties(Node node, Items &out);
    string pattern_property(Node node);
    void push_parameters(Node node, Items &out);
    string parameters(Node node);

    // Functions and classes.
    string property_key(Node name, bool &is_computed);
    string property(Node node, const string &key, const string &value, const string &kind, bool is_method, bool is_shorthand, bool is_computed) const;
    string function(const string &type, Node first, Node last, const string &id, const string &parameters, const string &body, const string &symbol,
                    Fields more = {}) const;
    string named_function(const string &type, Node node);
    string function_body(Node open, Node body, Node close);
    Method method(Node node);
    string class_of(const string &type, Node node, Node id, Node tail);
    void push_members(Node node, Items &out);
    string field(Node element, Node definition, bool is_static);
    string static_block(Node node);

    // Statements and declarations.
    void push_items(Node list, Items &out, bool has_prologue);
    string item(Node node);
    string declared(Node node);
    string import_declaration(Node node);
    string export_declaration(Node node);
    string module_name(Node node);
    void push_import_specifiers(Node node, Items &out);
    void push_export_specifiers(Node node, Items &out);
    string directive(Node statement);
    string statement(Node node);
    string block(Node node);
    string block_statement(Node node);
    string empty_statement(Node node);
    string debugger_statement(Node node);
    string variable_statement(Node node);
    string expression_statement(Node node);
    string if_statement(Node node);
    string iteration_statement(Node node);
    string for_statement(Node node, size_t head);
    string for_in_of(Node node, size_t head);
    string jump_statement(Node node);
    string return_statement(Node node);
    string throw_statement(Node node);
    string labelled_statement(Node node);
    string switch_statement(Node node);
    string try_statement(Node node);
    string catch_clause(Node node);
    string switch_case(Node node);
    void push_cases(Node node, Items &out);
    string declaration(Node first, int end, const string &kind, Node list);
    string declaration_of_one(Node first, const string &kind, Node binding);
    void push_declarators(Node node, Items &out);
    string optional(Node node) { return node ? expression(node) : "null"; }
};

string quoted(const string &text);
string listed(const vector<string> &items);
string flag(bool is_so);
} // namespace standard
