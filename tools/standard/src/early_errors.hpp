// The early errors of the static semantics, on a refined parse tree. Their numbers and places are the profile's, so that they can be
// compared (docs/USAGE.md has the table).
#pragma once
#include "static_semantics.hpp"

namespace standard {
struct EarlyError {
    int number, place;
    bool operator<(const EarlyError &other) const { return std::tie(place, number) < std::tie(other.place, other.number); }
};

class EarlyErrors {
  public:
    explicit EarlyErrors(const SourceText &source) : source_(source), semantics_(source) {}

    // All early errors of a Script or a Module, in no order.
    const vector<EarlyError> &of_script(const ParseNode *script);

  private:
    using Node = const ParseNode *;
    // The private names of a class body, and of those around it.
    struct PrivateNames {
        std::set<string> names;
        const PrivateNames *around;
    };
    // What holds around a node.
    struct Surroundings {
        bool is_in_loop = false, is_breakable = false, has_super_property = false, has_super_call = false, has_new_target = false;
        // Where YieldExpressions and AwaitExpressions, and `arguments`, must not be contained.
        bool bars_yield = false, bars_await = false, bars_arguments = false;
        vector<string> labels, loop_labels;
        vector<string> pending_labels; // those right before the statement
        const PrivateNames *private_names = nullptr;
    };
    using Walk = void (EarlyErrors::*)(Node, const Surroundings &);
    const SourceText &source_;
    StaticSemantics semantics_;
    bool is_module_ = false;
    vector<EarlyError> errors_;

    bool is(Node node, const char *symbol) const { return source_.is(node, symbol); }
    bool is_token(Node node, const char *spelling) const { return source_.is_token(node, spelling); }
    void report(int number, int place) { errors_.push_back({number, place}); }
    void report_duplicates(const NamesAt &names, int number);
    void report_shared(const NamesAt &names, const NamesAt &others, int number);
    void report_declarations(const NamesAt &lexical, const NamesAt &var);
    void report_restricted_name(Node node);
    void report_restricted_target(Node target);
    void report_uninitialized(Node list);
    void report_async_of(Node node);
    void report_private_duplicates(Node list, PrivateNames &names);
    void report_private_reference(Node leaf, const Surroundings &around);
    bool has_bad_part(Node tmpl) const;

    void walk(Node node, Surroundings around);
    void walk_children(Node node, const Surroundings &around);
    void walk_regexp(Node leaf);
    void binding_identifier(Node node, const Surroundings &around);
    void assignment(Node node, const Surroundings &around);
    void update(Node node, const Surroundings &around);
    void assignment_target(Node node, const Surroundings &around);
    void assignment_property(Node node, const Surroundings &around);
    void unary(Node node, const Surroundings &around);
    void lexical_declaration(Node node, const Surroundings &around);
    void block(Node node, const Surroundings &around);
    void case_block(Node node, const Surroundings &around);
    void script(Node node, const Surroundings &around);
    void catch_clause(Node node, const Surroundings &around);
    void jump(Node node, const Surroundings &around);
    void single_statement(Node node, const Surroundings &around);
    void labelled(Node node, const Surroundings &around);
    void switch_statement(Node node, const Surroundings &around);
    void iteration(Node node, const Surroundings &around);
    void class_element_name(Node node, const Surroundings &around);
    void identifier_reference(Node node, const Surroundings &around);
    void module(Node node, const Surroundings &around);
    void module_export_name(Node node, const Surroundings &around);
    void import_meta(Node node, const Surroundings &around);
    void function(Node node, const Surroundings &around);
    void arrow(Node node, const Surroundings &around);
    void method(Node node, const Surroundings &around);
    void class_tail(Node node, const Surroundings &around);
    void super_property(Node node, const Surroundings &around);
    void super_call(Node node, const Surroundings &around);
    void new_target(Node node, const Surroundings &around);
    void template_literal(Node node, const Surroundings &around);
    void object_literal(Node node, const Surroundings &around);
    void report_prototypes(Node node, int &prototypes);

    void walk_method(Node node, const Surroundings &around, bool may_call_super);
    void walk_function(Node parameters, Node body, const Surroundings &inside);
    void walk_class_element(Node element, const Surroundings &around, bool is_derived, int &constructors);
    void walk_field(Node field, const Surroundings &around);
    void walk_static_block(Node block, const Surroundings &around);
    // What surrounds the inside of a function, or of a class's field or static block.
    static Surroundings begun(const Surroundings &around);
    static Surroundings initializing(const Surroundings &around);
    bool has_private_end(Node operand) const;
};
} // namespace standard
