// The static semantics that early errors ask for, on refined parse trees.
#pragma once
#include "reader.hpp"

namespace standard {
// A name with the place of its identifier.
struct NameAt {
    string name;
    int place;
};
using NamesAt = vector<NameAt>;

// 15.7 of the 13th edition: what a ClassElement is; all is null of a `;`.
struct ClassElement {
    string kind; // method, get, set, special (a generator or async), field
    bool is_static = false, is_private = false;
    const ParseNode *name = nullptr;       // the PropertyName, or the PrivateIdentifier
    const ParseNode *definition = nullptr; // the MethodDefinition or FieldDefinition
    const ParseNode *block = nullptr;      // the ClassStaticBlock
};

// 16.2.1.2 to 16.2.1.7 of the 13th edition. A name that is a string counts by its value; in `referenced` it is empty.
struct ModuleNames {
    NamesAt lexical, var, exported, referenced;
};

class StaticSemantics {
  public:
    explicit StaticSemantics(const SourceText &source) : source_(source) {}

    // 12.1.2, 13.3.1.2, 13.3.2.1, 13.3.3.1, 13.7.5.2, 14.1.3, 14.6.2: BoundNames
    NamesAt bound_names(const ParseNode *node) const;
    // 13.2.5, 13.12.5: LexicallyDeclaredNames of a block or a switch
    NamesAt lexically_declared_names(const ParseNode *node) const;
    // 13.1.5 and others of that name: VarDeclaredNames
    NamesAt var_declared_names(const ParseNode *node) const;
    // 13.2.9, 13.2.11: of a script or a function's body; its functions are var names there
    NamesAt top_level_lexically_declared_names(const ParseNode *list) const;
    NamesAt top_level_var_declared_names(const ParseNode *list) const;
    // 14.1.13: IsSimpleParameterList
    bool is_simple_parameter_list(const ParseNode *node) const;
    // 14.1.1: the place of the directive `use strict`, -1 if there is none
    int use_strict(const ParseNode *list) const;
    // 12.2.6.5: PropName; none if it is computed or a number
    string prop_name(const ParseNode *name) const;
    ClassElement class_element(const ParseNode *element) const;
    ModuleNames module_names(const ParseNode *module) const;
    // Whether a string has no lone surrogate.
    bool is_well_formed(const ParseNode *string_token) const;
    // The items of a StatementList.
    vector<ParseNode *> items(const ParseNode *list) const;

  private:
    const SourceText &source_;

    bool is(const ParseNode *node, const char *symbol) const { return source_.is(node, symbol); }
    void push_bound(const ParseNode *node, NamesAt &out) const;
    void push_lexical(const ParseNode *node, NamesAt &out) const;
    void push_labelled(ParseNode *statement, NamesAt &out) const;
    void push_var(const ParseNode *node, NamesAt &out) const;
    void push_import(const ParseNode *node, NamesAt &out) const;
    void push_export(const ParseNode *node, ModuleNames &out) const;
    void push_specifiers(const ParseNode *node, bool has_source, ModuleNames &out) const;
    NameAt export_name(const ParseNode *node) const;
    // 12.9.4.2: SV, as code units
    vector<unsigned> code_units(const ParseNode *string_token) const;
    string string_value(const ParseNode *string_token) const;
};
} // namespace standard
