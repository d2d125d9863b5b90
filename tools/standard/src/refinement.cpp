#include "refinement.hpp"

namespace standard {
namespace {
const std::set<string> STRICT_WORDS{"implements", "interface", "let", "package", "private", "protected", "public", "static", "yield"};
// What hides what it contains (14.1.4, 14.2.3, 14.4.3 and others), and what shows of itself only its key (14.3.3).
const std::set<string> OPAQUE{"ArrowFunction",
                              "AsyncArrowFunction",
                              "ClassStaticBlock",
                              "FunctionExpression",
                              "FunctionDeclaration",
                              "GeneratorExpression",
                              "GeneratorDeclaration",
                              "AsyncFunctionExpression",
                              "AsyncFunctionDeclaration",
                              "AsyncGeneratorExpression",
                              "AsyncGeneratorDeclaration"};
const std::set<string> KEYED{"GeneratorMethod", "AsyncMethod", "AsyncGeneratorMethod", "FieldDefinition"};
} // namespace

CoverRefiner::CoverRefiner(Chart &chart, const SourceText &source, ParseNodes &nodes, const string &goal_symbol)
    : grammar_(chart.grammar), source_(source), nodes_(nodes), chart_(chart), is_module_(goal_symbol == "Module"),
      reserves_await_(is_module_ || grammar_.has("await-reserved")), has_early_yield_(grammar_.has("yield-and-await-everywhere")),
      has_early_meta_(grammar_.has("import-meta-everywhere")) {}

ParseNode *CoverRefiner::refuse(const string &reason) {
    reason_ = reason;
    return nullptr;
}

ParseNode *CoverRefiner::read_again(const ParseNode *node, const string &symbol, unsigned parameters) {
    int nonterminal = grammar_.nonterminal(symbol, parameters);
    grammar_.expand();
    auto found = read_again_.emplace(std::make_tuple(nonterminal, node->from, node->to), nullptr);
    if (!found.second || !chart_.recognise(source_.tokens, node->from, node->to, nonterminal, source_.text)) return found.first->second;
    vector<Token> tokens(source_.tokens.begin() + node->from, source_.tokens.begin() + node->to);
    Derivations derivations(chart_, tokens, node->from, nodes_, [this](const ParseNode *it) { return is_distant_else(it); });
    const vector<ParseNode *> &all = derivations.all(nonterminal);
    is_ambiguous_ |= all.size() > 1;
    if (!all.empty()) found.first->second = all[0];
    return found.first->second;
}

ParseNode *CoverRefiner::refine(ParseNode *node) {
    if (node->is_leaf()) return node;
    if (const char *fault = fault_before(node)) return refuse(fault);
    nodes_.push_back(*node);
    ParseNode *refined = replace_cover(&nodes_.back());
    if (!refined || !refine_children(refined)) return nullptr;
    const char *fault = fault_after(refined);
    return fault ? refuse(fault) : refined;
}

// Where the node's first child is a cover, the child is read again by the supplemental symbol.
ParseNode *CoverRefiner::replace_cover(ParseNode *node) {
    for (const Refinement &it : grammar_.source.refinements) {
        if (source_.name(node) != it.parent || !source_.is(node->children[0], it.cover.c_str())) continue;
        ParseNode *read = read_again(node->children[0], it.symbol, node->parameters & (Yield | Await));
        if (!read) return refuse("covers no " + it.symbol);
        node->children[0] = read;
    }
    return node;
}

ParseNode *CoverRefiner::refine_children(ParseNode *node) {
    for (ParseNode *&it : node->children) {
        if (!it) continue;
        it = refine_child(node, it);
        if (!it) return nullptr;
    }
    return node;
}

// The left side of `=`, of `for`, and what is in a pattern may be a pattern itself; of other assignments it is simple.
ParseNode *CoverRefiner::refine_child(const ParseNode *parent, ParseNode *child) {
    unsigned parameters = parent->parameters & (Yield | Await);
    if (source_.is(parent, "AssignmentExpression") && parent->children.size() == 3 && child == parent->children[0]) {
        bool is_plain = source_.is_token(parent->children[1], "=");
        return is_plain ? refine_target(child, parameters, "the left side is no target") : refine_simple(child, "the left side is no simple target");
    }
    if (is_target_position(parent, child)) return refine_target(child, parameters, "a target is none");
    if (source_.is(parent, "UpdateExpression") && parent->children.size() == 2 && !child->is_leaf())
        return refine_simple(child, "the operand is no simple target");
    if (source_.is(parent, "AssignmentRestProperty") && source_.down_to(child, "ObjectLiteral", "ArrayLiteral"))
        return refuse("a pattern as an object's rest");
    return refine(child);
}

bool CoverRefiner::is_target_position(const ParseNode *parent, const ParseNode *child) const {
    return source_.is(parent, "DestructuringAssignmentTarget") ||
           (source_.is(parent, "IterationStatement") && source_.is(child, "LeftHandSideExpression"));
}

// 12.15.1, 12.15.5.1, 13.7.5.1.
ParseNode *CoverRefiner::refine_target(ParseNode *left, unsigned parameters, const char *otherwise) {
    ParseNode *literal = source_.down_to(left, "ObjectLiteral", "ArrayLiteral");
    if (!literal) return refine_simple(left, otherwise);
    ParseNode *pattern = read_again(literal, "AssignmentPattern", parameters);
    return pattern ? refine(pattern) : refuse("covers no AssignmentPattern");
}

ParseNode *CoverRefiner::refine_simple(ParseNode *node, const char *otherwise) {
    ParseNode *refined = refine(node);
    if (!refined) return nullptr;
    return is_simple(refined) ? refined : refuse(otherwise);
}

bool CoverRefiner::is_simple(const ParseNode *node) const {
    while (node && !node->is_leaf()) {
        if (source_.is(node, "IdentifierReference") || is_simple_member(node)) return true;
        bool is_grouped = source_.is(node, "ParenthesizedExpression");
        if (!is_grouped && node->children.size() != 1) return false;
        node = node->children[is_grouped ? 1 : 0];
    }
    return false;
}

bool CoverRefiner::is_simple_member(const ParseNode *node) const {
    if (source_.is(node, "SuperProperty")) return true;
    if (!source_.is(node, "MemberExpression") && !source_.is(node, "CallExpression")) return false;
    return node->children.size() == 4 || (node->children.size() == 3 && source_.is_token(node->children[1], "."));
}

const char *CoverRefiner::fault_before(const ParseNode *node) const {
    const string &name = source_.name(node);
    if (name == "Identifier") return STRICT_WORDS.count(source_.spelled(node)) ? "a word that is reserved in strict code" : nullptr;
    if (name == "IdentifierReference" || name == "BindingIdentifier" || name == "LabelIdentifier") return name_fault(node);
    if (name == "CoverInitializedName") return "CoverInitializedName in an expression";
    if (name == "OptionalChain" && source_.is(node->children.back(), "TemplateLiteral")) return "a template in a chain";
    if (name == "ImportMeta" && !is_module_ && !has_early_meta_) return "import.meta in a Script";
    if (name == "PropertyDefinition" && has_private_method(node)) return "a private name in an object";
    if (name == "AsyncArrowFunction" && contains_yield_or_await(node->children[0])) return "yield or await in an arrow's parameters";
    return nullptr;
}

const char *CoverRefiner::name_fault(const ParseNode *node) const {
    if (!node->children[0]->is_leaf()) return nullptr;
    string word = source_.spelled(node);
    if (word == "yield") return "yield in strict code";
    bool is_reserved = reserves_await_ || (source_.is(node, "BindingIdentifier") && (node->parameters & Await));
    return word == "await" && is_reserved ? "await as a name" : nullptr;
}

// 13.2.5.1 of the 13th edition.
bool CoverRefiner::has_private_method(const ParseNode *node) const {
    const ParseNode *method = node->children[0];
    if (!source_.is(method, "MethodDefinition")) return false;
    if (method->children.size() == 1) method = method->children[0];
    for (const ParseNode *it : method->children)
        if (source_.is(it, "ClassElementName") && it->children[0]->is_leaf()) return true;
    return false;
}

const char *CoverRefiner::fault_after(const ParseNode *node) const {
    const string &name = source_.name(node);
    bool is_arrow = name == "ArrowFunction" || name == "AsyncArrowFunction";
    if (is_arrow && contains_yield_or_await(node->children[0])) return "yield or await in an arrow's parameters";
    if (name.compare(0, 9, "Generator") == 0 || name.compare(0, 5, "Async") == 0) return parameter_fault(node);
    if (name == "ClassStaticBlockStatementList" && !has_early_yield_ && contains(node, "AwaitExpression")) return "await in a static block";
    if (name == "LabelledItem" && source_.is(node->children[0], "FunctionDeclaration")) return "a labelled function in strict code";
    if (name == "WithStatement") return "with in strict code";
    // 13.6.1, 13.7.1.1: IsLabelledFunction
    if (name != "IfStatement" && name != "IterationStatement") return nullptr;
    for (ParseNode *it : node->children)
        if (source_.is(it, "Statement") && is_labelled_function(it)) return "a labelled function as a body";
    return nullptr;
}

// 14.4.1, 14.5.1, 14.7.1.
const char *CoverRefiner::parameter_fault(const ParseNode *node) const {
    for (const ParseNode *it : node->children)
        if ((source_.is(it, "FormalParameters") || source_.is(it, "UniqueFormalParameters")) && contains_yield_or_await(it))
            return "yield or await in parameters";
    return nullptr;
}

// (where that isn't an early error with a place)
bool CoverRefiner::contains_yield_or_await(const ParseNode *node) const {
    if (has_early_yield_) return false;
    return contains(node, "YieldExpression") || contains(node, "AwaitExpression");
}

bool CoverRefiner::contains(const ParseNode *node, const char *symbol) const {
    if (!node || node->is_leaf()) return false;
    const string &name = source_.name(node);
    if (name == symbol) return true;
    if (OPAQUE.count(name)) return false;
    bool is_keyed = KEYED.count(name) || (name == "MethodDefinition" && node->children.size() > 1);
    for (const ParseNode *it : node->children) {
        bool is_seen = !is_keyed || source_.is(it, "PropertyName") || source_.is(it, "ClassElementName");
        if (is_seen && contains(it, symbol)) return true;
    }
    return false;
}

bool CoverRefiner::is_labelled_function(ParseNode *statement) const {
    ParseNode *labelled = source_.down_to(statement, "LabelledStatement", "LabelledStatement");
    if (!labelled) return false;
    ParseNode *item = labelled->children[2]->children[0];
    return source_.is(item, "FunctionDeclaration") || is_labelled_function(item);
}

bool CoverRefiner::is_distant_else(const ParseNode *node) const {
    return source_.is(node, "IfStatement") && node->children.size() == 7 && ends_in_if(node->children[4]);
}

bool CoverRefiner::ends_in_if(const ParseNode *statement) const {
    while (!statement->is_leaf()) {
        const string &name = source_.name(statement);
        if (name == "IfStatement" && statement->children.size() == 5) return true;
        bool is_single = name == "Statement" || name == "BreakableStatement" || name == "LabelledItem";
        bool is_loop = name == "IterationStatement" && !source_.is_token(statement->children[0], "do");
        if (!is_single && !is_loop && name != "IfStatement" && name != "LabelledStatement" && name != "WithStatement") return false;
        statement = statement->children.back();
    }
    return false;
}
} // namespace standard
