// The standard's notation for a grammar (5.1.5), as the files of grammar/ have it.
#pragma once
#include <map>
#include <set>
#include <string>
#include <vector>

namespace standard {
using std::string;
using std::vector;

// The parameters of nonterminals, a bit each.
enum Parameter : unsigned { In = 1, Yield = 2, Await = 4, Return = 8, Default = 16, Tagged = 32 };
constexpr unsigned PARAMETER_COUNT = 6;
unsigned parameter_named(const string &name);
string parameter_name(unsigned parameter);

// A parameter with its sign: [+In] [~In] [?In].
struct Argument {
    unsigned parameter;
    char sign;
};
// A token of a lookahead restriction, perhaps with [no LineTerminator here] before it.
struct LookaheadToken {
    string text;
    bool is_on_same_line;
};
// [lookahead ∉ {..}]: sequences of tokens, none of which may come next.
struct Lookahead {
    vector<vector<LookaheadToken>> sequences;
};
struct Symbol {
    enum class Kind { Terminal, Nonterminal, Lookahead, NoLineTerminator };
    Kind kind = Kind::Terminal;
    string text;
    vector<Argument> arguments;
    bool is_optional = false;
    int lookahead = -1;
};
struct Alternative {
    string text;
    vector<Argument> guards;
    vector<Symbol> symbols;
};
struct Production {
    string name, clause;
    unsigned parameters = 0;
    vector<Alternative> alternatives;
};

// A supplemental symbol: where a parent's first child is the cover, the cover's tokens are read again by the symbol.
struct Refinement {
    string parent, cover, symbol;
};

// The productions of one or several files; a later file changes those before it.
class GrammarSource {
  public:
    vector<Production> productions;
    vector<Lookahead> lookaheads;
    vector<Refinement> refinements;

    void read(const string &path);
    // The number of a production, -1 if there is none.
    int find(const string &name) const;
    // Whether a file says `%set` of a rule that isn't a production.
    bool has(const string &rule) const { return rules_.count(rule) > 0; }

  private:
    std::map<string, int> numbers_;
    std::set<string> rules_;
    string clause_;
    int current_ = -1;
    bool is_one_of_ = false;

    void read_line(const string &line);
    void read_head(const string &line);
    void read_refinement(const string &line);
    void read_alternative(const string &line);
    void drop_symbol(const string &name);
    void drop_alternative(const string &line);
};
} // namespace standard
