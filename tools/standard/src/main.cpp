// The command line. README.md says what each command does.
#include "early_errors.hpp"
#include "estree.hpp"
#include "mutants.hpp"
#include "positions.hpp"
#include "sentences.hpp"
#include <algorithm>
#include <chrono>
#include <cstdio>
#include <cstdlib>
#include <fstream>
#include <iostream>
#include <pthread.h>
#include <sstream>
#include <stdexcept>

namespace standard {
namespace {
constexpr size_t STACK_BYTES = 1ul << 30, MOST_SENTENCE_BYTES = 600;
const char *const USAGE =
    "usage: standard size|read|derive|ask|enumerate|texts|random|positions|mutants --grammar FILE .. [OPTION ..] [ARGUMENT ..]\n";

struct Options {
    string command, goal_symbol = "Script";
    vector<string> files, arguments;
    int seconds = 0, length = 0, deep_length = 0;
    size_t most = 1000000, each = 1;
};

// Whether the time of a command is up; with 0 seconds it never is.
class Deadline {
  public:
    explicit Deadline(int seconds) : seconds_(seconds), begun_(std::chrono::steady_clock::now()) {}
    bool is_over() const { return seconds_ && std::chrono::steady_clock::now() - begun_ > std::chrono::seconds(seconds_); }

  private:
    int seconds_;
    std::chrono::steady_clock::time_point begun_;
};
// Ends an enumeration at the deadline.
struct Stopped {};

const string &argument(const Options &options, size_t number) {
    if (number >= options.arguments.size()) throw std::runtime_error(options.command + " needs an argument more");
    return options.arguments[number];
}

string content(const string &path) {
    std::ifstream file(path);
    if (!file) throw std::runtime_error("no file " + path);
    std::stringstream out;
    out << file.rdbuf();
    return out.str();
}

// Texts, each ended by a zero byte.
vector<string> texts_of(const string &path) {
    std::stringstream all(content(path));
    vector<string> out;
    for (string it; std::getline(all, it, '\0');)
        out.push_back(it);
    return out;
}

void print_size(const Grammar &grammar) {
    printf("productions %zu, with parameters and options: nonterminals %zu, rules %zu, terminals %zu\n", grammar.source.productions.size(),
           grammar.nonterminals.size(), grammar.rules.size(), grammar.terminals.size());
}

void print_reading(Reader &reader, const string &path) {
    Reading reading = reader.read(content(path));
    if (!reading.is_accepted) {
        printf("%s: refused: %s (last token at byte %d)\n", path.c_str(), reading.reason.c_str(), reader.last_token_start());
        return;
    }
    printf("%s: accepted, derivations %d, after refinement %d%s\n", path.c_str(), reading.derivations, reading.refined,
           reading.is_cover_ambiguous ? ", a cover in two ways" : "");
    EarlyErrors early(reader.source);
    for (const EarlyError &it : early.of_script(reading.tree))
        printf("  E%d at byte %d\n", it.number, it.place);
    Estree estree(reader.source);
    string tree = estree.program(reading.tree);
    printf("%s\npairs %d\n", tree.c_str(), estree.grouping_pairs());
}

// Whether an early error of the profile of 2022 is a derivation that the standard itself hasn't.
bool is_derived(Reader &reader, const Reading &reading) {
    static const std::set<int> NO_DERIVATION{22, 23, 30, 35};
    if (!reading.is_accepted) return false;
    EarlyErrors early(reader.source);
    const vector<EarlyError> &errors = early.of_script(reading.tree);
    return std::none_of(errors.begin(), errors.end(), [](const EarlyError &it) { return NO_DERIVATION.count(it.number) > 0; });
}

// A word for each text: whether it is derived, in one way or two.
void print_derivations(Reader &reader, const string &path) {
    for (const string &it : texts_of(path)) {
        Reading reading = reader.read(it);
        puts(!is_derived(reader, reading) ? "refused" : reading.refined > 1 || reading.is_cover_ambiguous ? "twice" : "once");
    }
}

// A word for each text: what the standard says of it.
void print_answers(Reader &reader, const string &path) {
    for (const string &it : texts_of(path)) {
        StandardAnswer answer = standard_answer(reader, it);
        if (answer.verdict == Verdict::Accepted) puts("accepted");
        else if (answer.verdict == Verdict::EarlyError) printf("early error E%d at %s\n", answer.error_number, answer.place.c_str());
        else printf("refused: %s\n", answer.reading.reason.c_str());
    }
}

void report_conflicts(const Reader &reader) {
    printf("places where two goals read the next character otherwise: / and a regular expression %ld, } and a template's part %ld\n",
           reader.conflicts().div_and_regexp, reader.conflicts().brace_and_template);
}

// An alphabet's strings to the full length; then, by length, those behind living beginnings.
void enumerate(const Options &options, Comparison &comparison, const Alphabet &alphabet, const Deadline &deadline) {
    int full = options.length ? options.length : alphabet.full_length, reached = full;
    int deep = options.length ? options.deep_length : alphabet.deep_length;
    auto take = [&](const string &text) {
        if (deadline.is_over()) throw Stopped();
        comparison.compare(text);
    };
    bool is_stopped = false;
    try {
        Enumeration(alphabet).each(full, take);
        for (int length = full + 1; length <= deep; reached = length++)
            Enumeration(alphabet).each_living(length, comparison.reader, take);
    } catch (Stopped) {
        is_stopped = true;
    }
    printf("%s (%zu pieces): all strings up to length %d, living ones up to %d%s\n", alphabet.name.c_str(), alphabet.pieces.size(), full, reached,
           is_stopped ? "; stopped" : "");
}

bool run_enumeration(const Options &options, Reader &reader) {
    long disagreements = 0;
    Deadline deadline(options.seconds);
    for (const Alphabet &it : read_alphabets(argument(options, 0), options.arguments.size() > 1 ? options.arguments[1] : "")) {
        Comparison comparison(reader);
        enumerate(options, comparison, it, deadline);
        comparison.report();
        disagreements += comparison.tally.disagreement_count();
    }
    report_conflicts(reader);
    return disagreements == 0;
}

bool finished(const Comparison &comparison) {
    comparison.report();
    comparison.report_uncovered();
    report_conflicts(comparison.reader);
    return comparison.tally.texts > 0 && comparison.tally.disagreement_count() == 0;
}

bool run_positions(const Options &options, Reader &reader) {
    Comparison comparison(reader);
    std::set<string> seen;
    Positions positions(reader.grammar, reader.start_symbol());
    size_t number = 0;
    long count = positions.texts([&](int, const string &text) {
        if (number++ % options.each) return;
        if (comparison.tally.texts < static_cast<long>(options.most) && seen.insert(text).second) comparison.compare(text);
    });
    printf("positions %ld, each with %zu probes, line ends and missing semicolons\n", count, positions.probes().size());
    return finished(comparison);
}

bool run_sentences(const Options &options, Reader &reader) {
    SentenceMaker maker(reader.grammar, static_cast<uint64_t>(atoi(argument(options, 0).c_str())));
    Comparison comparison(reader);
    Deadline deadline(options.seconds);
    while (comparison.tally.texts < static_cast<long>(options.most) && !deadline.is_over()) {
        string text = maker.sentence(reader.start_symbol());
        if (text.size() <= MOST_SENTENCE_BYTES) comparison.compare(text);
    }
    printf("sentences of the grammar and their neighbours, seed %s\n", argument(options, 0).c_str());
    return finished(comparison);
}

bool run_texts(const Options &options, Reader &reader) {
    Comparison comparison(reader);
    for (const string &it : texts_of(argument(options, 0)))
        comparison.compare(it);
    printf("texts of %s\n", argument(options, 0).c_str());
    return finished(comparison);
}

bool run_mutants(const Options &options) {
    vector<string> words(options.arguments.begin() + (options.arguments.empty() ? 0 : 1), options.arguments.end());
    Deadline deadline(options.seconds);
    return MutantRun(options.files, options.goal_symbol, read_alphabets(argument(options, 0), "")).run(options.most, words, [&] {
        return deadline.is_over();
    });
}

bool run(const Options &options) {
    if (options.command == "mutants") return run_mutants(options);
    Grammar grammar(options.files);
    Reader reader(grammar, options.goal_symbol);
    bool is_well = true;
    if (options.command == "size") print_size(grammar);
    else if (options.command == "read")
        for (const string &it : options.arguments)
            print_reading(reader, it);
    else if (options.command == "derive") print_derivations(reader, argument(options, 0));
    else if (options.command == "ask") print_answers(reader, argument(options, 0));
    else if (options.command == "enumerate") is_well = run_enumeration(options, reader);
    else if (options.command == "texts") is_well = run_texts(options, reader);
    else if (options.command == "random") is_well = run_sentences(options, reader);
    else if (options.command == "positions") is_well = run_positions(options, reader);
    else throw std::runtime_error(USAGE);
    return is_well && !reader.conflicts().div_and_regexp && !reader.conflicts().brace_and_template;
}

int number_of(const string &word) {
    if (word.empty() || word.find_first_not_of("0123456789") != string::npos || word.size() > 9) throw std::runtime_error("no number: " + word);
    return atoi(word.c_str());
}

Options read_options(const vector<string> &words) {
    if (words.empty()) throw std::runtime_error(USAGE);
    Options out;
    out.command = words[0];
    for (size_t i = 1; i < words.size(); i++) {
        bool is_option = words[i].compare(0, 2, "--") == 0;
        if (is_option && i + 1 == words.size()) throw std::runtime_error(words[i] + " needs a value");
        if (!is_option) out.arguments.push_back(words[i]);
        else if (words[i] == "--grammar") out.files.push_back(words[++i]);
        else if (words[i] == "--goal") out.goal_symbol = words[++i];
        else if (words[i] == "--seconds") out.seconds = number_of(words[++i]);
        else if (words[i] == "--length") out.length = number_of(words[++i]);
        else if (words[i] == "--deep") out.deep_length = number_of(words[++i]);
        else if (words[i] == "--each") out.each = static_cast<size_t>(std::max(1, number_of(words[++i])));
        else if (words[i] == "--most") out.most = static_cast<size_t>(number_of(words[++i]));
        else throw std::runtime_error("no option " + words[i] + "\n" + USAGE);
    }
    return out;
}

// The words of the command line, and the status that comes of them.
struct Call {
    vector<string> words;
    int status = 2;
};

void *answer(void *given) {
    Call *call = static_cast<Call *>(given);
    try {
        call->status = run(read_options(call->words)) ? 0 : 1;
        if (fflush(stdout)) throw std::runtime_error("write failed");
    } catch (const std::exception &error) {
        fprintf(stderr, "standard: %s\n", error.what());
        call->status = 2;
    }
    return nullptr;
}
} // namespace
} // namespace standard

// All is done in a thread with a greater stack, since derivations recurse.
int main(int count, char **words) {
    standard::Call call;
    call.words.assign(words + 1, words + count);
    pthread_attr_t attributes;
    pthread_t thread;
    if (pthread_attr_init(&attributes) || pthread_attr_setstacksize(&attributes, standard::STACK_BYTES) ||
        pthread_create(&thread, &attributes, standard::answer, &call)) {
        fputs("standard: no thread\n", stderr);
        return 2;
    }
    pthread_join(thread, nullptr);
    return call.status;
}
