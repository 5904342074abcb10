// Tries what pb.hpp adds to pb.h: calls INSTANCE PROOF. It compares tidy() and show() with other ways to the same, looks at each part of a fault
// and of a refusal, and uses what was moved. The status is 1 if something of this was wrong.

#include <pb.hpp>

#include <atomic>
#include <fstream>
#include <iostream>
#include <iterator>
#include <thread>
#include <type_traits>

static std::atomic<int> wrong = {0};

static void tell(bool is_right, const char *what)
{
    if (!is_right) {
        wrong = 1;
        std::cerr << what << "\n";
    }
}

// The fault of a call.
template <typename Call> pb::Fault fault_of(Call call)
{
    try {
        call();
    } catch (const pb::Fault &fault) {
        return fault;
    }
    tell(false, "no fault");
    return pb::Fault(0, pb_report_t{}, "");
}

static std::string text_of(const char *path)
{
    std::ifstream file(path, std::ios::binary);
    return {std::istreambuf_iterator<char>(file), {}};
}

static void texts(const std::string &instance)
{
    const std::string canonical = pb::tidy(instance);
    tell(pb::tidy(canonical) == canonical, "tidy twice");
    tell(pb::tidy(pb::tidy(instance, true), true) == pb::tidy(instance, true), "normal twice");
    std::string many = "* #variable= 0 #constraint= 9999\n";
    for (int k = 0; k < 9999; k++)
        many += "=1;";
    const std::string shown = pb::show(many);
    tell(shown.size() > 100000 && shown.substr(shown.size() - 14) == "2:29995 = 1 ;\n", "a long text");
    try {
        pb::show("* #variable= 1 #constraint= 2\n+1 x1 >= 1 ;\n+1x1 >= 1 ;\n");
        tell(false, "no refusal");
    } catch (const pb::Refusal &it) {
        tell(it.status() == PB_REFUSED && it.line() == 3 && it.column() == 3, "the parts of a refusal");
        tell(it.what() == std::string("file: line 3 column 3: byte 0x78"), "the line of a refusal");
        tell(it.text() == "1:1 * #variable= 1 #constraint= 2\n2:1 +1 x1 >= 1 ;\nfile: line 3 column 3: byte 0x78\n", "its text");
    }
    try {
        pb::tidy("", false, pb_options_t{0, 0, 0, 30});
        tell(false, "no refusal");
    } catch (const pb::Refusal &it) {
        tell(it.status() == PB_MISUSE && it.line() == 0 && it.column() == 0, "the refusal of options");
    }
}

static void faults()
{
    const std::string instance = "* #variable= 2 #constraint= 1\n+1 x1 +1 second >= 1 ;\n", start = "pseudo-Boolean proof version 2.0\nf 1\n";
    const pb::Fault id = fault_of([&] { pb::check(instance, start + "del id 9 ;\n"); });
    tell(id.status() == PB_REFUSED && id.reason() == pb::Reason::NoSuchId && id.id() == 9 && id.input() == pb::Input::Proof, "an id");
    tell(id.line() == 3 && id.column() == 1 && id.offset() == 37, "the position of an id");
    tell(id.what() == std::string("proof: line 3 column 1: no such id 9"), "the line of an id");
    const pb::Fault name = fault_of([&] { pb::check(instance, start + "solx x1\n"); });
    tell(name.reason() == pb::Reason::NotTotal && name.name() == "second", "a name without a value");
    const pb::Fault byte = fault_of([&] { pb::Instance::read("1x1 >= 1 ;\n"); });
    tell(byte.reason() == pb::Reason::Byte && byte.number() == '1' && byte.input() == pb::Input::Instance, "a byte");
    const pb::Fault options = fault_of([&] { pb::Checker(instance, pb_options_t{0, 0, 0, 128}); });
    tell(options.status() == PB_MISUSE && options.reason() == pb::Reason::Misused && options.line() == 0, "options");
}

static void moved(const std::string &instance, const std::string &proof)
{
    static_assert(!std::is_copy_constructible<pb::Checker>::value && std::is_nothrow_move_constructible<pb::Checker>::value, "");
    pb::Checker first(instance);
    first.feed(std::string_view(proof).substr(0, 5));
    pb::Checker second(std::move(first));
    const pb::Fault feed = fault_of([&] { first.feed(proof); });
    tell(feed.status() == PB_MISUSE && feed.reason() == pb::Reason::Misused, "a feed of what was moved");
    tell(fault_of([&] { first.finish(); }).status() == PB_MISUSE && fault_of([&] { first.place(); }).status() == PB_MISUSE
        && fault_of([&] { first.held(); }).status() == PB_MISUSE, "calls of what was moved");
    tell(second.place().offset == 5 && second.held() <= 5, "the position of what was moved");
    first = pb::Checker(instance);
    first = std::move(second);
    first.feed(std::string_view(proof).substr(5));
    tell(first.finish().str() == pb::check(instance, proof).str(), "a verdict of what was moved");
}

// Goes through a proof statement by statement: the newest id after each, and the live constraints at the end.
static void steps()
{
    pb::Checker checker("* #variable= 2 #constraint= 2\n+2 x1 +1 ~x2 >= 2 ;\n-1 x1 >= 0 ;\n");
    std::string_view proof = "pseudo-Boolean proof version 2.0\nf 2\npol 1 2 2 * +\ndel id 2\nrup >= 1 ;\noutput NONE\nconclusion NONE\n"
                             "end pseudo-Boolean proof\n";
    std::vector<std::uint64_t> newest;
    while (checker.step(proof)) {
        newest.push_back(checker.state().newest);
        tell(checker.state().accepted == newest.size(), "the number of statements");
    }
    tell(newest == std::vector<std::uint64_t>{0, 2, 3, 3, 4, 4, 4, 4} && proof.empty(), "the newest ids");
    const std::optional<pb::Live> live = checker.constraint(1);
    tell(live && live->degree == pb::Wide{2, 0} && live->terms.size() == 2, "a live constraint");
    tell(live && live->terms[1].name == "x2" && live->terms[1].negated && live->terms[0].coefficient == pb::Wide{2, 0}, "its terms");
    tell(!checker.constraint(2) && !checker.constraint(0) && !checker.constraint(5), "no live constraint");
    tell(checker.finish().kind() == pb::Kind::None, "the verdict of the steps");
}

// The statements of a text by a reader, with the line and the column of each, are those of pb::show().
static void statements(const std::string &text, pb::Format format)
{
    pb::Reader reader(format);
    std::string_view rest = text;
    std::string found, wanted = pb::show(text), line;
    while (auto event = reader.next(rest))
        found += std::to_string(event->place.line) + ":" + std::to_string(event->place.column) + "\n";
    reader.finish();
    std::string lines;
    for (std::size_t at = 0; at < wanted.size(); at = wanted.find('\n', at) + 1)
        lines += wanted.substr(at, wanted.find(' ', at) - at) + "\n";
    tell(found == lines && rest.find_first_not_of('\n') == rest.npos, "the statements of a reader");
    const pb::Fault fault = fault_of([] {
        pb::Reader reader(pb::Format::Instance);
        std::string_view text = "1x1 >= 1 ;\n";
        reader.next(text);
    });
    tell(fault.reason() == pb::Reason::Byte && fault.line() == 1, "the fault of a reader");
}

// A statement of an instance, token by token.
static void tokens()
{
    pb::Reader reader(pb::Format::Instance);
    std::string_view text = "* #variable= 2 #constraint= 1\n+1 x1 -3 ~x2 >= -1 ;\n";
    tell(reader.next(text)->kind == PB_EVENT_HEADER, "a header");
    const pb::Event event = *reader.next(text);
    const auto &found = event.tokens;
    tell(event.kind == PB_EVENT_CONSTRAINT && event.past == 50 && found.size() == 3, "a constraint");
    tell(found[0].code == PB_TOKEN_TERM && found[0].number == pb::Wide{1, 0} && reader.name(found[0].name) == "x1", "a term");
    tell(found[1].code == PB_TOKEN_NEGATED_TERM && found[1].number.str() == "-3" && reader.name(found[1].name) == "x2", "a negated term");
    tell(found[2].code == PB_TOKEN_AT_LEAST && found[2].number.str() == "-1", "a relation");
    tell(!reader.next(text) && text.find_first_not_of('\n') == text.npos, "the end");
    reader.finish();
}

// The statements of a text, each written from its tokens, are the canonical text.
static void written(const std::string &text, pb::Format format)
{
    pb::Reader reader(format);
    std::string_view rest = text;
    std::string lines, wanted = pb::tidy(text);
    while (auto event = reader.next(rest)) {
        pb::NameTable names;
        for (std::string name; !(name = reader.name(names.size())).empty();)
            names.add(name);
        lines += (lines.empty() ? "" : "\n") + pb::write_statement(event->kind, event->tokens, event->text, names);
    }
    wanted.resize(wanted.find_last_not_of('\n') + 1);
    tell(lines == wanted, "the lines of a text");
}

// The fault of a constraint with these tokens, or of options.
static void unwritten()
{
    const std::vector<pb::Token> right = {{PB_TOKEN_TERM, 0, pb::Wide{1, 0}}, {PB_TOKEN_AT_LEAST, 0, pb::Wide{1, 0}}}, one = {right[0]};
    const std::string long_name(5000, 'n');
    pb::NameTable names, long_names;
    tell(names.add("x1") == 0 && names.add("x2") == 1 && names.size() == 2, "the numbers of names");
    tell(pb::write_statement(PB_EVENT_CONSTRAINT, right, "", names) == "+1 x1 >= 1 ;", "a constraint");
    tell(pb::write_statement(PB_EVENT_OUTPUT, {}, "", pb::NameTable()) == "output NONE", "no tokens");
    long_names.add(long_name);
    tell(pb::write_statement(PB_EVENT_CONSTRAINT, right, "", long_names) == "+1 " + long_name + " >= 1 ;", "a long line");
    try {
        pb::write_statement(PB_EVENT_CONSTRAINT, one, "", names);
        tell(false, "no fault of a missing relation");
    } catch (const pb::WriteFault &it) {
        tell(it.status() == PB_REFUSED && it.token() == 1, "the token that is missing");
    }
    try {
        pb::write_statement(PB_EVENT_CONSTRAINT, right, "", names, pb_options_t{0, 0, 0, 30});
        tell(false, "no fault of options");
    } catch (const pb::WriteFault &it) {
        tell(it.status() == PB_MISUSE, "the status of options");
    }
}

int main(int count, char **words)
{
    if (count != 3)
        return 2;
    const std::string instance = text_of(words[1]), proof = text_of(words[2]);
    texts(instance);
    faults();
    steps();
    tokens();
    statements(instance, pb::Format::Instance);
    statements(proof, pb::Format::Proof);
    written(instance, pb::Format::Instance);
    written(proof, pb::Format::Proof);
    unwritten();
    std::vector<std::thread> threads;
    for (int k = 0; k < 8; k++)
        threads.emplace_back(moved, instance, proof);
    for (std::thread &thread : threads)
        thread.join();
    return wrong;
}
