/* Checks proofs in pieces: pieces [--once] INSTANCE PROOF
**
** It cuts the proof in two at each byte, and into pieces of 1, 2, 3 and 37 bytes, and compares the result with that of one piece. It
** goes through such pieces statement by statement, and counts these. It looks at the constraints of a proof that is written here. It
** refuses each request for memory in turn. Then the result is PB_FAILED or as with enough memory, and nothing that was allocated is left.
** It makes calls with closed checkers, calls after a fault, and calls after the end of the proof. Eight threads do all of it at the same
** time, each with checkers of its own, or with --once one does. It prints how many runs there were. The status is 1 if one was wrong. */

#include <pthread.h>
#include <stdbool.h>
#include <stdint.h>
#include <stdio.h>
#include <stdlib.h>
#include <string.h>

#define PB_NO_RANDOM
#include "pb.h"

#define THREADS 8

/* The heap of the library, in place of the one in libpb.a. Request number `refused` of a thread is refused; 0 is no request. `live` counts
** the blocks that were not freed. */
struct answer {
    bool ok;
    unsigned char *p;
};

static _Thread_local unsigned long requests, refused, live, runs, wrong;
static unsigned char unused;

static struct answer answer_of(void *block)
{
    struct answer answer = {block != NULL, block != NULL ? block : &unused};
    return answer;
}

struct answer rattle_alloc(size_t size, size_t align)
{
    void *block = ++requests == refused ? NULL : malloc(size != 0 ? size : align);
    live += block != NULL;
    return answer_of(block);
}

struct answer rattle_realloc(unsigned char *p, size_t kept, size_t size, size_t align)
{
    (void)kept;
    return answer_of(++requests == refused ? NULL : realloc(p, size != 0 ? size : align));
}

void rattle_dealloc(unsigned char *p)
{
    live--;
    free(p);
}

/* A file. */
struct text {
    uint8_t *bytes;
    size_t length;
};

static struct text instance, proof;

static struct text read_text(const char *name)
{
    struct text text = {malloc(1 << 20), 0};
    FILE *file = fopen(name, "rb");
    if (file == NULL || text.bytes == NULL) {
        perror(name);
        exit(2);
    }
    text.length = fread(text.bytes, 1, 1 << 20, file);
    fclose(file);
    return text;
}

/* What the calls returned for a proof. */
struct result {
    pb_report_t report;
    pb_claim_t claim;
    size_t used;
    uint8_t status;
};

static void tell(bool is_right, const char *what, size_t number)
{
    runs++;
    if (!is_right) {
        wrong++;
        fprintf(stderr, "%s %zu\n", what, number);
    }
}

static bool same_report(const pb_report_t *one, const pb_report_t *other)
{
    return one->line == other->line && one->column == other->column && one->offset == other->offset && one->number == other->number
        && one->id == other->id && one->reason == other->reason && one->input == other->input;
}

static bool same_claim(const pb_claim_t *one, const pb_claim_t *other)
{
    return one->kind == other->kind && one->lower_low == other->lower_low && one->lower_high == other->lower_high
        && one->upper_low == other->upper_low && one->upper_high == other->upper_high && one->lower_finite == other->lower_finite
        && one->upper_finite == other->upper_finite;
}

/* The bytes that were used are not compared, since none of a rejected piece is. */
static bool is_same(const struct result *one, const struct result *other)
{
    return one->status == other->status && same_report(&one->report, &other->report) && same_claim(&one->claim, &other->claim);
}

/* The position and what is held agree with the report of a feed. */
static void look(pb_checker_t *checker, const pb_report_t *report)
{
    pb_place_t place;
    size_t held;
    tell(pb_checker_place(checker, &place) == PB_OK && place.line == report->line && place.column == report->column
        && place.offset == report->offset, "position at", report->offset);
    tell(pb_checker_held(checker, &held) == PB_OK && held <= report->offset, "held at", report->offset);
}

/* After a fault each call returns it again. */
static void again(pb_checker_t *checker, const struct result *result)
{
    pb_report_t report = {0};
    pb_claim_t claim = {0};
    size_t used = 1;
    tell(pb_checker_feed(checker, proof.bytes, proof.length, &used, &report) == result->status && used == 0
        && same_report(&report, &result->report), "a feed after the fault at", result->report.offset);
    tell(pb_checker_finish(checker, &claim, &report) == result->status && same_report(&report, &result->report),
        "a finish after the fault at", result->report.offset);
}

/* After the end of the proof nothing is used, and a verdict stays until something follows that may not. */
static void more(pb_checker_t *checker, const struct result *result)
{
    static const uint8_t blank[] = " \n* the end\n", stray[] = "x";
    struct result next = {0};
    tell(pb_checker_feed(checker, blank, sizeof blank - 1, &next.used, &next.report) == PB_OK && next.used == 0, "a rest at",
        result->report.offset);
    next.status = pb_checker_finish(checker, &next.claim, &next.report);
    tell(is_same(&next, result), "a verdict again at", result->report.offset);
    tell(pb_checker_feed(checker, stray, 1, &next.used, &next.report) == PB_OK && next.used == 0, "a byte after the end at",
        result->report.offset);
    next.status = pb_checker_finish(checker, &next.claim, &next.report);
    tell(next.status == PB_REFUSED && next.report.reason == PB_BYTE && next.report.number == 'x' && next.report.input == PB_IN_PROOF,
        "the byte after the end at", next.report.offset);
    again(checker, &next);
}

/* Feeds the proof: `first` bytes, and then pieces of `size` bytes. Looks at all that can be asked if `all` is set. */
static struct result fed(size_t first, size_t size, unsigned long number, bool all)
{
    static const pb_options_t options = PB_OPTIONS_FIXED;
    pb_checker_t checker = PB_CHECKER_CLOSED;
    struct result result;
    size_t from = 0, used;
    memset(&result, 0, sizeof result);
    requests = 0;
    refused = number;
    result.status = pb_checker_open(instance.bytes, instance.length, &options, &checker, &result.report);
    while (result.status == PB_OK && from < proof.length) {
        size_t len = from == 0 && first != 0 ? first : size;
        if (len > proof.length - from)
            len = proof.length - from;
        result.status = pb_checker_feed(&checker, proof.bytes + from, len, &used, &result.report);
        from += len;
        result.used += used;
        if (all && result.status == PB_OK)
            look(&checker, &result.report);
    }
    if (result.status == PB_OK)
        result.status = pb_checker_finish(&checker, &result.claim, &result.report);
    refused = 0;
    if (all && checker.inner != NULL && result.status != PB_OK)
        again(&checker, &result);
    if (all && result.status == PB_OK)
        more(&checker, &result);
    pb_checker_close(&checker);
    tell(checker.inner == NULL && live == 0, "blocks that are left:", live);
    return result;
}

/* Goes through the proof statement by statement, in pieces of `size` bytes. */
static struct result stepped(size_t size)
{
    static const pb_options_t options = PB_OPTIONS_FIXED;
    pb_checker_t checker = PB_CHECKER_CLOSED;
    struct result result;
    pb_state_t state;
    uint64_t accepted = 0;
    size_t from = 0, used;
    bool ended;
    memset(&result, 0, sizeof result);
    result.status = pb_checker_open(instance.bytes, instance.length, &options, &checker, &result.report);
    while (result.status == PB_OK && from < proof.length) {
        size_t len = size < proof.length - from ? size : proof.length - from;
        result.status = pb_checker_step(&checker, proof.bytes + from, len, &used, &ended, &result.report);
        accepted += ended;
        result.used += used;
        from += ended ? used : len;
        tell(pb_checker_state(&checker, &state) == PB_OK && state.accepted == accepted, "statements at", from);
    }
    if (result.status == PB_OK)
        result.status = pb_checker_finish(&checker, &result.claim, &result.report);
    if (checker.inner != NULL && result.status != PB_OK) {
        tell(pb_checker_step(&checker, proof.bytes, proof.length, &used, &ended, &result.report) == result.status && used == 0 && !ended,
            "a step after the fault at", result.report.offset);
        tell(pb_checker_state(&checker, &state) == PB_OK && state.accepted == accepted, "statements after the fault at", result.report.offset);
        again(&checker, &result);
    }
    pb_checker_close(&checker);
    tell(checker.inner == NULL && live == 0, "blocks that are left:", live);
    return result;
}

/* The constraint with the id is this one. Arrays of other lengths are not written. */
static void is_constraint(pb_checker_t *checker, uint64_t id, size_t terms, const uint64_t *numbers, const uint8_t *negated,
    const uint64_t *coefficients, uint64_t degree)
{
    uint64_t found[3] = {9, 9, 9}, lows[3] = {9, 9, 9};
    int64_t highs[3] = {9, 9, 9};
    uint8_t signs[3] = {9, 9, 9};
    pb_number_t sum = {9, 9};
    size_t count = 9;
    tell(pb_checker_terms(checker, id, &count) == PB_OK && count == terms, "terms of the constraint", id);
    tell(pb_checker_constraint(checker, id, found, terms, signs, terms, lows, terms, highs, terms + 1, &sum) == PB_MISUSE && found[0] == 9
        && signs[0] == 9 && lows[0] == 9 && highs[0] == 9 && sum.low == 9 && sum.high == 9, "a wrong length for the constraint", id);
    tell(pb_checker_constraint(checker, id, found, terms, signs, terms, lows, terms, highs, terms, &sum) == PB_OK, "the constraint", id);
    for (size_t k = 0; k < terms; k++)
        tell(found[k] == numbers[k] && signs[k] == negated[k] && lows[k] == coefficients[k] && highs[k] == 0, "a term of the constraint", id);
    tell(sum.low == degree && sum.high == 0 && found[terms] == 9, "the degree of the constraint", id);
}

static void is_none(pb_checker_t *checker, uint64_t id)
{
    uint64_t word = 9;
    int64_t high = 9;
    uint8_t sign = 9;
    pb_number_t sum = {9, 9};
    size_t count = 9;
    tell(pb_checker_terms(checker, id, &count) == PB_MISUSE && count == 9, "no terms of", id);
    tell(pb_checker_constraint(checker, id, &word, 1, &sign, 1, &word, 1, &high, 1, &sum) == PB_MISUSE && word == 9 && sign == 9 && high == 9
        && sum.low == 9, "no constraint", id);
}

/* The constraints of a proof: 2 x1 + ~x2 >= 2 and ~x1 >= 1, and the first plus twice the second, in which 2 x1 + 2 ~x1 is 2. */
static void known(void)
{
    static const pb_options_t options = PB_OPTIONS_FIXED;
    static const char text[] = "* #variable= 2 #constraint= 2\n+2 x1 +1 ~x2 >= 2 ;\n-1 x1 >= 0 ;\n";
    static const char lines[] = "pseudo-Boolean proof version 2.0\nf 2\npol 1 2 2 * +\ndel id 2\nrup >= 1 ;\noutput NONE\nconclusion NONE\n"
        "end pseudo-Boolean proof\n";
    static const uint64_t newest[] = {0, 2, 3, 3, 4, 4, 4, 4}, both[] = {0, 1}, second[] = {1}, two[] = {2, 1}, one[] = {1};
    static const uint8_t first_sign[] = {0, 1}, sign[] = {1};
    pb_checker_t checker = PB_CHECKER_CLOSED;
    pb_report_t report;
    pb_state_t state;
    size_t from = 0, used;
    bool ended = true;
    tell(pb_checker_open((const uint8_t *)text, sizeof text - 1, &options, &checker, &report) == PB_OK, "open", 0);
    for (uint64_t number = 0; number < sizeof newest / sizeof *newest; number++) {
        tell(pb_checker_step(&checker, (const uint8_t *)lines + from, sizeof lines - 1 - from, &used, &ended, &report) == PB_OK && ended,
            "the statement", number);
        from += used;
        tell(pb_checker_state(&checker, &state) == PB_OK && state.accepted == number + 1 && state.newest == newest[number]
            && (state.visits != 0) == (number >= 4), "the state after the statement", number);
        if (number >= 1)
            is_constraint(&checker, 1, 2, both, first_sign, two, 2);
        if (number == 1 || number == 2)
            is_constraint(&checker, 2, 1, both, sign, one, 1);
        if (number >= 2)
            is_constraint(&checker, 3, 1, second, sign, one, 2);
        if (number >= 3)
            is_none(&checker, 2);
        if (number >= 4)
            is_constraint(&checker, 4, 0, both, sign, one, 1);
        is_none(&checker, 0);
        is_none(&checker, newest[number] + 1);
        is_none(&checker, UINT64_MAX);
    }
    tell(pb_checker_step(&checker, (const uint8_t *)"\n", 1, &used, &ended, &report) == PB_OK && !ended && used == 0, "a step after the end", 0);
    tell(from == sizeof lines - 2 || from == sizeof lines - 1, "the end of the proof", from);
    pb_checker_close(&checker);
    tell(checker.inner == NULL && live == 0, "blocks that are left:", live);
}

/* Calls with a closed checker. */
static void closed(void)
{
    static const pb_options_t options = {0}, bad = {0, 0, 0, 30};
    pb_checker_t checker = PB_CHECKER_CLOSED;
    pb_report_t report;
    pb_claim_t claim;
    pb_place_t place;
    pb_state_t state;
    size_t used, held, len;
    bool ended;
    uint8_t room[4];
    for (size_t number = 0; number < 2; number++) {
        tell(pb_checker_feed(&checker, proof.bytes, proof.length, &used, &report) == PB_MISUSE && report.reason == PB_MISUSED && used == 0,
            "a closed feed", number);
        tell(pb_checker_finish(&checker, &claim, &report) == PB_MISUSE && report.reason == PB_MISUSED, "a closed finish", number);
        tell(pb_checker_place(&checker, &place) == PB_MISUSE, "a closed place", number);
        tell(pb_checker_held(&checker, &held) == PB_MISUSE, "a closed held", number);
        tell(pb_checker_step(&checker, proof.bytes, proof.length, &used, &ended, &report) == PB_MISUSE && report.reason == PB_MISUSED
            && used == 0 && !ended, "a closed step", number);
        tell(pb_checker_state(&checker, &state) == PB_MISUSE, "a closed state", number);
        is_none(&checker, 1);
        tell(pb_checker_name(&checker, 0, room, sizeof room, &len) == PB_MISUSE && len == 0, "a closed name", number);
        tell(pb_checker_open(instance.bytes, instance.length, &bad, &checker, &report) == PB_MISUSE && report.reason == PB_MISUSED
            && checker.inner == NULL, "bad options", number);
        /* Opening again frees what was open. */
        pb_checker_open(instance.bytes, instance.length, &options, &checker, &report);
        pb_checker_open(instance.bytes, instance.length, &options, &checker, &report);
        pb_checker_close(&checker);
        pb_checker_close(&checker);
        tell(live == 0, "blocks of a closed checker that are left:", live);
    }
}

static void *run(void *total)
{
    static const size_t sizes[] = {1, 2, 3, 37};
    struct result wanted = fed(0, proof.length + 1, 0, true);
    unsigned long all;
    for (size_t k = 0; k < sizeof sizes / sizeof *sizes; k++) {
        struct result found = fed(0, sizes[k], 0, true);
        tell(is_same(&found, &wanted), "pieces of", sizes[k]);
        found = stepped(sizes[k]);
        tell(is_same(&found, &wanted), "steps in pieces of", sizes[k]);
    }
    known();
    for (size_t cut = 1; cut < proof.length; cut++) {
        struct result found = fed(cut, proof.length, 0, false);
        tell(is_same(&found, &wanted) && (found.status != PB_OK || found.used == wanted.used), "a cut at", cut);
    }
    fed(0, 7, 0, false);
    all = requests;
    for (unsigned long number = 1; number <= all; number++) {
        struct result found = fed(0, 7, number, false);
        tell(is_same(&found, &wanted) || (found.status == PB_FAILED && found.report.reason == PB_MEMORY), "request", number);
    }
    closed();
    ((unsigned long *)total)[0] = runs;
    ((unsigned long *)total)[1] = wrong;
    return NULL;
}

int main(int count, char **words)
{
    unsigned long totals[THREADS][2], all = 0, bad = 0;
    pthread_t threads[THREADS];
    bool is_once = count == 4 && strcmp(words[1], "--once") == 0;
    int many = is_once ? 1 : THREADS;
    if (count != 3 + is_once)
        return 2;
    instance = read_text(words[1 + is_once]);
    proof = read_text(words[2 + is_once]);
    for (int k = 0; k < many; k++)
        if (pthread_create(&threads[k], NULL, run, totals[k]) != 0)
            return 2;
    for (int k = 0; k < many; k++) {
        pthread_join(threads[k], NULL);
        all += totals[k][0];
        bad += totals[k][1];
    }
    free(instance.bytes);
    free(proof.bytes);
    printf("%lu\n", all);
    return bad != 0;
}
