/* A small solver that checks its own proof: cdcl INSTANCE [PROOF]
**
** It reads an instance of clauses, and learns clauses from conflicts. Each line of its proof goes to a pb_checker_t as soon as it is known,
** and to the file PROOF if one is named. A wrong step would be reported at once. It prints what the checker has verified, as
** `pb check INSTANCE PROOF` does, and ends with its status. An objective is ignored. To stay short, it deletes no clause, never restarts, and
** looks at all variables to find the next one. */

#include <pb.h>

#include <inttypes.h>
#include <stdio.h>
#include <stdlib.h>

/* A literal is twice the number of its name, plus 1 if it is negated. */
typedef uint32_t lit_t;
#define NOT(lit) ((lit) ^ 1)
#define VAR(lit) ((lit) >> 1)
#define NONE UINT32_MAX            /* no clause, and no variable */
#define LARGEST ((int64_t)1 << 30) /* the largest coefficient */

#define STOP(status, ...) (fprintf(stderr, __VA_ARGS__), exit(status))

typedef enum value_t { OPEN, FALSE, TRUE } value_t;

/* A list that grows. */
typedef struct list_t {
    uint32_t *at;
    size_t len, room;
} list_t;

typedef struct var_t {
    value_t value;
    bool is_seen;         /* by the analysis of a conflict */
    uint32_t reason;      /* the clause that forced it, or NONE */
    size_t level;         /* how many decisions came before it */
    size_t last_conflict; /* the number of the last conflict that it was in */
} var_t;

typedef struct solver_t {
    pb_instance_t instance;
    pb_checker_t checker;
    FILE *file;       /* the proof, or NULL */
    FILE *line;       /* the next line of the proof, of which `text` has `len` bytes after a flush */
    char *text;
    size_t len;
    uint64_t last_id; /* the id of the last constraint */
    size_t count, conflicts;
    var_t *vars;      /* `count` of them */
    list_t clauses;   /* each clause is its length and then its literals; its number is where its length is */
    list_t *watches;  /* for each literal, the clauses whose first or second literal it is */
    list_t trail;     /* the true literals in their order, of which the first `head` were propagated */
    list_t decisions; /* for each decision, the length of the trail before it */
    size_t head;
    bool is_refuted;
} solver_t;

/* Room for that many elements, all 0; for none there is a byte, as no pointer may be null. */
static void *room_for(size_t count, size_t size)
{
    void *room = calloc(count + 1, size);
    if (room == NULL)
        STOP(PB_FAILED, "out of memory\n");
    return room;
}

static void push(list_t *list, uint32_t value)
{
    if (list->len == list->room) {
        list->room = 2 * list->room + 8;
        list->at = realloc(list->at, list->room * sizeof *list->at);
        if (list->at == NULL)
            STOP(PB_FAILED, "out of memory\n");
    }
    list->at[list->len++] = value;
}

/* Has the next line of the proof checked, and writes it. */
static void prove(solver_t *s)
{
    pb_report_t report;
    size_t used;
    uint8_t status;
    fflush(s->line);
    status = pb_checker_feed(&s->checker, (const uint8_t *)s->text, s->len, &used, &report);
    if (s->file != NULL)
        fwrite(s->text, 1, s->len, s->file);
    rewind(s->line);
    if (status != PB_OK)
        STOP(status, "proof: line %" PRIu64 " column %" PRIu64 ": reason %" PRIu32 "\n", report.line, report.column, report.reason);
}

static void write_literal(solver_t *s, const char *before, lit_t lit)
{
    uint8_t name[256];
    size_t len;
    pb_instance_name(&s->instance, VAR(lit), name, sizeof name, &len);
    if (len > sizeof name)
        STOP(PB_MISUSE, "a name is too long for this example\n");
    fprintf(s->line, "%s%s%.*s", before, lit & 1 ? "~" : "", (int)len, (const char *)name);
}

/* A clause that follows by unit propagation. */
static void prove_clause(solver_t *s, const list_t *lits)
{
    fprintf(s->line, "rup");
    for (size_t k = 0; k < lits->len; k++)
        write_literal(s, " +1 ", lits->at[k]);
    fprintf(s->line, " >= 1 ;\n");
    prove(s);
    s->last_id++;
}

/* Ends the proof, and prints what the checker has verified. */
static uint8_t end_proof(solver_t *s)
{
    static const char *const claims[] = {"NONE", "UNSAT", "SAT", "BOUNDS"};
    static const list_t empty = {NULL, 0, 0};
    pb_report_t report;
    pb_claim_t claim;
    uint8_t status;
    if (s->is_refuted) {
        prove_clause(s, &empty);
        fprintf(s->line, "output NONE\nconclusion UNSAT : %" PRIu64, s->last_id);
    } else {
        fprintf(s->line, "output NONE\nconclusion SAT :");
        for (size_t k = 0; k < s->trail.len; k++)
            write_literal(s, " ", s->trail.at[k]);
    }
    fprintf(s->line, "\nend pseudo-Boolean proof\n");
    prove(s);
    status = pb_checker_finish(&s->checker, &claim, &report);
    if (status != PB_OK)
        STOP(status, "proof: line %" PRIu64 ": reason %" PRIu32 "\n", report.line, report.reason);
    printf("verified %s\n", claims[claim.kind]);
    return status;
}

static value_t value_of(const solver_t *s, lit_t lit)
{
    value_t value = s->vars[VAR(lit)].value;
    return value == OPEN || !(lit & 1) ? value : value == TRUE ? FALSE : TRUE;
}

static void assign(solver_t *s, lit_t lit, uint32_t reason)
{
    var_t *var = &s->vars[VAR(lit)];
    var->value = lit & 1 ? FALSE : TRUE;
    var->reason = reason;
    var->level = s->decisions.len;
    push(&s->trail, lit);
}

/* Adds a clause. Its first literal is forced if the others are false; with two or more literals, the first two are watched. */
static void add_clause(solver_t *s, const list_t *lits)
{
    uint32_t clause = (uint32_t)s->clauses.len;
    push(&s->clauses, (uint32_t)lits->len);
    for (size_t k = 0; k < lits->len; k++)
        push(&s->clauses, lits->at[k]);
    for (size_t k = 0; k < 2 && lits->len >= 2; k++)
        push(&s->watches[lits->at[k]], clause);
    if (lits->len == 0 || (lits->len == 1 && value_of(s, lits->at[0]) == FALSE))
        s->is_refuted = true;
    else if (lits->len == 1 && value_of(s, lits->at[0]) == OPEN)
        assign(s, lits->at[0], clause);
}

/* Finds another literal to watch in a clause whose watched literal `falsified` is false now. It puts the other watched literal first. */
static bool is_moved(solver_t *s, uint32_t clause, lit_t falsified)
{
    lit_t *lits = s->clauses.at + clause + 1;
    if (lits[0] == falsified) {
        lits[0] = lits[1];
        lits[1] = falsified;
    }
    for (size_t k = 2; k < lits[-1] && value_of(s, lits[0]) != TRUE; k++)
        if (value_of(s, lits[k]) != FALSE) {
            lits[1] = lits[k];
            lits[k] = falsified;
            push(&s->watches[lits[1]], clause);
            return true;
        }
    return false;
}

/* Assigns what is forced. Returns a clause that is falsified, or NONE. */
static uint32_t propagate(solver_t *s)
{
    uint32_t conflict = NONE;
    while (s->head < s->trail.len && conflict == NONE) {
        lit_t falsified = NOT(s->trail.at[s->head++]);
        list_t *list = &s->watches[falsified];
        size_t kept = 0;
        for (size_t k = 0; k < list->len; k++) {
            uint32_t clause = list->at[k];
            if (conflict == NONE && is_moved(s, clause, falsified))
                continue;
            list->at[kept++] = clause;
            if (conflict == NONE && value_of(s, s->clauses.at[clause + 1]) == FALSE)
                conflict = clause;
            else if (conflict == NONE && value_of(s, s->clauses.at[clause + 1]) == OPEN)
                assign(s, s->clauses.at[clause + 1], clause);
        }
        list->len = kept;
    }
    return conflict;
}

static void take_back(solver_t *s, size_t level)
{
    size_t len = level < s->decisions.len ? s->decisions.at[level] : s->trail.len;
    while (s->trail.len > len)
        s->vars[VAR(s->trail.at[--s->trail.len])].value = OPEN;
    s->decisions.len = level;
    s->head = len;
}

/* The clause to learn from a conflict: it has one literal of the last level, which comes first. Resolves the conflict with the reasons of
** its literals, from the end of the trail. Returns the level at which the clause forces that literal. */
static size_t analyse(solver_t *s, uint32_t clause, list_t *learned)
{
    size_t open = 0, at = s->trail.len, level = 0;
    lit_t lit = 0;
    s->conflicts++;
    learned->len = 0;
    push(learned, 0);
    do {
        for (size_t k = 0; k < s->clauses.at[clause]; k++) {
            lit_t other = s->clauses.at[clause + 1 + k];
            var_t *var = &s->vars[VAR(other)];
            if (var->is_seen || var->level == 0 || value_of(s, other) != FALSE)
                continue;
            var->is_seen = true;
            var->last_conflict = s->conflicts;
            if (var->level == s->decisions.len)
                open++;
            else
                push(learned, other);
        }
        do
            lit = s->trail.at[--at];
        while (!s->vars[VAR(lit)].is_seen);
        clause = s->vars[VAR(lit)].reason;
        s->vars[VAR(lit)].is_seen = false;
    } while (--open > 0);
    learned->at[0] = NOT(lit);
    for (size_t k = 1; k < learned->len; k++) {
        lit_t other = learned->at[k];
        s->vars[VAR(other)].is_seen = false;
        if (s->vars[VAR(other)].level > level) {
            /* A literal of that level is watched, as it is the first to be open again. */
            level = s->vars[VAR(other)].level;
            learned->at[k] = learned->at[1];
            learned->at[1] = other;
        }
    }
    return level;
}

/* The open variable that was in a conflict last, or NONE. */
static uint32_t next_variable(const solver_t *s)
{
    uint32_t best = NONE;
    for (uint32_t var = 0; var < s->count; var++)
        if (s->vars[var].value == OPEN && (best == NONE || s->vars[var].last_conflict > s->vars[best].last_conflict))
            best = var;
    return best;
}

/* Searches until a solution is on the trail, or the clauses are refuted. */
static void solve(solver_t *s)
{
    list_t learned = {NULL, 0, 0};
    while (!s->is_refuted) {
        uint32_t conflict = propagate(s), var;
        if (conflict != NONE && s->decisions.len == 0) {
            s->is_refuted = true;
        } else if (conflict != NONE) {
            size_t level = analyse(s, conflict, &learned);
            prove_clause(s, &learned);
            take_back(s, level);
            add_clause(s, &learned);
            if (learned.len > 1)
                assign(s, learned.at[0], (uint32_t)(s->clauses.len - learned.len - 1));
        } else if ((var = next_variable(s)) == NONE) {
            break;
        } else {
            push(&s->decisions, (uint32_t)s->trail.len);
            assign(s, 2 * var + 1, NONE);
        }
    }
    free(learned.at);
}

/* A coefficient or a degree, in two words. */
static int64_t small(uint64_t low, int64_t high)
{
    int64_t number = (int64_t)low;
    if (high != (number < 0 ? -1 : 0) || number > LARGEST || number < -LARGEST)
        STOP(PB_MISUSE, "a number is too large for this example\n");
    return number;
}

/* Adds the clauses of the instance. */
static void add_rows(solver_t *s, const pb_sizes_t *sizes)
{
    size_t terms = sizes->terms, rows = sizes->rows;
    uint64_t *numbers = room_for(terms, 8), *lows = room_for(terms, 8), *ends = room_for(rows, 8), *degree_lows = room_for(rows, 8);
    int64_t *highs = room_for(terms, 8), *degree_highs = room_for(rows, 8);
    uint8_t *negated = room_for(terms, 1), *kinds = room_for(rows, 1);
    list_t lits = {NULL, 0, 0};
    pb_instance_terms(&s->instance, numbers, terms, negated, terms, lows, terms, highs, terms);
    pb_instance_rows(&s->instance, kinds, rows, ends, rows, degree_lows, rows, degree_highs, rows);
    for (size_t row = 0; row < rows; row++) {
        /* An equality is two inequalities: the second has the opposite of each number. */
        for (int sign = 1; kinds[row] != PB_OBJECTIVE && sign >= (kinds[row] == PB_EQUAL ? -1 : 1); sign -= 2) {
            int64_t degree = sign * small(degree_lows[row], degree_highs[row]), least = LARGEST;
            lits.len = 0;
            for (size_t term = row == 0 ? 0 : ends[row - 1]; term < ends[row]; term++) {
                int64_t coefficient = sign * small(lows[term], highs[term]);
                /* -a x is a ~x - a */
                push(&lits, (lit_t)(2 * numbers[term] + (negated[term] ^ (coefficient < 0))));
                degree -= coefficient < 0 ? coefficient : 0;
                least = llabs(coefficient) < least ? llabs(coefficient) : least;
            }
            if (degree > least)
                STOP(PB_MISUSE, "row %zu is no clause\n", row + 1);
            if (degree > 0)
                add_clause(s, &lits);
            s->last_id++;
        }
    }
    free(numbers), free(lows), free(highs), free(negated), free(kinds), free(ends), free(degree_lows), free(degree_highs), free(lits.at);
}

/* Opens the checker and reads the instance, both from one text. */
static void open_instance(solver_t *s, const uint8_t *text, size_t len)
{
    pb_options_t options;
    pb_report_t report;
    pb_sizes_t sizes;
    uint8_t status;
    pb_options(&options);
    status = pb_checker_open(text, len, &options, &s->checker, &report);
    if (status == PB_OK)
        status = pb_instance_read(text, len, &options, &s->instance, &report);
    if (status != PB_OK)
        STOP(status, "instance: line %" PRIu64 " column %" PRIu64 ": reason %" PRIu32 "\n", report.line, report.column, report.reason);
    pb_instance_sizes(&s->instance, &sizes);
    if (sizes.names > UINT32_MAX / 4)
        STOP(PB_MISUSE, "too many names for this example\n");
    s->count = sizes.names;
    s->vars = room_for(s->count, sizeof *s->vars);
    s->watches = room_for(2 * s->count, sizeof *s->watches);
    add_rows(s, &sizes);
}

/* The bytes of a file. */
static uint8_t *bytes_of(const char *path, size_t *len)
{
    FILE *file = fopen(path, "rb");
    long size = file != NULL && fseek(file, 0, SEEK_END) == 0 ? ftell(file) : -1;
    uint8_t *bytes;
    if (size < 0)
        STOP(PB_FAILED, "%s: cannot open\n", path);
    rewind(file);
    bytes = room_for((size_t)size, 1);
    *len = fread(bytes, 1, (size_t)size, file);
    fclose(file);
    return bytes;
}

int main(int count, char **words)
{
    solver_t s = {.instance = PB_INSTANCE_CLOSED, .checker = PB_CHECKER_CLOSED};
    uint8_t *text, status;
    size_t len;
    if (count != 2 && count != 3)
        STOP(PB_MISUSE, "usage: cdcl INSTANCE [PROOF]\n");
    text = bytes_of(words[1], &len);
    s.line = open_memstream(&s.text, &s.len);
    if (s.line == NULL || (count == 3 && (s.file = fopen(words[2], "wb")) == NULL))
        STOP(PB_FAILED, "%s: cannot open\n", words[count - 1]);
    open_instance(&s, text, len);
    free(text);
    fprintf(s.line, "pseudo-Boolean proof version 2.0\nf %" PRIu64 "\n", s.last_id);
    prove(&s);
    solve(&s);
    status = end_proof(&s);
    fclose(s.line);
    if (s.file != NULL && fclose(s.file) != 0)
        STOP(PB_FAILED, "%s: cannot write\n", words[2]);
    for (size_t lit = 0; lit < 2 * s.count; lit++)
        free(s.watches[lit].at);
    free(s.text), free(s.vars), free(s.watches), free(s.clauses.at), free(s.trail.at), free(s.decisions.at);
    pb_checker_close(&s.checker);
    pb_instance_close(&s.instance);
    return status;
}
