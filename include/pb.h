/*
** pb: pseudo-Boolean instances (OPB) and proofs (VeriPB 2.0), read, written and checked.
**
** This file declares the functions of libpb.a. Three do for bytes in memory what the command of that name does for files:
** pb_check() what `pb check` does, pb_tidy() what `pb tidy` does, and pb_show() what `pb show` does. A pb_checker_t checks a
** proof in the pieces in which it is written, a pb_instance_t has an instance as arrays, and a pb_reader_t gives the statements
** of a text one at a time. pb_write_statement() writes a statement from arrays. Each function is proved against its contract in crates/pb_c. The proof relies on the toolchain, and
** on callers that keep the rules for pointers, buffers and memory below.
*/
#ifndef PB_H
#define PB_H

#include <stdbool.h>
#include <stddef.h>
#include <stdint.h>

#ifdef __cplusplus
extern "C" {
#endif

/*
** CAPI: Version
**
** PB_VERSION is the version of this header as a text. PB_VERSION_NUMBER is the same as one number: a million times the first
** part, plus a thousand times the second, plus the third. pb_version() returns the number of the linked library, so a
** program can compare the two:
**
**     assert(pb_version() == PB_VERSION_NUMBER);
*/
#define PB_VERSION "0.1.0"
#define PB_VERSION_NUMBER 1000

uint32_t pb_version(void);

/*
** CAPI: Result Codes
**
** Each call returns one of these, which are the exit statuses of the command pb.
**
** PB_OK       All was read and accepted. For pb_check(): the proof is verified, and the line has the verdict.
** PB_REFUSED  A text is rejected, and the line says where and why. It is no instance, or no proof, or a statement of the proof
**             is wrong, or a number exceeds its limit.
** PB_MISUSE   The options are not allowed, or a checker is closed. Nothing was read.
** PB_FAILED   Memory ran out. Nothing is known of the text.
**
** If memory runs out for the text that is written, the line is "output: write fault". If it runs out for the line of a fault
** too, the result is PB_FAILED whatever the fault was, and a prefix of that line is written, maybe no byte of it.
*/
#define PB_OK 0
#define PB_REFUSED 1
#define PB_MISUSE 2
#define PB_FAILED 3

/*
** CAPI: Options
**
** Set every member, or begin with one of the two values below. Members that are 0 have the meaning given here, so {0} is
** allowed: it is the same as PB_OPTIONS_FIXED.
**
** longest     The most bytes of one statement, or 0 for no such limit. A text with a longer statement is rejected, and so is one
**             of more than 2^40 bytes. Memory for a statement is allocated before all of it was read, so set a limit for texts
**             from untrusted sources.
** key0, key1  The keys of the hashes of names. No answer depends on them, but time does: whoever knows them can write an
**             instance whose names collide. Draw them at random for untrusted texts.
** bits        The bits of the magnitude of a coefficient, a degree, a bound or a factor, from 31 to 127, or 0 for 127. A larger
**             number is rejected. The limit on counts and ids is the lesser of 2^63 - 1 and 2^bits - 1.
**
** PB_OPTIONS_FIXED has no limit on statements, 127 bits, and keys that are always the same. It is for texts of your own.
** pb_options() has the same with keys drawn at random.
*/
typedef struct pb_options_t {
    uint64_t longest;
    uint64_t key0;
    uint64_t key1;
    uint32_t bits;
} pb_options_t;

#define PB_OPTIONS_FIXED {0, 0, 0, 127}

/*
** CAPI: What All Calls Share
**
** Texts. A text is given by a pointer and a number of bytes. It need not end in a zero byte, and it may contain some.
**
** Output. A call writes one text to a buffer that the caller gives by a pointer and a number of bytes. It writes as much of
** the text as fits, from its first byte on. The last parameter points to the length of the whole text. So the text is whole
** if that length is at most the size of the buffer, and else a prefix of it. The rest of the buffer stays as it was: no zero
** byte is added. A call with a buffer of 0 bytes asks for the length alone, and the same call again writes the same text,
** unless memory runs out.
**
** Pointers. No pointer may be null, not even if the number of bytes beside it is 0: the compiled code may rely on that. Pass
** the address of any byte for an empty text or buffer, as "" is. In C++ the data() of an empty std::vector, std::string_view
** or std::span may be null; that of a std::string is not. No text, buffer or object may be larger than PTRDIFF_MAX bytes. What
** a call writes to, the buffer and the length, may not overlap anything else that it is given. While a call runs, no other
** thread may write to the texts or the options, or read or write the buffer or the length.
**
** Memory. The library allocates by malloc(), realloc() and free() of the program. It frees all of it before a call returns,
** except what a checker, an instance or a reader stores until it is closed. These three have to belong to one allocator. They have to
** align a block to each power of two up to 16 that divides its size. Calls keep no other state, and may run at the same time in
** several threads. No call may be made from a signal handler, nor between fork() and exec() in a child of a process that had
** several threads.
**
** Nothing else is done: no call reads or writes a file, prints, or ends the program.
*/

/*
** CAPI: Check A Proof Of An Instance
**
** Reads an instance and then a proof of it, and checks each statement of the proof as soon as it is read. After the last
** statement of each, only white space and comments may follow. It writes the line that `pb check` prints, with its line feed.
**
** PB_OK: the line is one of
**
**     verified UNSAT             no assignment solves the instance
**     verified SAT               some assignment solves the instance
**     verified BOUNDS l u        each solution has an objective of l or more, and one has u or less; if l is INF there is no
**                                solution, and if u is INF there is no claim of an upper bound
**     verified NONE              the steps are right, and nothing is claimed
**
** PB_REFUSED: the line names the rejected text, "instance: " or "proof: ", then where and why, as in
**
**     proof: line 4 column 1: not implied
**
** Three things are proved (`pb_check` in crates/pb_c/src/lib.rt). PB_OK is returned only where the two texts are an instance
** and a proof that the rules accept with the verdict of the line. That verdict is then true of the instance. Where the line is
** "verified UNSAT\n", no assignment of its names solves the instance.
*/
uint8_t pb_check(const uint8_t *instance, size_t instance_len,
                 const uint8_t *proof, size_t proof_len,
                 const pb_options_t *options,
                 uint8_t *line, size_t line_room, size_t *line_len);

/*
** CAPI: The Canonical Text
**
** Reads a text, a proof if its first byte is `p` and else an instance, and writes its canonical text. With `normal` every text
** is read as an instance and written in normal form: one constraint for each `>=`, and two for each `=`. At any result but
** PB_OK it writes only the line of the fault, as in
**
**     file: line 2 column 2: byte 0x78
*/
uint8_t pb_tidy(const uint8_t *text, size_t text_len, bool normal,
                const pb_options_t *options,
                uint8_t *out, size_t out_room, size_t *out_len);

/*
** CAPI: The Statements Of A Text
**
** Reads a text, a proof if its first byte is `p` and else an instance, and writes a line for each of its statements. It has the
** line and the column where the statement begins, and its canonical text, as in `2:1 +1 x1 >= 1 ;`. At any result but PB_OK
** the line of the fault follows, after the lines of all statements that were read. If memory runs out for these lines, the
** last of them is cut, and "output: write fault" stands directly after its last byte, on the same line.
*/
uint8_t pb_show(const uint8_t *text, size_t text_len,
                const pb_options_t *options,
                uint8_t *out, size_t out_room, size_t *out_len);

/*
** CAPI: A Checker In Pieces
**
** A checker checks the proof of one instance while the proof is written. It is fed with pieces of the proof, cut anywhere. Each
** statement is checked as soon as its last byte has come. The answer is that of pb_check() for the instance and the joined
** pieces.
**
**     pb_checker_t checker = PB_CHECKER_CLOSED;
**     pb_report_t report;
**     pb_claim_t claim;
**     size_t used;
**     status = pb_checker_open(instance, instance_len, &options, &checker, &report);
**     while (status == PB_OK && next_piece(&piece, &piece_len))
**         status = pb_checker_feed(&checker, piece, piece_len, &used, &report);
**     if (status == PB_OK)
**         status = pb_checker_finish(&checker, &claim, &report);
**     pb_checker_close(&checker);
**
** A pb_checker_t is closed, or it owns a checker. Begin with PB_CHECKER_CLOSED, and change nothing in it. A copy owns nothing:
** do not use it after a call was made with the original, nor the original after one with the copy. Any number may be open at
** the same time. A checker belongs to the thread that opened it, and each call with it has to be made there. No two calls with
** the same pb_checker_t may run at the same time.
**
** pb_checker_open() reads an instance, and opens a checker for proofs of it. It first closes what the pb_checker_t owned. The
** bytes of the instance are not needed after the call. At any result but PB_OK the pb_checker_t is closed.
**
** pb_checker_feed() takes a piece of the proof. It sets `used` to the number of its bytes that belong to the proof: all of them
** until the proof has ended, and none after that. The bytes after the proof are stored for pb_checker_finish(). At any result
** but PB_OK `used` is 0. After the first rejection each call returns the same result and report.
**
** pb_checker_finish() says what the proof shows if it ends here. Only white space and comments may follow its last statement.
** With PB_OK it changes nothing in the checker. A proof that has not ended is rejected with PB_ENDED, and so is each later
** piece.
**
** pb_checker_place() sets the position of the next byte of the proof. After its last statement the position stays.
**
** pb_checker_held() sets how much of the current statement is stored. That is at most the number of its bytes so far, and 0
** between two statements.
**
** pb_checker_name() writes the name with a number, as of PB_NOT_TOTAL, into a buffer, as pb_tidy() writes its text. If there is no
** such name, it writes nothing and returns PB_MISUSE.
**
** pb_checker_step() takes a piece of the proof up to the end of the next statement. `used` is how many of its bytes belong to the
** proof, and `ended` whether a statement ended there and was accepted. If one did, call it again with the rest of the piece. If
** none did, it has taken the whole piece. In all else it is as pb_checker_feed(), and both may be called in any order.
**
** pb_checker_state() sets the number of statements that were accepted so far, the newest id of a constraint, or 0 if there is none,
** and the visits of the last `rup`, or 0 if there was none. So the ids that a statement gave are those after the newest id before
** it. The number stays after a fault; the other two have no meaning then.
**
** pb_checker_terms() sets how many terms the live constraint with an id has. pb_checker_constraint() copies it to arrays of that
** many elements: for each term the number of its name, which pb_checker_name() writes, 1 if the name is negated and else 0, and the
** coefficient. The coefficients and the degree are in two words, as the bounds of a claim. A term with a negated name counts if
** the name is 0. The constraint says that the coefficients of the terms that count have at least the degree as their sum. If no
** live constraint has the id, or an array has another number of elements, nothing is written, and the result is PB_MISUSE. After a
** fault neither call has a meaning.
**
** pb_checker_close() frees what the pb_checker_t owns. It may be called on a closed one.
**
** Each call with a closed pb_checker_t but pb_checker_open() and pb_checker_close() returns PB_MISUSE.
**
** Report. `line`, `column` and `offset` are a position. Lines and columns count from 1, columns and offsets are in bytes. `input`
** is PB_IN_INSTANCE or PB_IN_PROOF, the text in which it is. With PB_OK `reason` is 0, and the position is that of the next byte
** of the proof. Otherwise it is where the rejected statement begins, or the rejected byte, or 0, 0, 0 if the reason has no
** position. `number` and `id` are what a reason is about, and else 0:
**
**     PB_BYTE              the byte `number` may not come here
**     PB_TOO_LARGE         a number exceeds its limit
**     PB_ENDED             the text has ended too soon
**     PB_TOO_LONG          the text or the statement is too long
**     PB_MEMORY            memory ran out (the result is PB_FAILED)
**     PB_OVERFLOW          a result exceeds the limit
**     PB_FORMULA_COUNT     `f` does not give the number of constraints, which is `number`
**     PB_NO_SUCH_ID        `id`, as written, is not that of a live constraint
**     PB_NOT_IMPLIED       propagation meets no conflict
**     PB_CONFLICT          the literals of a solution lead to a conflict
**     PB_NOT_TOTAL         the name with the number `number` gets no value
**     PB_VIOLATES          the constraint of the instance with the id `number` is violated
**     PB_NO_OBJECTIVE      there is no objective
**     PB_NO_CONTRADICTION  the named constraint is no contradiction, or no live one is
**     PB_SOLUTION_LOGGED   a solution was logged
**     PB_NO_SOLUTION       no solution was logged, or none is given
**     PB_NOT_BOUND         a bound was not shown
**     PB_IDS_SPENT         the next id would exceed its limit
**     PB_ORDER             the statement may not come here
**     PB_MISUSED           the options are not allowed, or the pb_checker_t is closed (the result is PB_MISUSE, `input` is 0)
**
** Claim. `kind` is PB_CLAIM_NONE, PB_CLAIM_UNSAT, PB_CLAIM_SAT or PB_CLAIM_BOUNDS, as the lines of pb_check(). With
** PB_CLAIM_BOUNDS a bound that is finite is 2^64 times its high word plus its low word. At any result but PB_OK the claim is not
** written.
**
** These are proved (crates/pb_c/src/checker.rt). pb_checker_finish() returns PB_OK only if the instance that was opened and the
** joined pieces are an instance and a proof that the rules accept with the claim, as for pb_check(). If the claim is
** PB_CLAIM_UNSAT, no assignment of its names solves the instance. The status and the report are those of the first fault in the
** joined pieces, whatever their cut. PB_FAILED for a byte comes only where a byte may allocate. The number of accepted statements
** is exact. A pb_checker_t owns a checker or nothing, so no call uses memory that was freed.
*/
#define PB_BYTE 1
#define PB_TOO_LARGE 2
#define PB_ENDED 3
#define PB_TOO_LONG 4
#define PB_MEMORY 6
#define PB_OVERFLOW 10
#define PB_FORMULA_COUNT 11
#define PB_NO_SUCH_ID 12
#define PB_NOT_IMPLIED 13
#define PB_CONFLICT 14
#define PB_NOT_TOTAL 15
#define PB_VIOLATES 16
#define PB_NO_OBJECTIVE 17
#define PB_NO_CONTRADICTION 18
#define PB_SOLUTION_LOGGED 19
#define PB_NO_SOLUTION 20
#define PB_NOT_BOUND 21
#define PB_IDS_SPENT 22
#define PB_ORDER 23
#define PB_MISUSED 32

#define PB_IN_INSTANCE 1
#define PB_IN_PROOF 2

#define PB_CLAIM_NONE 0
#define PB_CLAIM_UNSAT 1
#define PB_CLAIM_SAT 2
#define PB_CLAIM_BOUNDS 3

typedef struct pb_checker_t {
    void *inner;
} pb_checker_t;

#define PB_CHECKER_CLOSED {NULL}

typedef struct pb_place_t {
    uint64_t line;
    uint64_t column;
    uint64_t offset;
} pb_place_t;

typedef struct pb_report_t {
    uint64_t line;
    uint64_t column;
    uint64_t offset;
    uint64_t number;
    int64_t id;
    uint32_t reason;
    uint32_t input;
} pb_report_t;

typedef struct pb_claim_t {
    uint64_t lower_low;
    int64_t lower_high;
    uint64_t upper_low;
    int64_t upper_high;
    uint32_t kind;
    bool lower_finite;
    bool upper_finite;
} pb_claim_t;

typedef struct pb_state_t {
    uint64_t accepted;
    uint64_t newest;
    uint64_t visits;
} pb_state_t;

typedef struct pb_number_t {
    uint64_t low;
    int64_t high;
} pb_number_t;

uint8_t pb_checker_open(const uint8_t *instance, size_t instance_len,
                        const pb_options_t *options,
                        pb_checker_t *checker, pb_report_t *report);
uint8_t pb_checker_feed(pb_checker_t *checker,
                        const uint8_t *piece, size_t piece_len,
                        size_t *used, pb_report_t *report);
uint8_t pb_checker_step(pb_checker_t *checker,
                        const uint8_t *piece, size_t piece_len,
                        size_t *used, bool *ended, pb_report_t *report);
uint8_t pb_checker_finish(pb_checker_t *checker,
                          pb_claim_t *claim, pb_report_t *report);
uint8_t pb_checker_state(pb_checker_t *checker, pb_state_t *state);
uint8_t pb_checker_terms(pb_checker_t *checker, uint64_t id, size_t *terms);
uint8_t pb_checker_constraint(pb_checker_t *checker, uint64_t id,
                              uint64_t *numbers, size_t numbers_len,
                              uint8_t *negated, size_t negated_len,
                              uint64_t *lows, size_t lows_len,
                              int64_t *highs, size_t highs_len,
                              pb_number_t *degree);
uint8_t pb_checker_place(pb_checker_t *checker, pb_place_t *place);
uint8_t pb_checker_held(pb_checker_t *checker, size_t *held);
uint8_t pb_checker_name(pb_checker_t *checker, size_t number,
                        uint8_t *out, size_t out_room, size_t *out_len);
void pb_checker_close(pb_checker_t *checker);

/*
** CAPI: An Instance As Arrays
**
** pb_instance_read() reads an instance, after which only white space and comments may follow. The other calls then copy it to
** arrays of the caller, so that no text has to be parsed.
**
**     pb_instance_t instance = PB_INSTANCE_CLOSED;
**     status = pb_instance_read(text, text_len, &options, &instance, &report);
**     if (status == PB_OK) {
**         pb_instance_sizes(&instance, &sizes);
**         ... allocate arrays of these sizes ...
**         pb_instance_terms(&instance, numbers, sizes.terms, negated, sizes.terms, lows, sizes.terms, highs, sizes.terms);
**         pb_instance_rows(&instance, kinds, sizes.rows, ends, sizes.rows, degree_lows, sizes.rows, degree_highs, sizes.rows);
**     }
**     pb_instance_close(&instance);
**
** A pb_instance_t is closed, or it owns arrays. It is used as a pb_checker_t is: it begins as PB_INSTANCE_CLOSED, a copy owns
** nothing, and it belongs to the thread that read it. Each call with a closed one but pb_instance_read() and
** pb_instance_close() returns PB_MISUSE. With PB_OK the report of pb_instance_read() has no position and the reason 0.
**
** A row is the objective, if there is one, or a constraint. The rows come in the order of the text. The terms of all rows stand
** one after another in the same order. Names are numbered from 0 in the order in which they first appear. Comments, and what
** follows the counts in the header, are left out.
**
** pb_instance_terms() copies for each term the number of its name, 1 if the name is negated and else 0, and the coefficient: it
** is 2^64 times the high word plus the low word. A coefficient fits 64 bits if its high word is 0 or -1 and has the sign of the
** low word.
**
** pb_instance_rows() copies for each row PB_OBJECTIVE, PB_AT_LEAST or PB_EQUAL, the number of all terms up to the end of the
** row, and the degree in two words. So the terms of row k begin at ends[k - 1], or at 0 for the first row. The degree of an
** objective is 0.
**
** pb_instance_places() copies for each row the line, the column and the offset of its first byte, and the offset past its last.
**
** Each array has a pointer and a number of elements, which has to be the one of pb_instance_sizes(). Otherwise nothing is
** written, and the result is PB_MISUSE.
**
** pb_instance_name() writes the name with a number into a buffer, as pb_checker_name() does.
**
** pb_instance_names() copies all names at once: their bytes, one name after another with nothing between, to an array of
** `name_bytes` elements, and the offset in it at which each name begins to an array of `names` elements. A name ends where the
** next one begins, and the last one at `name_bytes`.
**
** It is proved (crates/pb_c/src/arrays.rt) that the arrays are those of the statements of the text, and that a report is right.
*/
#define PB_OBJECTIVE 0
#define PB_AT_LEAST 1
#define PB_EQUAL 2

typedef struct pb_instance_t {
    void *inner;
} pb_instance_t;

#define PB_INSTANCE_CLOSED {NULL}

typedef struct pb_sizes_t {
    size_t rows;
    size_t terms;
    size_t names;
    size_t name_bytes;
} pb_sizes_t;

uint8_t pb_instance_read(const uint8_t *text, size_t text_len,
                         const pb_options_t *options,
                         pb_instance_t *instance, pb_report_t *report);
uint8_t pb_instance_sizes(pb_instance_t *instance, pb_sizes_t *sizes);
uint8_t pb_instance_terms(pb_instance_t *instance,
                          uint64_t *numbers, size_t numbers_len,
                          uint8_t *negated, size_t negated_len,
                          uint64_t *lows, size_t lows_len,
                          int64_t *highs, size_t highs_len);
uint8_t pb_instance_rows(pb_instance_t *instance,
                         uint8_t *kinds, size_t kinds_len,
                         uint64_t *ends, size_t ends_len,
                         uint64_t *lows, size_t lows_len,
                         int64_t *highs, size_t highs_len);
uint8_t pb_instance_places(pb_instance_t *instance,
                           uint64_t *lines, size_t lines_len,
                           uint64_t *columns, size_t columns_len,
                           uint64_t *firsts, size_t firsts_len,
                           uint64_t *pasts, size_t pasts_len);
uint8_t pb_instance_name(pb_instance_t *instance, size_t number,
                         uint8_t *out, size_t out_room, size_t *out_len);
uint8_t pb_instance_names(pb_instance_t *instance,
                          uint8_t *bytes, size_t bytes_len,
                          uint64_t *starts, size_t starts_len);
void pb_instance_close(pb_instance_t *instance);

/*
** CAPI: A Reader In Pieces
**
** A reader reads an instance or a proof, cut anywhere, and gives one statement at a time: what it is, where it is, and its
** tokens as arrays. It reads the text, and checks no step of a proof.
**
**     pb_reader_t reader = PB_READER_CLOSED;
**     status = pb_reader_open(PB_READS_PROOF, &options, &reader, &report);
**     while (status == PB_OK && next_piece(&piece, &piece_len)) {
**         do {
**             status = pb_reader_feed(&reader, piece, piece_len, &used, &event, &report);
**             piece += used;
**             piece_len -= used;
**             if (event.kind != PB_EVENT_NONE)
**                 ... pb_reader_tokens(&reader, codes, event.tokens, ...) ...
**         } while (event.kind != PB_EVENT_NONE);
**     }
**     if (status == PB_OK)
**         status = pb_reader_finish(&reader, &report);
**     pb_reader_close(&reader);
**
** A pb_reader_t is closed, or it owns a reader. It is used as a pb_checker_t is: it begins as PB_READER_CLOSED, a copy owns
** nothing, and it belongs to the thread that opened it. Each call with a closed one but pb_reader_open() and pb_reader_close()
** returns PB_MISUSE.
**
** pb_reader_open() opens a reader of instances, PB_READS_INSTANCE, or of proofs, PB_READS_PROOF. It first closes what the
** pb_reader_t owned. With another format the result is PB_MISUSE.
**
** pb_reader_feed() takes a piece of the text up to the end of the next statement. `used` is how many of its bytes it took. If a
** statement ends there, the event says what it is. Otherwise the kind of the event is PB_EVENT_NONE, and all bytes that belong to
** the text were taken: the whole piece, or none of it if the text has ended before. At any result but PB_OK `used` is 0 and there
** is no event, and each later call returns the same result and report.
**
** pb_reader_finish() says whether the text may end here. An instance may end after as many constraints as its header says, and a
** proof after its last line. What the caller has left of a piece then is not part of the text. pb_checker_finish() and
** pb_instance_read() allow only white space and comments there.
**
** Event. `line`, `column` and `offset` are the position of the first byte, and `past` is the offset past the last: the line feed of
** a line, where it has to end with one, or the `;`. `tokens` is the number of tokens, and `bytes` the length of the free text: what
** follows the counts in the header of an instance, or the text of a comment.
**
** pb_reader_tokens() copies the tokens of the last event to arrays of that many elements. Otherwise nothing is written, and the
** result is PB_MISUSE. A token has a code, the number of its name, or 0 if it has none, and a number in two words, or 0 if it has
** none. Names are numbered from 0 in the order in which they first appear in the whole text.
**
**     PB_TOKEN_TERM, PB_TOKEN_NEGATED_TERM        a coefficient, and a name or its negation
**     PB_TOKEN_LITERAL, PB_TOKEN_NEGATED_LITERAL  a name or its negation, of a solution, or as an axiom of `pol`
**     PB_TOKEN_AT_LEAST, PB_TOKEN_EQUAL           `>=` or `=`, with the degree
**     PB_TOKEN_COUNT                              a count of a header or of `f`
**     PB_TOKEN_ID                                 an id, as written
**     PB_TOKEN_ADD, PB_TOKEN_SATURATE             `+`, `s`
**     PB_TOKEN_MULTIPLY, PB_TOKEN_DIVIDE          a factor and `*`, a divisor and `d`
**     PB_TOKEN_WEAKEN                             a name and `w`
**     PB_TOKEN_BOUND, PB_TOKEN_INFINITE           a bound of `conclusion BOUNDS`, or INF
**     PB_TOKEN_SOLUTION                           the literals of a solution follow, maybe none
**
** The kinds of events, with their tokens in order:
**
**     PB_EVENT_HEADER              the first line of an instance: two counts, and a free text
**     PB_EVENT_COMMENT             a comment of an instance: a free text
**     PB_EVENT_OBJECTIVE           terms
**     PB_EVENT_CONSTRAINT          terms, the relation
**     PB_EVENT_PROOF               the first line of a proof
**     PB_EVENT_F                   a count, or nothing
**     PB_EVENT_POL                 its words
**     PB_EVENT_RUP                 terms, the relation
**     PB_EVENT_SOLI, PB_EVENT_SOLX literals
**     PB_EVENT_DELETE              ids
**     PB_EVENT_OUTPUT              nothing
**     PB_EVENT_NO_CLAIM            `conclusion NONE`: nothing
**     PB_EVENT_UNSAT               `conclusion UNSAT`: an id, or nothing
**     PB_EVENT_SAT                 `conclusion SAT`: PB_TOKEN_SOLUTION and literals, or nothing
**     PB_EVENT_BOUNDS              the lower bound, maybe an id, the upper bound, then as for PB_EVENT_SAT
**     PB_EVENT_END                 the last line of a proof
**
** pb_reader_bytes() writes the free text of the last event into a buffer, as pb_tidy() writes its text, and pb_reader_name() the
** name with a number, as pb_checker_name() does.
**
** It is proved (crates/pb_c/src/reader.rt) that the events are the statements of the text, whatever its cut, that the arrays are
** their tokens, and that the status and the report are those of the first fault. A comment after the last constraint of an
** instance is not part of it. In a proof comments and white space give no event.
*/
#define PB_READS_INSTANCE 1
#define PB_READS_PROOF 2

#define PB_EVENT_NONE 0
#define PB_EVENT_HEADER 1
#define PB_EVENT_COMMENT 2
#define PB_EVENT_OBJECTIVE 3
#define PB_EVENT_CONSTRAINT 4
#define PB_EVENT_PROOF 16
#define PB_EVENT_F 17
#define PB_EVENT_POL 18
#define PB_EVENT_RUP 19
#define PB_EVENT_SOLI 20
#define PB_EVENT_SOLX 21
#define PB_EVENT_DELETE 22
#define PB_EVENT_OUTPUT 23
#define PB_EVENT_NO_CLAIM 24
#define PB_EVENT_UNSAT 25
#define PB_EVENT_SAT 26
#define PB_EVENT_BOUNDS 27
#define PB_EVENT_END 28

#define PB_TOKEN_TERM 1
#define PB_TOKEN_NEGATED_TERM 2
#define PB_TOKEN_LITERAL 3
#define PB_TOKEN_NEGATED_LITERAL 4
#define PB_TOKEN_AT_LEAST 5
#define PB_TOKEN_EQUAL 6
#define PB_TOKEN_COUNT 7
#define PB_TOKEN_ID 8
#define PB_TOKEN_ADD 9
#define PB_TOKEN_MULTIPLY 10
#define PB_TOKEN_DIVIDE 11
#define PB_TOKEN_SATURATE 12
#define PB_TOKEN_WEAKEN 13
#define PB_TOKEN_BOUND 14
#define PB_TOKEN_INFINITE 15
#define PB_TOKEN_SOLUTION 16

typedef struct pb_reader_t {
    void *inner;
} pb_reader_t;

#define PB_READER_CLOSED {NULL}

typedef struct pb_event_t {
    uint64_t line;
    uint64_t column;
    uint64_t offset;
    uint64_t past;
    size_t tokens;
    size_t bytes;
    uint32_t kind;
} pb_event_t;

uint8_t pb_reader_open(uint32_t format, const pb_options_t *options,
                       pb_reader_t *reader, pb_report_t *report);
uint8_t pb_reader_feed(pb_reader_t *reader,
                       const uint8_t *piece, size_t piece_len,
                       size_t *used, pb_event_t *event, pb_report_t *report);
uint8_t pb_reader_finish(pb_reader_t *reader, pb_report_t *report);
uint8_t pb_reader_tokens(pb_reader_t *reader,
                         uint8_t *codes, size_t codes_len,
                         uint64_t *names, size_t names_len,
                         uint64_t *lows, size_t lows_len,
                         int64_t *highs, size_t highs_len);
uint8_t pb_reader_bytes(pb_reader_t *reader,
                        uint8_t *out, size_t out_room, size_t *out_len);
uint8_t pb_reader_name(pb_reader_t *reader, size_t number,
                       uint8_t *out, size_t out_room, size_t *out_len);
void pb_reader_close(pb_reader_t *reader);

/*
** CAPI: Write A Statement
**
** pb_write_statement() writes the canonical text of one statement from arrays, as pb_show() prints it, into a buffer. No line feed
** is added. The tokens are in the four arrays that pb_reader_tokens() copies, all of one length, and `kind` is that of the event.
** `text` is the free text of a header or a comment, and empty for other kinds.
**
** The names that the tokens are numbered by are in the two arrays that pb_instance_names() copies: their bytes, one name after
** another, and the offset at which each begins. The table may have more names than the statement, and a name more than once.
**
** Of the options only `bits` matters. The rules are tested in this order:
**
**     1. Each array of the tokens has the same length, the options are allowed, and the kind is one of PB_EVENT_ but
**        PB_EVENT_NONE. Otherwise the result is PB_MISUSE.
**     2. Each code is one of PB_TOKEN_. The number of a name is one of the table, and where a token has no name it is 0.
**     3. Each name is one of the grammar. Each number is within the limits for its kind: an id is not 0, and a factor or a
**        divisor is at least 1. Where a token has no number it is 0.
**     4. The tokens are those of the kind, in order. `pol` has the words of one expression, and `del id` at least one id. The free
**        text has no line feed, and in a header it is empty or begins with a blank.
**
** If one of the rules 2 to 4 is broken, the result is PB_REFUSED, and `wrong` is the index of the token. It is the number of tokens
** if a token is missing, or if the free text is wrong. At any result but PB_OK nothing is written to the buffer, and its length is 0.
** At any result but PB_REFUSED `wrong` is the number of tokens.
**
** A file has a line for each statement: write its text and then a line feed. The last line may do without one, except a header. This
** call knows one statement, so the caller keeps the rules of the whole text: the order of statements, and the counts of the header.
** pb_tidy() tests them. examples/c/write.c writes an instance from the arrays of a pb_instance_t.
**
** It is proved (crates/pb_c/src/write.rt) that with PB_OK the text is the canonical one of a statement within the limits. That
** statement has this kind, exactly these tokens and this free text.
*/
uint8_t pb_write_statement(uint32_t kind,
                           const uint8_t *codes, size_t codes_len,
                           const uint64_t *names, size_t names_len,
                           const uint64_t *lows, size_t lows_len,
                           const int64_t *highs, size_t highs_len,
                           const uint8_t *text, size_t text_len,
                           const uint8_t *bytes, size_t bytes_len,
                           const uint64_t *starts, size_t starts_len,
                           const pb_options_t *options, size_t *wrong,
                           uint8_t *out, size_t out_room, size_t *out_len);

#ifdef __cplusplus
}
#endif

/*
** CAPI: Options With Random Keys
**
** Where the system has no random bytes, the keys are those of PB_OPTIONS_FIXED, and the result is false. No text can cause
** that. Define PB_NO_RANDOM before this file is included where there is no getrandom().
*/
#ifndef PB_NO_RANDOM
#include <sys/random.h>

static inline bool pb_options(pb_options_t *options)
{
    uint64_t keys[2] = {0, 0};
    bool drawn = getrandom(keys, sizeof keys, 0) == (ssize_t)sizeof keys;
    options->longest = 0;
    options->key0 = drawn ? keys[0] : 0;
    options->key1 = drawn ? keys[1] : 0;
    options->bits = 127;
    return drawn;
}
#endif

#endif
