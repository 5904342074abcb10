/* Checks a proof of an instance while it comes in pieces: stream INSTANCE PROOF [SIZE]. PROOF is - for standard input, and SIZE the bytes
** of a piece. It prints what `pb check` prints, and ends with its status. A wrong step is reported as soon as it was read. */

#include <pb.h>

#include <inttypes.h>
#include <stdio.h>
#include <stdlib.h>
#include <string.h>

/* The bytes of a file, and their number in `len`, or NULL. */
static uint8_t *bytes_of(const char *path, size_t *len)
{
    FILE *file = fopen(path, "rb");
    uint8_t *bytes = NULL;
    long size;
    if (file == NULL)
        return NULL;
    if (fseek(file, 0, SEEK_END) == 0 && (size = ftell(file)) >= 0 && fseek(file, 0, SEEK_SET) == 0) {
        /* One byte more, so that the pointer is not null for an empty file. */
        bytes = malloc((size_t)size + 1);
        if (bytes != NULL && fread(bytes, 1, (size_t)size, file) != (size_t)size) {
            free(bytes);
            bytes = NULL;
        }
        *len = (size_t)size;
    }
    fclose(file);
    return bytes;
}

/* Prints a bound, a number of 128 bits in two words or INF. */
static void print_bound(bool finite, uint64_t low, int64_t high)
{
    char digits[40], *first = digits + sizeof digits;
    bool negative = high < 0;
    uint64_t words[4], rest;
    if (!finite) {
        printf(" INF");
        return;
    }
    if (negative) {
        high = (int64_t)(low == 0 ? -(uint64_t)high : ~(uint64_t)high);
        low = -low;
    }
    words[0] = (uint64_t)high >> 32;
    words[1] = (uint64_t)high & UINT32_MAX;
    words[2] = low >> 32;
    words[3] = low & UINT32_MAX;
    *--first = '\0';
    do {
        rest = 0;
        for (int k = 0; k < 4; k++) {
            rest = (rest << 32) + words[k];
            words[k] = rest / 10;
            rest %= 10;
        }
        *--first = (char)('0' + rest);
    } while ((words[0] | words[1] | words[2] | words[3]) != 0);
    printf(" %s%s", negative ? "-" : "", first);
}

static void print_claim(const pb_claim_t *claim)
{
    static const char *const claims[] = {"NONE", "UNSAT", "SAT", "BOUNDS"};
    printf("verified %s", claims[claim->kind]);
    if (claim->kind == PB_CLAIM_BOUNDS) {
        print_bound(claim->lower_finite, claim->lower_low, claim->lower_high);
        print_bound(claim->upper_finite, claim->upper_low, claim->upper_high);
    }
    printf("\n");
}

/* Prints why a text is rejected. */
static void print_reason(pb_checker_t *checker, const pb_report_t *report)
{
    static const char *const reasons[] = {
        [PB_TOO_LARGE] = "number too large", [PB_ENDED] = "input ended", [PB_TOO_LONG] = "input too long", [PB_MEMORY] = "out of memory",
        [PB_OVERFLOW] = "overflow", [PB_NOT_IMPLIED] = "not implied", [PB_CONFLICT] = "conflict", [PB_NO_OBJECTIVE] = "no objective",
        [PB_NO_CONTRADICTION] = "not a contradiction", [PB_SOLUTION_LOGGED] = "a solution was logged", [PB_NO_SOLUTION] = "no solution",
        [PB_NOT_BOUND] = "not a bound", [PB_IDS_SPENT] = "ids spent", [PB_ORDER] = "out of order", [PB_MISUSED] = "misuse",
    };
    if (report->input != 0)
        fprintf(stderr, "%s: ", report->input == PB_IN_PROOF ? "proof" : "instance");
    if (report->line != 0)
        fprintf(stderr, "line %" PRIu64 " column %" PRIu64 ": ", report->line, report->column);
    if (report->reason == PB_BYTE)
        fprintf(stderr, "byte 0x%02" PRIx64, report->number);
    else if (report->reason == PB_FORMULA_COUNT)
        fprintf(stderr, "formula has %" PRIu64 " constraints", report->number);
    else if (report->reason == PB_NO_SUCH_ID)
        fprintf(stderr, "no such id %" PRId64, report->id);
    else if (report->reason == PB_VIOLATES)
        fprintf(stderr, "violates constraint %" PRIu64, report->number);
    else if (report->reason == PB_NOT_TOTAL) {
        uint8_t name[256];
        size_t len;
        pb_checker_name(checker, (size_t)report->number, name, sizeof name, &len);
        fprintf(stderr, "no value for %.*s", (int)(len < sizeof name ? len : sizeof name), (const char *)name);
    } else
        fprintf(stderr, "%s", reasons[report->reason]);
    fprintf(stderr, "\n");
}

/* Feeds a checker until the file ends or its text is rejected. */
static uint8_t feed_file(pb_checker_t *checker, FILE *file, size_t size, pb_report_t *report)
{
    uint8_t *piece = malloc(size), status = PB_OK;
    size_t len, used;
    if (piece == NULL)
        return PB_FAILED;
    while (status == PB_OK && (len = fread(piece, 1, size, file)) > 0)
        status = pb_checker_feed(checker, piece, len, &used, report);
    free(piece);
    return status;
}

int main(int count, char **words)
{
    pb_checker_t checker = PB_CHECKER_CLOSED;
    pb_options_t options;
    pb_report_t report = {0};
    pb_claim_t claim;
    size_t instance_len = 0, size = count == 4 ? strtoul(words[3], NULL, 10) : 4096;
    uint8_t status = PB_MISUSE, *instance;
    FILE *proof;

    if (count < 3 || count > 4 || size == 0) {
        fprintf(stderr, "usage: stream INSTANCE PROOF [SIZE]\n");
        return PB_MISUSE;
    }
    instance = bytes_of(words[1], &instance_len);
    proof = strcmp(words[2], "-") == 0 ? stdin : fopen(words[2], "rb");
    if (instance == NULL || proof == NULL) {
        fprintf(stderr, "%s: cannot open or read\n", words[instance == NULL ? 1 : 2]);
        free(instance);
        return PB_FAILED;
    }
    pb_options(&options);
    status = pb_checker_open(instance, instance_len, &options, &checker, &report);
    free(instance);
    if (status == PB_OK)
        status = feed_file(&checker, proof, size, &report);
    if (status == PB_OK)
        status = pb_checker_finish(&checker, &claim, &report);
    if (status == PB_OK)
        print_claim(&claim);
    else
        print_reason(&checker, &report);
    pb_checker_close(&checker);
    fclose(proof);
    return status;
}
