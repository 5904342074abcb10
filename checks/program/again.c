/* Calls the library again after memory ran out: again INSTANCE PROOF
**
** For each call it first counts the requests for memory. Then it makes the call once for each request, with that request refused,
** and once more with none refused. The first of the two ends with PB_FAILED or as with enough memory. The second one always ends as
** with enough memory. It prints how many pairs of calls there were. The status is 1 if one was wrong. Its options are all 0, which is
** allowed. */

#include <stdbool.h>
#include <stdint.h>
#include <stdio.h>
#include <stdlib.h>
#include <string.h>

#define PB_NO_RANDOM
#include "pb.h"

/* The heap of the library, in place of the one in libpb.a. Request number `refused` is refused; 0 is no request. */
struct answer {
    bool ok;
    unsigned char *p;
};

static unsigned long requests, refused;
static unsigned char unused;

static struct answer answer_of(void *block)
{
    struct answer answer = {block != NULL, block != NULL ? block : &unused};
    return answer;
}

struct answer rattle_alloc(size_t size, size_t align)
{
    return answer_of(++requests == refused ? NULL : malloc(size != 0 ? size : align));
}

struct answer rattle_realloc(unsigned char *p, size_t kept, size_t size, size_t align)
{
    (void)kept;
    return answer_of(++requests == refused ? NULL : realloc(p, size != 0 ? size : align));
}

void rattle_dealloc(unsigned char *p)
{
    free(p);
}

/* A file. */
struct text {
    uint8_t *bytes;
    size_t length;
};

static struct text read_text(const char *name)
{
    struct text text = {malloc(1 << 20), 0};
    FILE *file = fopen(name, "rb");
    if (file == NULL || text.bytes == NULL) {
        perror(name);
        exit(2);
    }
    text.length = fread(text.bytes, 1, 1 << 20, file);
    fclose(file);
    return text;
}

/* What a call returned and wrote. */
struct result {
    uint8_t status;
    size_t length;
    uint8_t line[4096];
};

enum call { CHECK, TIDY, NORMAL, SHOW, TIDY_PROOF, SHOW_PROOF, CALLS };

static struct text instance, proof;

static struct result made(enum call call, unsigned long number)
{
    static const pb_options_t options = {0};
    struct text text = call == TIDY_PROOF || call == SHOW_PROOF ? proof : instance;
    struct result result;
    memset(&result, 0, sizeof result);
    requests = 0;
    refused = number;
    if (call == CHECK)
        result.status = pb_check(instance.bytes, instance.length, proof.bytes, proof.length, &options, result.line, sizeof result.line, &result.length);
    else if (call == SHOW || call == SHOW_PROOF)
        result.status = pb_show(text.bytes, text.length, &options, result.line, sizeof result.line, &result.length);
    else
        result.status = pb_tidy(text.bytes, text.length, call == NORMAL, &options, result.line, sizeof result.line, &result.length);
    return result;
}

static bool is_same(const struct result *one, const struct result *other)
{
    return memcmp(one, other, sizeof *one) == 0;
}

int main(int count, char **words)
{
    unsigned long pairs = 0, wrong = 0;
    if (count != 3)
        return 2;
    instance = read_text(words[1]);
    proof = read_text(words[2]);
    for (int call = CHECK; call != CALLS; call++) {
        struct result wanted = made(call, 0);
        unsigned long all = requests;
        for (unsigned long number = 1; number <= all; number++) {
            struct result first = made(call, number), again = made(call, 0);
            bool is_right = is_same(&again, &wanted) && (first.status == PB_FAILED || is_same(&first, &wanted));
            pairs++;
            if (!is_right) {
                wrong++;
                fprintf(stderr, "call %d, request %lu refused: status %d, and then %d\n", call, number, first.status, again.status);
            }
        }
    }
    free(instance.bytes);
    free(proof.bytes);
    printf("%lu\n", pairs);
    return wrong != 0;
}
