/* Makes each call that writes a text, with rooms of all lengths: calls [--once] INSTANCE PROOF
**
** The calls are pb_check(), pb_tidy(), pb_show(), pb_checker_name() and pb_instance_name(). Each is made with a room of 0 bytes, of 1 byte and
** so on, up to two more than its text. The room is a block of just that size, so that a tool sees a byte that is written past it. What is
** written has to be the beginning of the text, the length that of the whole text, and the rest of the room as it was. It copies the
** arrays of the instance too. Eight threads do all of it at the same time, or with --once one does. It prints how many calls there
** were. The status is 1 if one was wrong. */

#include <pthread.h>
#include <stdbool.h>
#include <stdint.h>
#include <stdio.h>
#include <stdlib.h>
#include <string.h>

#define PB_NO_RANDOM
#include "pb.h"

#define THREADS 8

struct text {
    uint8_t *bytes;
    size_t length;
};

static struct text instance, proof;
static const pb_options_t options = PB_OPTIONS_FIXED;

/* What a thread has open, and what it counts. */
struct run {
    pb_checker_t checker;
    pb_instance_t read;
    size_t name;
    unsigned long calls, wrong;
};

enum call { CHECK, TIDY, NORMAL, SHOW, TIDY_PROOF, SHOW_PROOF, CHECKER_NAME, INSTANCE_NAME, CALLS };

/* A block of just this size that is not null, whose bytes are not 0. */
static uint8_t *block_of(size_t size)
{
    uint8_t *block = malloc(size != 0 ? size : 1);
    if (block == NULL)
        exit(2);
    memset(block, '#', size != 0 ? size : 1);
    return block;
}

static struct text read_text(const char *name)
{
    struct text text = {NULL, 0};
    uint8_t *bytes = block_of(1 << 20);
    FILE *file = fopen(name, "rb");
    if (file == NULL) {
        perror(name);
        exit(2);
    }
    text.length = fread(bytes, 1, 1 << 20, file);
    fclose(file);
    /* Just as many bytes as there are, so that a tool sees a byte that is read past them. */
    text.bytes = block_of(text.length);
    memcpy(text.bytes, bytes, text.length);
    free(bytes);
    return text;
}

static uint8_t made(struct run *run, enum call call, uint8_t *out, size_t room, size_t *len)
{
    struct text text = call == TIDY_PROOF || call == SHOW_PROOF ? proof : instance;
    switch (call) {
    case CHECK:
        return pb_check(instance.bytes, instance.length, proof.bytes, proof.length, &options, out, room, len);
    case TIDY:
    case NORMAL:
    case TIDY_PROOF:
        return pb_tidy(text.bytes, text.length, call == NORMAL, &options, out, room, len);
    case SHOW:
    case SHOW_PROOF:
        return pb_show(text.bytes, text.length, &options, out, room, len);
    case CHECKER_NAME:
        return pb_checker_name(&run->checker, run->name, out, room, len);
    default:
        return pb_instance_name(&run->read, run->name, out, room, len);
    }
}

/* One call with rooms of all lengths. */
static void try_rooms(struct run *run, enum call call)
{
    size_t whole_len, len;
    uint8_t none, status = made(run, call, &none, 0, &whole_len);
    uint8_t *whole = block_of(whole_len);
    run->wrong += made(run, call, whole, whole_len, &len) != status || len != whole_len;
    for (size_t room = 0; room < whole_len + 3; room++) {
        size_t used = room < whole_len ? room : whole_len;
        uint8_t *out = block_of(room);
        bool is_right = made(run, call, out, room, &len) == status && len == whole_len && memcmp(out, whole, used) == 0;
        for (size_t at = used; at < room; at++)
            is_right = is_right && out[at] == '#';
        run->calls++;
        run->wrong += !is_right;
        if (!is_right)
            fprintf(stderr, "call %d with a room of %zu bytes\n", call, room);
        free(out);
    }
    free(whole);
}

/* The arrays of an instance, each in a block of just its size. */
static void try_arrays(struct run *run, pb_sizes_t *sizes)
{
    uint64_t *words[8];
    int64_t *highs[2];
    uint8_t *bytes[2];
    size_t n, m;
    run->wrong += pb_instance_sizes(&run->read, sizes) != PB_OK;
    n = sizes->terms;
    m = sizes->rows;
    for (size_t k = 0; k < 8; k++)
        words[k] = (uint64_t *)block_of(8 * (k < 2 ? n : m));
    for (size_t k = 0; k < 2; k++) {
        highs[k] = (int64_t *)block_of(8 * (k < 1 ? n : m));
        bytes[k] = block_of(k < 1 ? n : m);
    }
    run->wrong += pb_instance_terms(&run->read, words[0], n, bytes[0], n, words[1], n, highs[0], n) != PB_OK;
    run->wrong += pb_instance_rows(&run->read, bytes[1], m, words[2], m, words[3], m, highs[1], m) != PB_OK;
    run->wrong += pb_instance_places(&run->read, words[4], m, words[5], m, words[6], m, words[7], m) != PB_OK;
    run->wrong += m > 0 && words[2][m - 1] != n;
    for (size_t k = 0; k < n; k++)
        run->wrong += words[0][k] >= sizes->names || bytes[0][k] > 1;
    for (size_t k = 0; k < m; k++)
        run->wrong += words[6][k] >= words[7][k] || words[7][k] > instance.length || bytes[1][k] > PB_EQUAL;
    run->calls += 3;
    for (size_t k = 0; k < 8; k++)
        free(words[k]);
    for (size_t k = 0; k < 2; k++)
        free(highs[k]), free(bytes[k]);
}

static void *work(void *given)
{
    struct run *run = given;
    pb_report_t report;
    pb_sizes_t sizes = {0};
    size_t used;
    /* An instance may be read whose normal forms exceed the limit on numbers. */
    if (pb_checker_open(instance.bytes, instance.length, &options, &run->checker, &report) == PB_OK)
        pb_checker_feed(&run->checker, proof.bytes, proof.length, &used, &report);
    if (pb_instance_read(instance.bytes, instance.length, &options, &run->read, &report) == PB_OK)
        try_arrays(run, &sizes);
    for (enum call call = CHECK; call < CHECKER_NAME; call++)
        try_rooms(run, call);
    /* Of names also one that there is not. */
    for (run->name = 0; run->name <= sizes.names; run->name++) {
        try_rooms(run, CHECKER_NAME);
        try_rooms(run, INSTANCE_NAME);
    }
    pb_checker_close(&run->checker);
    pb_instance_close(&run->read);
    return NULL;
}

int main(int count, char **words)
{
    static struct run runs[THREADS];
    pthread_t threads[THREADS];
    unsigned long calls = 0, wrong = 0;
    bool is_once = count == 4 && strcmp(words[1], "--once") == 0;
    int many = is_once ? 1 : THREADS;
    if (count != 3 + is_once)
        return 2;
    instance = read_text(words[1 + is_once]);
    proof = read_text(words[2 + is_once]);
    for (int k = 0; k < many; k++)
        if (pthread_create(&threads[k], NULL, work, &runs[k]) != 0)
            return 2;
    for (int k = 0; k < many; k++) {
        pthread_join(threads[k], NULL);
        calls += runs[k].calls;
        wrong += runs[k].wrong;
    }
    free(instance.bytes);
    free(proof.bytes);
    printf("%lu\n", calls);
    return wrong != 0;
}
