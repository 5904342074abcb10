/* Reads an instance into arrays: library INSTANCE. bench/library measures it. */

#define PB_NO_RANDOM
#include <pb.h>

#include <stdio.h>
#include <stdlib.h>

static void *room_for(size_t count, size_t size)
{
    void *room = malloc(count * size + 1);
    if (room == NULL)
        exit(3);
    return room;
}

static uint8_t *bytes_of(const char *path, size_t *len)
{
    FILE *file = fopen(path, "rb");
    uint8_t *bytes;
    if (file == NULL || fseek(file, 0, SEEK_END) != 0)
        exit(3);
    *len = (size_t)ftell(file);
    bytes = room_for(*len, 1);
    rewind(file);
    if (fread(bytes, 1, *len, file) != *len)
        exit(3);
    fclose(file);
    return bytes;
}

int main(int count, char **words)
{
    static const pb_options_t options = PB_OPTIONS_FIXED;
    pb_instance_t instance = PB_INSTANCE_CLOSED;
    pb_report_t report;
    pb_sizes_t sizes;
    size_t len, n, m;
    uint8_t *text, status;
    uint64_t *words_of_terms[2], *words_of_rows[6];
    int64_t *highs, *degree_highs;
    uint8_t *negated, *kinds;
    if (count != 2)
        return 2;
    text = bytes_of(words[1], &len);
    status = pb_instance_read(text, len, &options, &instance, &report);
    if (status != PB_OK)
        return status;
    pb_instance_sizes(&instance, &sizes);
    n = sizes.terms;
    m = sizes.rows;
    for (int k = 0; k < 2; k++)
        words_of_terms[k] = room_for(n, 8);
    for (int k = 0; k < 6; k++)
        words_of_rows[k] = room_for(m, 8);
    highs = room_for(n, 8), degree_highs = room_for(m, 8), negated = room_for(n, 1), kinds = room_for(m, 1);
    pb_instance_terms(&instance, words_of_terms[0], n, negated, n, words_of_terms[1], n, highs, n);
    pb_instance_rows(&instance, kinds, m, words_of_rows[0], m, words_of_rows[1], m, degree_highs, m);
    pb_instance_places(&instance, words_of_rows[2], m, words_of_rows[3], m, words_of_rows[4], m, words_of_rows[5], m);
    pb_instance_names(&instance, room_for(sizes.name_bytes, 1), sizes.name_bytes, room_for(sizes.names, 8), sizes.names);
    pb_instance_close(&instance);
    return 0;
}
