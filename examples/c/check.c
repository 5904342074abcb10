/* Checks a proof of an instance: check INSTANCE PROOF. It prints what `pb check` prints, and ends with its status. */

#include <pb.h>

#include <stdio.h>
#include <stdlib.h>

/* The bytes of a file, and their number in `len`, or NULL. */
static uint8_t *bytes_of(const char *path, size_t *len)
{
    FILE *file = fopen(path, "rb");
    uint8_t *bytes = NULL;
    long size;
    if (file == NULL)
        return NULL;
    if (fseek(file, 0, SEEK_END) == 0 && (size = ftell(file)) >= 0 && fseek(file, 0, SEEK_SET) == 0) {
        /* One byte more, so that the pointer is not null for an empty file. */
        bytes = malloc((size_t)size + 1);
        if (bytes != NULL && fread(bytes, 1, (size_t)size, file) != (size_t)size) {
            free(bytes);
            bytes = NULL;
        }
        *len = (size_t)size;
    }
    fclose(file);
    return bytes;
}

int main(int count, char **words)
{
    uint8_t line[4096];
    size_t line_len, instance_len = 0, proof_len = 0;
    uint8_t *instance, *proof;
    pb_options_t options;
    uint8_t status = PB_FAILED;

    if (count != 3) {
        fprintf(stderr, "usage: check INSTANCE PROOF\n");
        return PB_MISUSE;
    }
    instance = bytes_of(words[1], &instance_len);
    proof = bytes_of(words[2], &proof_len);
    if (instance == NULL || proof == NULL) {
        fprintf(stderr, "%s: cannot open or read\n", words[instance == NULL ? 1 : 2]);
    } else {
        pb_options(&options);
        status = pb_check(instance, instance_len, proof, proof_len, &options, line, sizeof line, &line_len);
        /* Where the line is longer than the room, a prefix of it was written. */
        fwrite(line, 1, line_len < sizeof line ? line_len : sizeof line, status == PB_OK ? stdout : stderr);
    }
    free(instance);
    free(proof);
    return status;
}
