/*
 * Runs the fuzzing target once on each file named, without a fuzzer: for the
 * seeds, and for what a fuzzer has found. A difference stops the program.
 * Usage: once FILE..
 */
#include <stdint.h>
#include <stdio.h>
#include <stdlib.h>

int LLVMFuzzerTestOneInput(const uint8_t *bytes, size_t size);

static size_t read_file(const char *name, uint8_t *bytes, size_t most)
{
    FILE *file = fopen(name, "rb");
    size_t size;

    if (file == NULL) {
        perror(name);
        exit(2);
    }
    size = fread(bytes, 1, most, file);
    fclose(file);
    return size;
}

int main(int argc, char **argv)
{
    static uint8_t bytes[1 << 20];

    for (int i = 1; i < argc; i++) {
        LLVMFuzzerTestOneInput(bytes, read_file(argv[i], bytes, sizeof bytes));
        printf("ok %s\n", argv[i]);
        fflush(stdout);
    }
    printf("seeds: %d passed, 0 failed\n", argc - 1);
    return 0;
}
