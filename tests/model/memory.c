#include "memory.h"

#include <stdio.h>
#include <stdlib.h>

void *grown(void *memory, size_t bytes)
{
    memory = realloc(memory, bytes);
    if (memory == NULL) {
        perror("memory of the model");
        exit(2);
    }
    return memory;
}
