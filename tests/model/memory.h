/* Memory of the model's lists. */
#ifndef MEMORY_H
#define MEMORY_H

#include <stddef.h>

/* As realloc; ends the program if there is none. */
void *grown(void *memory, size_t bytes);

#endif
