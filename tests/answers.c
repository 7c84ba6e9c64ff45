/*
 * What a host saw: linked with --wrap=nqabelihu_perform, it writes each answer of the library as a line of `replay`, its number and its values,
 * to the file that the environment's ANSWERS names.
 */
#include <stdio.h>
#include <stdlib.h>

#include "nqabelihu.h"

uint32_t __real_nqabelihu_perform(uint32_t *memory, size_t words, uint32_t *values, size_t places, uint32_t op, uint32_t channel, uint32_t a,
                                  uint32_t b);
uint32_t __wrap_nqabelihu_perform(uint32_t *memory, size_t words, uint32_t *values, size_t places, uint32_t op, uint32_t channel, uint32_t a,
                                  uint32_t b);

uint32_t __wrap_nqabelihu_perform(uint32_t *memory, size_t words, uint32_t *values, size_t places, uint32_t op, uint32_t channel, uint32_t a,
                                  uint32_t b)
{
    static FILE *file;
    uint32_t number = __real_nqabelihu_perform(memory, words, values, places, op, channel, a, b);
    int at;
    if (file == NULL)
        file = fopen(getenv("ANSWERS"), "w");
    if (file == NULL)
        abort();
    fprintf(file, "%u", (unsigned)number);
    for (at = 0; at < nqabelihu_values_of(op); at++)
        fprintf(file, " %u", (unsigned)values[at]);
    fprintf(file, "\n");
    return number;
}
