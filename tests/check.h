/* A check of the tests: the line of the first that fails is printed, and the program ends with status 1. */
#ifndef CHECK_H
#define CHECK_H

#include <stddef.h>
#include <stdint.h>
#include <stdio.h>
#include <stdlib.h>

extern unsigned long checks;

#define CHECK(test, ...)                              \
    do {                                              \
        checks++;                                     \
        if (!(test)) {                                \
            printf("%s:%d: ", __FILE__, __LINE__);    \
            printf(__VA_ARGS__);                      \
            printf("\n");                             \
            exit(1);                                  \
        }                                             \
    } while (0)

/* The second part of the test (kit.c). */
void kit(void);

/* A module reset by name in another source file (boundary.c) than the recorder's test: the answer's number. */
uint32_t reset_elsewhere(uint32_t *words, size_t count);

#endif
