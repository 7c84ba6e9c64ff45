/*
 * nqabelihu_record.h: sessions are recorded. Include it in place of nqabelihu.h, in every source file of the host that makes calls.
 *
 *     FILE *file = fopen("session.calls", "wb");
 *
 *     nqabelihu_record(module, file);          before power-up: from here on each call on this memory is appended to the file
 *     ..                                       the session
 *     nqabelihu_record(module, NULL);          no more is recorded
 *     if (fclose(file) != 0 || nqabelihu_record_lost() != 0)
 *         ..                                   an item could not be written
 *
 * Each call by name, refused or done, becomes an item of 16 bytes: op, channel, a and b, 32 bits each with the lowest byte first (docs/CALLS.md,
 * "Call items"). `replay < session.calls` performs it again, and gives the answers that the host had: a recording begins with a power-up. (`replay`
 * lends the memory of twelve channels, so a power-up that was refused with SHORT is done there.)
 *
 * One memory is recorded at a time. Calls on other memory are made and not recorded; so are calls of nqabelihu_perform itself. Begin and end a
 * recording while no other thread makes calls.
 */
#ifndef NQABELIHU_RECORD_H
#define NQABELIHU_RECORD_H

#ifdef NQABELIHU_H
#error "include nqabelihu_record.h before nqabelihu.h, or in its place"
#endif

#include <stddef.h>
#include <stdint.h>
#include <stdio.h>

#define NQABELIHU_PERFORM nqabelihu_perform_recorded_

#ifdef __cplusplus
extern "C" {
#endif

static inline uint32_t nqabelihu_perform_recorded_(uint32_t *memory, size_t words, uint32_t *values, size_t places, uint32_t op, uint32_t channel,
                                                  uint32_t a, uint32_t b);

#ifdef __cplusplus
}
#endif

#include "nqabelihu.h"

#ifdef __cplusplus
extern "C" {
#endif

/* The recording that runs: where it goes, whose memory it is of, and how many of its items could not be written. One for the whole program. */
typedef struct {
    FILE *file;
    const uint32_t *memory;
    unsigned long lost;
} nqabelihu_recording;

extern nqabelihu_recording nqabelihu_the_recording_;
__attribute__((weak)) nqabelihu_recording nqabelihu_the_recording_;

enum { NQABELIHU_ITEM_BYTES = 16 };

/* Records the calls on this memory from here on; with no file, no longer. The file stays yours to open and to close. */
static inline void nqabelihu_record(nqabelihu_memory memory, FILE *file)
{
    nqabelihu_the_recording_.file = file;
    nqabelihu_the_recording_.memory = memory.words;
    if (file)
        nqabelihu_the_recording_.lost = 0;
}

/* How many items of the recording could not be written. */
static inline unsigned long nqabelihu_record_lost(void)
{
    return nqabelihu_the_recording_.lost;
}

/* A call as an item, as the file has it. */
static inline void nqabelihu_item_(unsigned char *bytes, uint32_t op, uint32_t channel, uint32_t a, uint32_t b)
{
    uint32_t words[4];
    int at;
    words[0] = op;
    words[1] = channel;
    words[2] = a;
    words[3] = b;
    for (at = 0; at < NQABELIHU_ITEM_BYTES; at++)
        bytes[at] = (unsigned char)(words[at / 4] >> (at % 4 * 8) & 255);
}

/* What the functions by name call: the item goes to the file, and the call to the library. */
static inline uint32_t nqabelihu_perform_recorded_(uint32_t *memory, size_t words, uint32_t *values, size_t places, uint32_t op, uint32_t channel,
                                                  uint32_t a, uint32_t b)
{
    if (nqabelihu_the_recording_.file && nqabelihu_the_recording_.memory == memory) {
        unsigned char bytes[NQABELIHU_ITEM_BYTES];
        nqabelihu_item_(bytes, op, channel, a, b);
        if (fwrite(bytes, NQABELIHU_ITEM_BYTES, 1, nqabelihu_the_recording_.file) != 1)
            nqabelihu_the_recording_.lost++;
    }
    return nqabelihu_perform(memory, words, values, places, op, channel, a, b);
}

#ifdef __cplusplus
}
#endif

#endif
