/*
 * Wrong libraries, to see that boundary.c and kit.c find them out: linked with --wrap, each passes calls on to the proved library and does one
 * thing wrong. WRONG picks which, from 1 to LAST_WRONG. Wrong headers stand in wrong_headers/.
 */
#include <stddef.h>
#include <stdint.h>

#include "../include/nqabelihu.h"

#define LAST_WRONG 33

uint32_t __real_nqabelihu_perform(uint32_t *memory, size_t words, uint32_t *values, size_t places, uint32_t op, uint32_t channel, uint32_t a,
                                  uint32_t b);
size_t __real_nqabelihu_words(uint32_t count);
uint32_t __real_nqabelihu_label(uint32_t word);
uint32_t __wrap_nqabelihu_perform(uint32_t *memory, size_t words, uint32_t *values, size_t places, uint32_t op, uint32_t channel, uint32_t a,
                                  uint32_t b);
size_t __wrap_nqabelihu_words(uint32_t count);
uint32_t __wrap_nqabelihu_label(uint32_t word);

size_t __wrap_nqabelihu_words(uint32_t count)
{
#if WRONG == 1 /* thirteen channels have words */
    if (count == 13)
        return 2 * __real_nqabelihu_words(12) - __real_nqabelihu_words(11);
#endif
    return __real_nqabelihu_words(count);
}

uint32_t __wrap_nqabelihu_label(uint32_t word)
{
#if WRONG == 2 /* the label is not reversed */
    return word % 256;
#else
    return __real_nqabelihu_label(word);
#endif
}

/* The other functions of one number; `wrong` is what wrong library `number` gives. */
#define FIELD(name, number, wrong)               \
    uint32_t __real_##name(uint32_t given);      \
    uint32_t __wrap_##name(uint32_t given);      \
    uint32_t __wrap_##name(uint32_t given)       \
    {                                            \
        return WRONG == number ? wrong : __real_##name(given); \
    }

FIELD(nqabelihu_low_byte, 16, given % 256)                                 /* the label itself */
FIELD(nqabelihu_sdi, 17, given / 64 % 4)                                   /* two bits of the label */
FIELD(nqabelihu_data_bits, 18, given / 1024)                               /* with all the bits behind them */
FIELD(nqabelihu_sign_status, 19, given / 1073741824)                       /* bits 31 and 32 */
FIELD(nqabelihu_index_of_word, 20, given % 256)                            /* without the SDI */
FIELD(nqabelihu_with_odd_parity, 21, given % 2147483648)                   /* the parity bit always cleared */

uint32_t __real_nqabelihu_index_of_label(uint32_t label, uint32_t sdi);
uint32_t __wrap_nqabelihu_index_of_label(uint32_t label, uint32_t sdi);
uint32_t __wrap_nqabelihu_index_of_label(uint32_t label, uint32_t sdi)
{
    return WRONG == 22 ? label % 256 + sdi % 4 * 256 : __real_nqabelihu_index_of_label(label, sdi); /* the octal label in the low byte */
}

uint32_t __real_nqabelihu_version(void);
uint32_t __wrap_nqabelihu_version(void);
uint32_t __wrap_nqabelihu_version(void)
{
    return __real_nqabelihu_version() + (WRONG == 23); /* another version than the header's */
}

uint32_t __wrap_nqabelihu_perform(uint32_t *memory, size_t words, uint32_t *values, size_t places, uint32_t op, uint32_t channel, uint32_t a,
                                  uint32_t b)
{
    uint32_t number;
#if WRONG == 3 /* six words for the values suffice */
    if (places == 6) {
        uint32_t seven[7];
        size_t at;
        number = __real_nqabelihu_perform(memory, words, seven, 7, op, channel, a, b);
        for (at = 0; at < 6; at++)
            values[at] = seven[at];
        return number;
    }
#elif WRONG == 4 /* memory is read one word behind its end */
    volatile uint32_t read = words == 0 ? 0 : memory[words];
    (void)read;
#elif WRONG == 5 /* memory is read one word before its start */
    volatile uint32_t read = words == 0 ? 0 : memory[-1];
    (void)read;
#elif WRONG == 6 /* null memory is followed */
    volatile uint32_t read = memory[0];
    (void)read;
#elif WRONG == 28 /* memory of another layout is taken */
    const size_t at = NQABELIHU_MODULE_WORDS - 1;
    if (op != 1 && words > at && memory[at] != 2) {
        uint32_t layout = memory[at];
        memory[at] = 2;
        number = __real_nqabelihu_perform(memory, words, values, places, op, channel, a, b);
        memory[at] = layout;
        return number;
    }
#endif
#if WRONG == 30 /* an address that is not aligned is that of the register around it */
    if (op == 160 || op == 161)
        a -= a % 4;
#elif WRONG == 31 /* a channel mask names channels up to the first that refuses */
    if (op == 161 && a == NQABELIHU_REGISTER_STOP && (b & 1) != 0) {
        number = __real_nqabelihu_perform(memory, words, values, places, op, channel, a, 1);
        if (number != 0 || values[0] != 0)
            return number;
    }
#endif
    number = __real_nqabelihu_perform(memory, words, values, places, op, channel, a, b);
#if WRONG == 7 /* a refusal changes the stamp */
    if (number != 0 && words > 1)
        memory[1]++;
#elif WRONG == 8 /* an op that is no call is done */
    if (number == 42)
        return 0;
#elif WRONG == 9 /* a refusal leaves a value */
    if (number == 7)
        values[0] = 1;
#elif WRONG == 10 /* a word beyond the need is written */
    if (number == 0 && op == 128 && memory[0] == 3 && words > __real_nqabelihu_words(3))
        memory[__real_nqabelihu_words(3)] = a;
#elif WRONG == 11 /* an eighth value is written */
    if (places > 7 && number == 0)
        values[7] = 0;
#elif WRONG == 12 /* memory of one word less than the need is taken */
    if (number == 1 && op == 1 && words + 1 == __real_nqabelihu_words(a))
        return 0;
#elif WRONG == 13 /* a call of the table is not known */
    if (op == 156)
        return 42;
#elif WRONG == 14 /* power-up leaves the last word */
    if (number == 0 && op == 1)
        memory[words - 1] = 0xFFFFFFFF;
#elif WRONG == 15 /* a value is missing */
    if (number == 0 && op == 153)
        values[0] = 0;
#elif WRONG == 32 /* the word past a RAM's end has a register */
    if (number == 31 && a == 0x90400)
        return words == 0 ? 1 : 0;
#elif WRONG == 33 /* the status register has the conditions at the bits of a status read */
    if (number == 0 && op == 160 && a == 0x0820)
        number = __real_nqabelihu_perform(memory, words, values, places, 146, 2, 0, 0);
#endif
    return number;
}

uint32_t __real_nqabelihu_capture_read(const uint8_t *bytes, size_t length, size_t offset, uint32_t *commands, size_t places, uint32_t *kind,
                                       size_t *next, uint32_t *channel, uint32_t *word, uint32_t *stamp);
uint32_t __wrap_nqabelihu_capture_read(const uint8_t *bytes, size_t length, size_t offset, uint32_t *commands, size_t places, uint32_t *kind,
                                       size_t *next, uint32_t *channel, uint32_t *word, uint32_t *stamp);
uint32_t __wrap_nqabelihu_capture_read(const uint8_t *bytes, size_t length, size_t offset, uint32_t *commands, size_t places, uint32_t *kind,
                                       size_t *next, uint32_t *channel, uint32_t *word, uint32_t *stamp)
{
    uint32_t number = __real_nqabelihu_capture_read(bytes, length, offset, commands, places, kind, next, channel, word, stamp);
#if WRONG == 24 /* an image writes the word behind it */
    if (*kind == NQABELIHU_CAPTURED_IMAGE && places > NQABELIHU_IMAGE_COMMANDS)
        commands[NQABELIHU_IMAGE_COMMANDS] = 0;
#elif WRONG == 29 /* an old image leaves the words behind its own commands */
    if (*kind == NQABELIHU_CAPTURED_OLD_IMAGE)
        commands[NQABELIHU_IMAGE_COMMANDS - 1] = 0x5A5A5A5A;
#elif WRONG == 25 /* a refusal has offset 0 */
    if (number != 0)
        *next = 0;
#endif
    return number;
}

uint32_t __real_nqabelihu_capture_write(uint8_t *bytes, size_t length, size_t offset, uint32_t kind, uint32_t channel, uint32_t word, uint32_t stamp,
                                        const uint32_t *commands, size_t count, size_t *next);
uint32_t __wrap_nqabelihu_capture_write(uint8_t *bytes, size_t length, size_t offset, uint32_t kind, uint32_t channel, uint32_t word, uint32_t stamp,
                                        const uint32_t *commands, size_t count, size_t *next);
uint32_t __wrap_nqabelihu_capture_write(uint8_t *bytes, size_t length, size_t offset, uint32_t kind, uint32_t channel, uint32_t word, uint32_t stamp,
                                        const uint32_t *commands, size_t count, size_t *next)
{
    uint32_t number = __real_nqabelihu_capture_write(bytes, length, offset, kind, channel, word, stamp, commands, count, next);
#if WRONG == 26 /* a refused record's length is written */
    if (number != 0 && length >= 2)
        bytes[0] = 12;
#endif
    return number;
}

uint32_t __real_nqabelihu_capture_refusal(const uint8_t *bytes, size_t length, size_t offset);
uint32_t __wrap_nqabelihu_capture_refusal(const uint8_t *bytes, size_t length, size_t offset);
uint32_t __wrap_nqabelihu_capture_refusal(const uint8_t *bytes, size_t length, size_t offset)
{
    return WRONG == 27 && offset == length ? 20 : __real_nqabelihu_capture_refusal(bytes, length, offset); /* the end is answered 20 */
}
