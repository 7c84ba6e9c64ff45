/*
 * The C interface at its limits: no memory, short memory, too few words for the values, every op number, every address of a register, damaged
 * memory. Lent parts stand against pages that may not be touched, at their end and at their start, since the sanitizers see this program's own
 * accesses and not those of the library. A failed check prints its line and exits with status 1. The parts of the header that stand on these
 * calls follow in kit.c.
 */
#define _DEFAULT_SOURCE
#include <stdio.h>
#include <stdlib.h>
#include <string.h>
#include <sys/mman.h>
#include <unistd.h>

#include "check.h"
#include "nqabelihu_record.h"

unsigned long checks;

uint32_t reset_elsewhere(uint32_t *words, size_t count)
{
    nqabelihu_memory memory = {words, count};
    return nqabelihu_module_reset(memory);
}

enum { COUNT = 3, BEYOND = 64, SENTINEL = 0x5AFE, RANGED = 23 /* the words of a block that have a range */ };

/* ---- lent parts between pages that may not be touched ---- */

enum { AT_END, AT_START };

static uint32_t *between_guards(size_t words, int side)
{
    size_t page = (size_t)sysconf(_SC_PAGESIZE);
    size_t body = (words * sizeof(uint32_t) + page - 1) / page * page;
    unsigned char *map = (unsigned char *)mmap(NULL, page + body + page, PROT_NONE, MAP_PRIVATE | MAP_ANONYMOUS, -1, 0);
    CHECK(map != MAP_FAILED, "no memory");
    CHECK(body == 0 || mprotect(map + page, body, PROT_READ | PROT_WRITE) == 0, "no memory");
    return (uint32_t *)(void *)(side == AT_START ? map + page : map + page + body - words * sizeof(uint32_t));
}

/* ---- random numbers ---- */

static uint32_t seed = 1;

static uint32_t below(uint32_t limit)
{
    seed ^= seed << 13;
    seed ^= seed >> 17;
    seed ^= seed << 5;
    return (seed >> 3) % limit;
}

static uint32_t edge(void)
{
    static const uint32_t edges[] = {0, 1, 2, 3, 4, 5, 127, 128, 254, 255, 256, 511, 512, 1023, 1024, 65535, 65536, 1048575, 1048576, 0x7FFFFFFF, 0xFFFFFFFF};
    return edges[below(sizeof edges / sizeof edges[0])];
}

/* ---- the table of docs/CALLS.md ---- */

/* How many values an op answers beside the number; -1 for an op that is no call. */
static int values_of(uint32_t op)
{
    if (op == 0 || (9 < op && op < 32) || (43 < op && op < 64) || (75 < op && op < 128) || (156 < op && op < 160) || 161 < op)
        return -1;
    if (64 <= op && op <= 75)
        return 1;
    switch (op) {
    case 129:
    case 130:
        return 3;
    case 138:
        return 4;
    case 153:
        return 7;
    case 156:
        return 2;
    case 5:
    case 7:
    case 9:
    case 128:
    case 132:
    case 140:
    case 142:
    case 146:
    case 149:
    case 151:
    case 152:
    case 154:
    case 155:
    case 160:
    case 161:
        return 1;
    default:
        return 0;
    }
}

/* ---- the map of docs/REGISTERS.md ---- */

static int is_access(uint32_t op)
{
    return op == 160 || op == 161;
}

/* What a register is for. */
enum { NO_REGISTER, BOTH_WAYS, ONLY_READ, ONLY_WRITTEN };

static int register_at(uint32_t address)
{
    uint32_t further;
    if (address == 0x1000 || address == 0x1004 || address == 0x1008)
        return ONLY_WRITTEN;
    for (further = 0; further < 12; further++) {
        if (address == 0x0810 + 0x10 * further)
            return ONLY_READ;
        if (address == 0x111C + 0x100 * further || address == 0x1120 + 0x100 * further)
            return BOTH_WAYS;
        if (0x80000 + 0x1000 * further <= address && address <= 0x807FC + 0x1000 * further)
            return BOTH_WAYS;
        if (0x90000 + 0x1000 * further <= address && address <= 0x903FC + 0x1000 * further)
            return BOTH_WAYS;
    }
    return NO_REGISTER;
}

/* What an item is refused with whatever the memory: 42, and of a register 30 to 32; `otherwise` where there is nothing of that. */
static uint32_t refused_or(uint32_t op, uint32_t a, uint32_t otherwise)
{
    if (values_of(op) < 0)
        return NQABELIHU_REFUSED_NO_CALL;
    if (!is_access(op))
        return otherwise;
    if (a % 4 != 0)
        return NQABELIHU_REFUSED_NOT_ALIGNED;
    if (register_at(a) == NO_REGISTER)
        return NQABELIHU_REFUSED_NO_REGISTER;
    if (register_at(a) == (op == 160 ? ONLY_WRITTEN : ONLY_READ))
        return NQABELIHU_REFUSED_WRONG_WAY;
    return otherwise;
}

/* An address on a register, beside one, between two or past the last. */
static uint32_t some_address(void)
{
    static const uint32_t areas[][2] = {{0x111C, 0x100}, {0x1120, 0x100}, {0x0810, 0x10}, {0x80000, 0x1000}, {0x90000, 0x1000}, {0x1000, 4}};
    static const uint32_t beside[] = {0, 0, 0, 0, 4, 0x3FC, 0x400, 0x7FC, 0x800, 1, 2, 0xFFFFFFFC};
    const uint32_t *area = areas[below(sizeof areas / sizeof areas[0])];
    return area[0] + area[1] * below(13) + beside[below(sizeof beside / sizeof beside[0])];
}

/* An item on lent memory, with exactly seven words for the values. */
static uint32_t *values;

static uint32_t item(uint32_t *memory, size_t words, uint32_t op, uint32_t channel, uint32_t a, uint32_t b)
{
    uint32_t number;
    size_t at;
    for (at = 0; at < NQABELIHU_VALUES; at++)
        values[at] = 0xDEADBEEF;
    number = nqabelihu_perform(memory, words, values, NQABELIHU_VALUES, op, channel, a, b);
    /* Zeros behind the answer's values, and beside a refusal everywhere. */
    for (at = number == 0 ? (size_t)(values_of(op) < 0 ? 0 : values_of(op)) : 0; at < NQABELIHU_VALUES; at++)
        CHECK(values[at] == 0, "op %u answered %u with value %u in place %u", (unsigned)op, (unsigned)number, (unsigned)values[at], (unsigned)at);
    return number;
}

/* ---- the tests ---- */

static void sizes(void)
{
    uint32_t count;
    for (count = 1; count <= NQABELIHU_MOST_CHANNELS; count++)
        CHECK(nqabelihu_words(count) == NQABELIHU_WORDS(count), "words of %u channels", (unsigned)count);
    CHECK(nqabelihu_words(0) == 0, "words of 0 channels");
    CHECK(nqabelihu_words(13) == 0, "words of 13 channels");
    CHECK(nqabelihu_words(0x80000001) == 0, "words of 2^31 + 1 channels");
    CHECK(nqabelihu_words(0xFFFFFFFF) == 0, "words of 2^32 - 1 channels");
}

static void labels(void)
{
    uint32_t byte, bit, reversed;
    for (byte = 0; byte < 256; byte++) {
        reversed = 0;
        for (bit = 0; bit < 8; bit++)
            reversed |= (byte >> bit & 1) << (7 - bit);
        CHECK(nqabelihu_label(byte) == reversed, "label of %02x", (unsigned)byte);
        CHECK(nqabelihu_label(byte | 0xFFFFFF00) == reversed, "label of ffffff%02x", (unsigned)byte);
    }
    CHECK(nqabelihu_label(0xA1) == 0205, "label of 000000a1");
}

/* Memory below the module part, null memory among it: short, but for what power-up and no calls answer. */
static void little_memory(void)
{
    uint32_t copy[NQABELIHU_MODULE_WORDS];
    uint32_t op;
    size_t words, at;
    for (words = 0; words < NQABELIHU_MODULE_WORDS; words++) {
        uint32_t *memory = words == 0 ? NULL : between_guards(words, AT_END);
        for (at = 0; at < words; at++)
            copy[at] = memory[at] = edge();
        for (op = 0; op < 400; op++) {
            uint32_t a = is_access(op) ? some_address() : 1;
            CHECK(item(memory, words, op, 1, a, 1) == refused_or(op, a, NQABELIHU_REFUSED_SHORT), "op %u on %u words", (unsigned)op, (unsigned)words);
        }
        CHECK(item(memory, words, 1, 0, 0, 0) == NQABELIHU_REFUSED_RANGE, "power-up of 0 channels on %u words", (unsigned)words);
        CHECK(item(memory, words, 1, 0, 12, 0) == NQABELIHU_REFUSED_SHORT, "power-up of 12 channels on %u words", (unsigned)words);
        CHECK(item(memory, words, 1, 0, 13, 0) == NQABELIHU_REFUSED_RANGE, "power-up of 13 channels on %u words", (unsigned)words);
        CHECK(words == 0 || memcmp(memory, copy, words * sizeof *memory) == 0, "%u words were changed", (unsigned)words);
    }
    /* A dangling pointer with no words is not followed. */
    CHECK(item(between_guards(0, AT_END), 0, 1, 0, 1, 0) == NQABELIHU_REFUSED_SHORT, "power-up on 0 words");
}

/* Memory of one word less than the need, and of exactly the need, at both sides of a guard. */
static void exact_memory(uint32_t count, int side)
{
    size_t need = nqabelihu_words(count), at;
    uint32_t *shorter = between_guards(need - 1, side);
    uint32_t *exact = between_guards(need, side);
    uint32_t *copy = (uint32_t *)malloc(need * sizeof *copy);
    uint32_t op;
    CHECK(copy != NULL, "no memory");

    memset(shorter, 0xFF, (need - 1) * sizeof *shorter);
    CHECK(item(shorter, need - 1, 1, 0, count, 0) == NQABELIHU_REFUSED_SHORT, "power-up of %u channels on one word less", (unsigned)count);
    for (at = 0; at < need - 1; at++)
        CHECK(shorter[at] == 0xFFFFFFFF, "word %u changed", (unsigned)at);

    memset(exact, 0xFF, need * sizeof *exact);
    CHECK(item(exact, need, 1, 0, count, 0) == NQABELIHU_DONE, "power-up of %u channels", (unsigned)count);
    for (at = 0; at < need; at++)
        CHECK(exact[at] != 0xFFFFFFFF, "word %u left by power-up", (unsigned)at);

    /* A module whose last word is not lent. */
    memcpy(copy, exact, need * sizeof *copy);
    memcpy(shorter, exact, (need - 1) * sizeof *shorter);
    for (op = 2; op < 200; op++) {
        uint32_t a = is_access(op) ? some_address() : 1;
        CHECK(item(shorter, need - 1, op, 1, a, 1) == refused_or(op, a, NQABELIHU_REFUSED_SHORT), "op %u on one word less", (unsigned)op);
    }
    CHECK(memcmp(shorter, copy, (need - 1) * sizeof *copy) == 0, "memory of one word less was changed");

    /* Every call on the first and the last channel, refused or done: the guards are not touched. */
    for (op = 2; op < 200; op++) {
        item(exact, need, op, 1, below(2), below(2));
        item(exact, need, op, count, edge(), edge());
    }
    for (at = 0; at < 2000; at++)
        item(exact, need, 160 + below(2), edge(), some_address(), edge());
    free(copy);
}

/* Fewer than seven words for the values: 24, nothing written, whatever the op and the memory. */
static void few_values(void)
{
    size_t need = nqabelihu_words(1), places, at;
    uint32_t *memory = between_guards(need, AT_END);
    uint32_t *copy = (uint32_t *)malloc(need * sizeof *copy);
    uint32_t op;
    CHECK(copy != NULL, "no memory");
    CHECK(item(memory, need, 1, 0, 1, 0) == NQABELIHU_DONE, "power-up");
    CHECK(item(memory, need, NQABELIHU_SETTING_RECEIVER, 1, 1, 0) == NQABELIHU_DONE, "receiver on");
    memcpy(copy, memory, need * sizeof *copy);
    for (places = 0; places < NQABELIHU_VALUES; places++) {
        uint32_t *few = places == 0 ? NULL : between_guards(places, AT_END);
        for (at = 0; at < places; at++)
            few[at] = SENTINEL;
        for (op = 0; op < 200; op++) {
            CHECK(nqabelihu_perform(memory, need, few, places, op, 1, 1, 1) == NQABELIHU_REFUSED_FEW_VALUES, "op %u with %u words for the values",
                  (unsigned)op, (unsigned)places);
            CHECK(nqabelihu_perform(NULL, 0, few, places, op, 1, 1, 1) == NQABELIHU_REFUSED_FEW_VALUES, "op %u with %u words for the values, no memory",
                  (unsigned)op, (unsigned)places);
        }
        for (at = 0; at < places; at++)
            CHECK(few[at] == SENTINEL, "value %u of %u was written", (unsigned)at, (unsigned)places);
    }
    CHECK(memcmp(memory, copy, need * sizeof *copy) == 0, "memory was changed");

    /* More than seven: the others stay. */
    {
        uint32_t *more = between_guards(NQABELIHU_VALUES + 3, AT_END);
        for (at = 0; at < NQABELIHU_VALUES + 3; at++)
            more[at] = SENTINEL;
        CHECK(nqabelihu_perform(memory, need, more, NQABELIHU_VALUES + 3, 153, 1, 0, 0) == NQABELIHU_DONE, "counts");
        for (at = 0; at < NQABELIHU_VALUES + 3; at++)
            CHECK(more[at] == (uint32_t)(at < NQABELIHU_VALUES ? 0 : SENTINEL), "value %u of ten", (unsigned)at);
    }
    free(copy);
}

/* Every op number: a call of the table, or 42 with nothing changed. */
static void every_op(void)
{
    size_t need = nqabelihu_words(COUNT);
    uint32_t *memory = between_guards(need, AT_END);
    uint32_t *copy = (uint32_t *)malloc(need * sizeof *copy);
    uint32_t op, step;
    CHECK(copy != NULL, "no memory");
    CHECK(item(memory, need, 1, 0, COUNT, 0) == NQABELIHU_DONE, "power-up");
    memcpy(copy, memory, need * sizeof *copy);
    for (step = 0; step < 1024 + 32 + 100; step++) {
        op = step < 1024 ? step : step < 1024 + 32 ? 0xFFFFFFFF >> (step - 1024) : 157 + below(0xFFFFFF00);
        CHECK(nqabelihu_values_of(op) == values_of(op), "values of op %u", (unsigned)op);
        if (op != 1 && values_of(op) < 0) {
            CHECK(item(memory, need, op, 1, 1, 1) == NQABELIHU_REFUSED_NO_CALL, "op %u is taken for a call", (unsigned)op);
            CHECK(memcmp(memory, copy, need * sizeof *copy) == 0, "op %u, no call, changed the memory", (unsigned)op);
        } else if (is_access(op)) {
            CHECK(item(memory, need, op, 1, 1, 1) == NQABELIHU_REFUSED_NOT_ALIGNED, "op %u at address 1", (unsigned)op);
        } else {
            CHECK(item(memory, need, op, 1, 1, 1) < 8, "op %u is a call", (unsigned)op);
            CHECK(item(memory, need, 1, 0, COUNT, 0) == NQABELIHU_DONE, "power-up");
        }
    }
    free(copy);
}

/* Every address up to the end of the map, and some behind it, both ways: a register's own refusals come first, also with no memory. */
static void every_address(void)
{
    uint32_t op, address, turn;
    for (op = 160; op <= 161; op++) {
        for (address = 0; address < 0xA0000; address++)
            CHECK(item(NULL, 0, op, 1, address, 1) == refused_or(op, address, NQABELIHU_REFUSED_SHORT), "op %u at %05x", (unsigned)op, (unsigned)address);
        for (turn = 0; turn < 1000; turn++) {
            address = turn < 32 ? 0xFFFFFFFF << turn : 0x100000 * (1 + below(0xFFF)) + some_address() % 0x100000;
            CHECK(item(NULL, 0, op, 1, address, 1) == refused_or(op, address, NQABELIHU_REFUSED_SHORT), "op %u at %08x", (unsigned)op, (unsigned)address);
        }
    }
}

/* Random calls on sound and damaged, whole and short memory: a refusal changes nothing, and words beyond the need are never touched. */
static void random_calls(void)
{
    size_t need = nqabelihu_words(COUNT), whole = need + BEYOND, lent, at;
    uint32_t *memory = between_guards(whole, AT_END);
    uint32_t *before = (uint32_t *)malloc(whole * sizeof *before);
    uint32_t refused = 0, accepted = 0;
    int turn;
    CHECK(before != NULL, "no memory");
    for (at = 0; at < whole; at++)
        memory[at] = SENTINEL;
    CHECK(item(memory, whole, 1, 0, COUNT, 0) == NQABELIHU_DONE, "power-up");
    for (turn = 0; turn < 30000; turn++) {
        uint32_t op = below(4) == 0 ? below(170) : below(6) == 0 ? 160 + below(2) : 128 + below(29);
        uint32_t channel = below(10) == 0 ? edge() : 1 + below(COUNT);
        uint32_t a = below(3) == 0 ? edge() : below(2), b = below(3) == 0 ? edge() : below(2), number, old = 0;
        size_t damaged = whole;
        if (op == 1)
            a = COUNT;
        if (is_access(op))
            a = some_address();
        if (below(8) == 0) {
            /* a number with a range, in the module part or a block */
            damaged = below(2) == 0 ? below(NQABELIHU_MODULE_WORDS) : NQABELIHU_MODULE_WORDS + NQABELIHU_CHANNEL_WORDS * below(COUNT) + below(RANGED);
            old = memory[damaged];
            memory[damaged] = edge();
        }
        lent = below(8) == 0 ? below((uint32_t)whole) : whole;
        memcpy(before, memory, whole * sizeof *before);
        number = item(memory, lent, op, channel, a, b);
        if (number == NQABELIHU_DONE) {
            accepted++;
            CHECK(memcmp(memory + need, before + need, BEYOND * sizeof *before) == 0, "op %u touched words beyond the need", (unsigned)op);
        } else {
            refused++;
            CHECK(memcmp(memory, before, whole * sizeof *before) == 0, "op %u refused with %u changed the memory", (unsigned)op, (unsigned)number);
            CHECK(refused_or(op, a, number) == number && (number < 8 || refused_or(op, a, NQABELIHU_DONE) == number), "op %u answered %u",
                  (unsigned)op, (unsigned)number);
        }
        if (damaged < whole && op != 1)
            memory[damaged] = old;
        /* Damage may have let a call store what the repaired module has no room for: start again now and then. */
        if (below(200) == 0 || (damaged < whole && number == NQABELIHU_DONE))
            CHECK(item(memory, whole, 1, 0, COUNT, 0) == NQABELIHU_DONE, "power-up");
    }
    CHECK(accepted > 5000 && refused > 2000, "%u accepted, %u refused", (unsigned)accepted, (unsigned)refused);
    free(before);
}

/* ---- memory of the old layout ---- */

#include "old_layout.h"

/* Every call but power-up is refused, with 1 at the image's own length and with 2 in memory that would hold the module now. */
static void old_layout(const uint32_t (*image)[2], size_t pairs, uint32_t count)
{
    size_t old = OLD_MODULE_WORDS + count * (size_t)OLD_CHANNEL_WORDS, whole = nqabelihu_words(count) + BEYOND, at;
    uint32_t *own = between_guards(old, AT_END), *larger = between_guards(whole, AT_END);
    uint32_t *before = (uint32_t *)malloc(whole * sizeof *before);
    uint32_t op, turn;
    CHECK(before != NULL, "no memory");
    CHECK(old < nqabelihu_words(count), "the old layout is not the shorter one");
    for (at = 0; at < whole; at++)
        before[at] = at < old ? 0 : SENTINEL;
    for (at = 0; at < pairs; at++)
        before[image[at][0]] = image[at][1];
    memcpy(own, before, old * sizeof *own);
    memcpy(larger, before, whole * sizeof *larger);
    for (op = 2; op < 200; op++)
        for (turn = 0; turn < 4; turn++) {
            uint32_t channel = turn == 0 ? edge() : 1 + below(count), a = is_access(op) ? some_address() : edge(), b = edge();
            CHECK(item(own, old, op, channel, a, b) == refused_or(op, a, NQABELIHU_REFUSED_SHORT), "op %u on old memory of %u channels", (unsigned)op,
                  (unsigned)count);
            CHECK(item(larger, whole, op, channel, a, b) == refused_or(op, a, NQABELIHU_REFUSED_UNSOUND),
                  "op %u on old memory of %u channels, more lent", (unsigned)op, (unsigned)count);
        }
    CHECK(item(own, old, 1, 0, count, 0) == NQABELIHU_REFUSED_SHORT, "power-up of %u channels on old memory", (unsigned)count);
    CHECK(memcmp(own, before, old * sizeof *own) == 0 && memcmp(larger, before, whole * sizeof *larger) == 0, "old memory was changed");
    CHECK(item(larger, whole, 1, 0, count, 0) == NQABELIHU_DONE, "power-up of %u channels on old memory, more lent", (unsigned)count);
    CHECK(item(larger, whole, 5, 0, 0, 0) == NQABELIHU_DONE && values[0] == 0, "stamp after power-up");
    free(before);
}

/* The layout number: no other value is sound, and module reset leaves it. */
static void layout_number(void)
{
    enum { AT = NQABELIHU_MODULE_WORDS - 1, NUMBER = 2 };
    static const uint32_t others[] = {0, 1, 3, 4, 255, 0x80000002, 0xFFFFFFFF};
    size_t need = nqabelihu_words(1), at;
    uint32_t *memory = between_guards(need, AT_END);
    CHECK(item(memory, need, 1, 0, 1, 0) == NQABELIHU_DONE && memory[AT] == NUMBER, "layout number from power-up");
    CHECK(item(memory, need, 2, 0, 0, 0) == NQABELIHU_DONE && memory[AT] == NUMBER, "layout number after a module reset");
    for (at = 0; at < sizeof others / sizeof others[0]; at++) {
        memory[AT] = others[at];
        CHECK(item(memory, need, 5, 0, 0, 0) == NQABELIHU_REFUSED_UNSOUND, "stamp read with layout number %u", (unsigned)others[at]);
        CHECK(item(memory, need, 2, 0, 0, 0) == NQABELIHU_REFUSED_UNSOUND, "module reset with layout number %u", (unsigned)others[at]);
        CHECK(item(memory, need, 146, 1, 0, 0) == NQABELIHU_REFUSED_UNSOUND, "status read with layout number %u", (unsigned)others[at]);
        CHECK(memory[AT] == others[at], "layout number %u was changed", (unsigned)others[at]);
    }
}

/* ---- the header's functions by name against the op numbers of docs/CALLS.md ---- */

static nqabelihu_memory named;
static uint32_t *twin;

/* The same item on a twin of the memory gives the same number, results and words. */
static void same(const char *name, uint32_t number, uint32_t op, uint32_t channel, uint32_t a, uint32_t b, int count, const uint32_t *results)
{
    int at;
    uint32_t expected = item(twin, named.count, op, channel, a, b);
    CHECK(number == expected, "%s answered %u and op %u %u", name, (unsigned)number, (unsigned)op, (unsigned)expected);
    CHECK(count == values_of(op) || values_of(op) < 0, "%s has %d results", name, count);
    for (at = 0; at < count; at++)
        CHECK(results[at] == values[at], "%s, result %d", name, at);
    CHECK(memcmp(named.words, twin, named.count * sizeof *twin) == 0, "%s leaves other words than op %u", name, (unsigned)op);
}

static void by_name(void)
{
    static const uint32_t sound[12] = {1, 1, 0, 1, 1, 1, 1, 2, 9, 7, 3, 99};
    size_t need = nqabelihu_words(COUNT);
    uint32_t r[NQABELIHU_VALUES] = {0}, setting, number;
    nqabelihu_entry e;
    nqabelihu_output o;
    nqabelihu_outcome outcome;
    int turn;
    named.words = (uint32_t *)calloc(need, sizeof(uint32_t));
    named.count = need;
    twin = (uint32_t *)calloc(need, sizeof(uint32_t));
    CHECK(named.words != NULL && twin != NULL, "no memory");

    same("power_up", nqabelihu_power_up(named, COUNT), 1, 0, COUNT, 0, 0, r);
    for (setting = 0; setting < NQABELIHU_SETTINGS; setting++) {
        nqabelihu_setting s = (nqabelihu_setting)(NQABELIHU_SETTING_RECEIVER + setting);
        same("write_setting", nqabelihu_write_setting(named, 2, s, sound[setting]), 32 + setting, 2, sound[setting], 0, 0, r);
        same("read_setting", nqabelihu_read_setting(named, 2, s, r), 64 + setting, 2, 0, 0, 1, r);
    }
    /* Any other number is no call: that of a channel, of an op that reads a setting, and those at both ends. */
    for (setting = 0; setting < 100; setting = setting == 31 ? 44 : setting + 1) {
        same("write_setting", nqabelihu_write_setting(named, 2, (nqabelihu_setting)setting, 1), 0, 2, 1, 0, 0, r);
        same("read_setting", nqabelihu_read_setting(named, 2, (nqabelihu_setting)setting, r), 0, 2, 0, 0, 1, r);
    }
    same("write_setting", nqabelihu_write_setting(named, 1, NQABELIHU_SETTING_RECEIVER, 1), 32, 1, 1, 0, 0, r);
    same("write_setting", nqabelihu_write_setting(named, 1, NQABELIHU_SETTING_STAMPS, 1), 36, 1, 1, 0, 0, r);
    same("write_resolution", nqabelihu_write_resolution(named, 3), 6, 0, 3, 0, 0, r);
    same("read_resolution", nqabelihu_read_resolution(named, r), 7, 0, 0, 0, 1, r);
    same("write_threshold", nqabelihu_write_threshold(named, 1), 8, 0, 1, 0, 0, r);
    same("read_threshold", nqabelihu_read_threshold(named, r), 9, 0, 0, 0, 1, r);
    for (turn = 0; turn < 3; turn++) {
        uint32_t word = 0x600000D4 + (uint32_t)turn;
        same("advance_stamp", nqabelihu_advance_stamp(named, 50), 3, 0, 50, 0, 0, r);
        same("read_stamp", nqabelihu_read_stamp(named, r), 5, 0, 0, 0, 1, r);
        same("write_match", nqabelihu_write_match(named, 2, nqabelihu_at_word(word), 1), 131, 2, word % 1024, 1, 0, r);
        same("read_match", nqabelihu_read_match(named, 2, nqabelihu_at_word(word), r), 132, 2, word % 1024, 0, 1, r);
        number = nqabelihu_arrive(named, 1, word, &outcome);
        same("arrive", number, 128, 1, word, 0, 1, (uint32_t[]){outcome});
        number = nqabelihu_arrive(named, 2, word, &outcome);
        same("arrive", number, 128, 2, word, 0, 1, (uint32_t[]){outcome});
        number = nqabelihu_read_mailbox(named, 2, nqabelihu_at_word(word), &e);
        same("read_mailbox", number, 130, 2, word % 1024, 0, 3, (uint32_t[]){e.status, e.word, e.stamp});
        same("write_transmit_fifo", nqabelihu_write_transmit_fifo(named, 1, word), 133, 1, word, 0, 0, r);
        same("read_transmit_level", nqabelihu_read_transmit_level(named, 1, r), 155, 1, 0, 0, 1, r);
        same("write_schedule", nqabelihu_write_schedule(named, 2, 0, NQABELIHU_COMMAND_MESSAGE + 5), 139, 2, 0, 0x1005, 0, r);
        same("write_schedule", nqabelihu_write_schedule(named, 2, 1, NQABELIHU_COMMAND_GAP + 6), 139, 2, 1, 0x2006, 0, r);
        same("read_schedule", nqabelihu_read_schedule(named, 2, 1, r), 140, 2, 1, 0, 1, r);
        same("write_message", nqabelihu_write_message(named, 2, 5, word), 141, 2, 5, word, 0, r);
        same("write_message", nqabelihu_write_message(named, 2, 6, 77), 141, 2, 6, 77, 0, r);
        same("read_message", nqabelihu_read_message(named, 2, 5, r), 142, 2, 5, 0, 1, r);
        same("write_async", nqabelihu_write_async(named, 2, word), 134, 2, word, 0, 0, r);
        same("read_async", nqabelihu_read_async(named, 2, &r[0], &r[1]), 156, 2, 0, 0, 2, r);
        same("write_setting", nqabelihu_write_setting(named, 1, NQABELIHU_SETTING_TRANSMITTER, 1), 33, 1, 1, 0, 0, r);
        same("trigger", nqabelihu_trigger(named, 2), 135, 2, 0, 0, 0, r);
        number = nqabelihu_step(named, 2, &o);
        same("step", number, 138, 2, 0, 0, 4, (uint32_t[]){o.form, o.x, o.y, o.z});
        same("stop", nqabelihu_stop(named, 2), 137, 2, 0, 0, 0, r);
        same("trigger", nqabelihu_trigger(named, 2), 135, 2, 0, 0, 0, r);
        number = nqabelihu_step(named, 2, &o);
        same("step", number, 138, 2, 0, 0, 4, (uint32_t[]){o.form, o.x, o.y, o.z});
        same("pause", nqabelihu_pause(named, 2), 136, 2, 0, 0, 0, r);
        same("trigger", nqabelihu_trigger(named, 2), 135, 2, 0, 0, 0, r);
        number = nqabelihu_step(named, 2, &o);
        same("step", number, 138, 2, 0, 0, 4, (uint32_t[]){o.form, o.x, o.y, o.z});
        number = nqabelihu_step(named, 1, &o);
        same("step", number, 138, 1, 0, 0, 4, (uint32_t[]){o.form, o.x, o.y, o.z});
        same("sample", nqabelihu_sample(named, 1, 1), 143, 1, 1, 0, 0, r);
        same("write_enable", nqabelihu_write_enable(named, 1, 64), 148, 1, 64, 0, 0, r);
        same("read_enable", nqabelihu_read_enable(named, 1, r), 149, 1, 0, 0, 1, r);
        same("read_pending", nqabelihu_read_pending(named, 1, r), 152, 1, 0, 0, 1, r);
        same("write_level_mask", nqabelihu_write_level_mask(named, 1, 12), 150, 1, 12, 0, 0, r);
        same("read_level_mask", nqabelihu_read_level_mask(named, 1, r), 151, 1, 0, 0, 1, r);
        same("read_status", nqabelihu_read_status(named, 1, r), 146, 1, 0, 0, 1, r);
        same("read_receive_level", nqabelihu_read_receive_level(named, 1, r), 154, 1, 0, 0, 1, r);
        same("write_register", nqabelihu_write_register(named, 0x111C, 9 + (uint32_t)turn, r), 161, 0, 0x111C, 9 + (uint32_t)turn, 1, r);
        same("read_register", nqabelihu_read_register(named, 0x111C, r), 160, 0, 0x111C, 0, 1, r);
        same("write_register", nqabelihu_write_register(named, 0x91014, word, r), 161, 0, 0x91014, word, 1, r);
        same("read_register", nqabelihu_read_register(named, 0x91014, r), 160, 0, 0x91014, 0, 1, r);
        same("read_register", nqabelihu_read_register(named, 0x0810, r), 160, 0, 0x0810, 0, 1, r);
        same("write_register", nqabelihu_write_register(named, 0x1000, 0xFFF, r), 161, 0, 0x1000, 0xFFF, 1, r);
        same("write_register", nqabelihu_write_register(named, 0x1004, 2, r), 161, 0, 0x1004, 2, 1, r);
        same("write_register", nqabelihu_write_register(named, 0x0810, 2, r), 161, 0, 0x0810, 2, 1, r);
    }
    number = nqabelihu_read_receive_fifo(named, 1, &e);
    same("read_receive_fifo", number, 129, 1, 0, 0, 3, (uint32_t[]){e.status, e.word, e.stamp});
    CHECK(e.word == 0x600000D4 && e.stamp == 50, "the oldest entry");
    same("clear_latch", nqabelihu_clear_latch(named, 1, 127), 147, 1, 127, 0, 0, r);
    same("initiate_test", nqabelihu_initiate_test(named, 1, 1), 145, 1, 1, 0, 0, r);
    same("reset_test", nqabelihu_reset_test(named, 1), 144, 1, 0, 0, 0, r);
    same("zero_stamp", nqabelihu_zero_stamp(named), 4, 0, 0, 0, 0, r);
    same("module_reset", nqabelihu_module_reset(named), 2, 0, 0, 0, 0, r);
    same("read_status", nqabelihu_read_status(named, 4, r), 146, 4, 0, 0, 1, r);
    free(named.words);
    free(twin);
}

/* ---- what the header's constants mean ---- */

static nqabelihu_memory fresh(uint32_t *words)
{
    nqabelihu_memory memory;
    memory.words = words;
    memory.count = NQABELIHU_WORDS(COUNT);
    CHECK(nqabelihu_power_up(memory, COUNT) == NQABELIHU_DONE, "power-up");
    return memory;
}

#define DO(call) CHECK((call) == NQABELIHU_DONE, "%s", #call)

static nqabelihu_outcome arrives(nqabelihu_memory memory, uint32_t channel, uint32_t word)
{
    nqabelihu_outcome outcome;
    DO(nqabelihu_arrive(memory, channel, word, &outcome));
    return outcome;
}

static nqabelihu_output steps(nqabelihu_memory memory, uint32_t channel)
{
    nqabelihu_output output;
    DO(nqabelihu_step(memory, channel, &output));
    return output;
}

/* The latched conditions; they are then cleared. */
static uint32_t latched(nqabelihu_memory memory, uint32_t channel)
{
    uint32_t status;
    DO(nqabelihu_read_status(memory, channel, &status));
    DO(nqabelihu_clear_latch(memory, channel, NQABELIHU_ALL_CONDITIONS));
    return status;
}

static void answers(nqabelihu_memory m)
{
    nqabelihu_memory less = m;
    nqabelihu_entry entry;
    uint32_t at, old = m.words[2];
    less.count--;
    CHECK(nqabelihu_trigger(less, 1) == NQABELIHU_REFUSED_SHORT, "short");
    m.words[2] = 4;
    CHECK(nqabelihu_trigger(m, 1) == NQABELIHU_REFUSED_UNSOUND, "unsound");
    m.words[2] = old;
    CHECK(nqabelihu_trigger(m, COUNT + 1) == NQABELIHU_REFUSED_CHANNEL, "channel");
    CHECK(nqabelihu_write_setting(m, 1, NQABELIHU_SETTING_RATE, 3) == NQABELIHU_REFUSED_RANGE, "range");
    CHECK(nqabelihu_write_match(m, 1, (nqabelihu_index){NQABELIHU_MAILBOXES}, 1) == NQABELIHU_REFUSED_RANGE, "range");
    DO(nqabelihu_write_match(m, 1, (nqabelihu_index){NQABELIHU_MAILBOXES - 1}, 1));
    CHECK(nqabelihu_write_message(m, 1, NQABELIHU_MESSAGE_WORDS, 1) == NQABELIHU_REFUSED_RANGE, "range");
    DO(nqabelihu_write_message(m, 1, NQABELIHU_MESSAGE_WORDS - 1, 1));
    CHECK(nqabelihu_write_schedule(m, 1, NQABELIHU_SCHEDULE_WORDS, 1) == NQABELIHU_REFUSED_RANGE, "range");
    DO(nqabelihu_write_schedule(m, 1, NQABELIHU_SCHEDULE_WORDS - 1, 1));
    CHECK(nqabelihu_trigger(m, 1) == NQABELIHU_REFUSED_MODE, "mode");
    for (at = 0; at < NQABELIHU_FIFO_ENTRIES; at++)
        DO(nqabelihu_write_transmit_fifo(m, 1, at));
    CHECK(nqabelihu_write_transmit_fifo(m, 1, at) == NQABELIHU_REFUSED_FULL, "full");
    CHECK(nqabelihu_read_receive_fifo(m, 1, &entry) == NQABELIHU_REFUSED_EMPTY, "empty");
    CHECK(nqabelihu_read_setting(m, 1, (nqabelihu_setting)1, &at) == NQABELIHU_REFUSED_NO_CALL, "no call");
}

static void receiving(nqabelihu_memory m)
{
    nqabelihu_entry entry;
    CHECK(arrives(m, 1, 1) == NQABELIHU_OUTCOME_IGNORED, "ignored");
    DO(nqabelihu_write_setting(m, 1, NQABELIHU_SETTING_RECEIVER, 1));
    DO(nqabelihu_write_setting(m, 1, NQABELIHU_SETTING_MATCH, 1));
    CHECK(arrives(m, 1, 1) == NQABELIHU_OUTCOME_FILTERED, "filtered");
    DO(nqabelihu_write_setting(m, 1, NQABELIHU_SETTING_MATCH, 0));
    DO(nqabelihu_write_setting(m, 1, NQABELIHU_SETTING_RECEIVE_SIZE, 3));
    DO(nqabelihu_write_setting(m, 1, NQABELIHU_SETTING_ALMOST_FULL, 2));
    CHECK(arrives(m, 1, 1) == NQABELIHU_OUTCOME_APPENDED && latched(m, 1) == 0, "appended");
    CHECK(arrives(m, 1, 2) == NQABELIHU_OUTCOME_APPENDED && latched(m, 1) == NQABELIHU_CONDITION_ALMOST_FULL, "almost full");
    CHECK(arrives(m, 1, 3) == NQABELIHU_OUTCOME_APPENDED, "appended");
    CHECK(latched(m, 1) == NQABELIHU_CONDITION_FULL + NQABELIHU_CONDITION_PARITY_ERROR, "full, parity error");
    CHECK(arrives(m, 1, 4) == NQABELIHU_OUTCOME_DROPPED, "dropped");
    DO(nqabelihu_write_setting(m, 1, NQABELIHU_SETTING_FIFO_KIND, NQABELIHU_FIFO_KIND_CIRCULAR));
    CHECK(arrives(m, 1, 4) == NQABELIHU_OUTCOME_OVERWRITING, "overwriting");
    DO(nqabelihu_write_setting(m, 1, NQABELIHU_SETTING_FIFO_KIND, NQABELIHU_FIFO_KIND_BOUNDED));
    CHECK(arrives(m, 1, 4) == NQABELIHU_OUTCOME_DROPPED, "dropped");
    DO(nqabelihu_read_receive_fifo(m, 1, &entry));
    CHECK(entry.status == 0 && entry.word == 2, "oldest entry");
    DO(nqabelihu_read_receive_fifo(m, 1, &entry));
    CHECK(entry.status == NQABELIHU_ENTRY_PARITY_ERROR && entry.word == 3 && entry.stamp == 0, "entry with a parity error");
    /* Parity off, stamps on, mailbox mode. */
    DO(nqabelihu_advance_stamp(m, 7));
    DO(nqabelihu_write_setting(m, 1, NQABELIHU_SETTING_PARITY, 0));
    DO(nqabelihu_write_setting(m, 1, NQABELIHU_SETTING_STAMPS, 1));
    DO(nqabelihu_write_setting(m, 1, NQABELIHU_SETTING_RECEIVE_MODE, NQABELIHU_RECEIVE_MODE_MAILBOX));
    CHECK(arrives(m, 1, 3) == NQABELIHU_OUTCOME_APPENDED, "appended");
    DO(nqabelihu_read_mailbox(m, 1, nqabelihu_at_word(3), &entry));
    CHECK(entry.status == NQABELIHU_ENTRY_NEW && entry.word == 3 && entry.stamp == 7, "new mailbox");
    DO(nqabelihu_write_setting(m, 1, NQABELIHU_SETTING_RECEIVE_MODE, NQABELIHU_RECEIVE_MODE_FIFO));
    CHECK(nqabelihu_read_receive_fifo(m, 1, &entry) == NQABELIHU_REFUSED_EMPTY, "cleared by the change of mode");
}

/* A mailbox, read: its status, word and stamp. */
static void is_mailbox(nqabelihu_memory memory, uint32_t index, uint32_t status, uint32_t word, uint32_t stamp, int line)
{
    nqabelihu_entry entry;
    DO(nqabelihu_read_mailbox(memory, 2, (nqabelihu_index){index}, &entry));
    CHECK(entry.status == status && entry.word == word && entry.stamp == stamp, "mailbox of line %d: %u %u %u", line, (unsigned)entry.status,
          (unsigned)entry.word, (unsigned)entry.stamp);
}

#define MAILBOX(index, status, word, stamp) is_mailbox(m, index, status, word, stamp, __LINE__)
#define ARRIVES(word, outcome) CHECK(arrives(m, 2, word) == NQABELIHU_OUTCOME_##outcome, "arrival of line %d", __LINE__)

/* The list of indices: one is appended only where its mailbox is not new. Of the words, 0x401 and 3 are parity errors. */
static void listing(nqabelihu_memory m)
{
    nqabelihu_counts c;
    nqabelihu_entry entry;
    uint32_t level;
    DO(nqabelihu_write_setting(m, 2, NQABELIHU_SETTING_RECEIVER, 1));
    DO(nqabelihu_write_setting(m, 2, NQABELIHU_SETTING_STAMPS, 1));
    DO(nqabelihu_write_setting(m, 2, NQABELIHU_SETTING_RECEIVE_MODE, NQABELIHU_RECEIVE_MODE_MAILBOX));
    DO(nqabelihu_write_setting(m, 2, NQABELIHU_SETTING_RECEIVE_SIZE, 2));
    DO(nqabelihu_advance_stamp(m, 7));
    ARRIVES(1, APPENDED);
    DO(nqabelihu_advance_stamp(m, 1));
    latched(m, 2);
    /* the newer word, in error, and its stamp; the list stays */
    ARRIVES(0x401, ALREADY_LISTED);
    CHECK(latched(m, 2) == NQABELIHU_CONDITION_PARITY_ERROR, "parity error of a word already listed");
    DO(nqabelihu_read_receive_level(m, 2, &level));
    CHECK(level == 1, "%u indices", (unsigned)level);
    MAILBOX(1, NQABELIHU_ENTRY_NEW + NQABELIHU_ENTRY_PARITY_ERROR, 0x401, 8);
    MAILBOX(1, NQABELIHU_ENTRY_PARITY_ERROR, 0x401, 8);
    /* read, it is appended again, while the list still has its index */
    ARRIVES(0xC01, APPENDED);
    /* full and bounded: lost, its mailbox has the word with no mark, and so the next is lost as well; one already listed is not */
    ARRIVES(3, DROPPED);
    ARRIVES(2, DROPPED);
    ARRIVES(1, ALREADY_LISTED);
    ARRIVES(3, DROPPED);
    MAILBOX(2, 0, 2, 8);
    MAILBOX(3, NQABELIHU_ENTRY_PARITY_ERROR, 3, 8);
    /* full and circular: the mailbox of the oldest, 1, loses its mark */
    DO(nqabelihu_write_setting(m, 2, NQABELIHU_SETTING_FIFO_KIND, NQABELIHU_FIFO_KIND_CIRCULAR));
    ARRIVES(2, OVERWRITING);
    ARRIVES(2, ALREADY_LISTED);
    MAILBOX(1, 0, 1, 8);
    /* one whose own index is the oldest: its mark is taken, and then set */
    ARRIVES(1, OVERWRITING);
    MAILBOX(2, NQABELIHU_ENTRY_NEW, 2, 8);
    ARRIVES(2, OVERWRITING);
    MAILBOX(2, NQABELIHU_ENTRY_NEW, 2, 8);
    MAILBOX(1, NQABELIHU_ENTRY_NEW, 1, 8);
    ARRIVES(1, OVERWRITING);
    MAILBOX(1, NQABELIHU_ENTRY_NEW, 1, 8);
    MAILBOX(2, 0, 2, 8);
    /* taken from the list and its mailbox not read: already listed, though the list is empty */
    ARRIVES(3, OVERWRITING);
    DO(nqabelihu_read_receive_fifo(m, 2, &entry));
    CHECK(entry.status == 0 && entry.word == 1 && entry.stamp == 0, "index of the list");
    DO(nqabelihu_read_receive_fifo(m, 2, &entry));
    CHECK(entry.word == 3, "the newest index");
    ARRIVES(3, ALREADY_LISTED);
    CHECK(nqabelihu_read_receive_fifo(m, 2, &entry) == NQABELIHU_REFUSED_EMPTY, "an empty list");
    MAILBOX(3, NQABELIHU_ENTRY_NEW + NQABELIHU_ENTRY_PARITY_ERROR, 3, 8);
    /* cleared by a test, a change of mode and a reset: each entry's mailbox loses its mark, and those of no entry keep theirs */
    ARRIVES(1, APPENDED);
    DO(nqabelihu_read_receive_fifo(m, 2, &entry));
    ARRIVES(3, APPENDED);
    ARRIVES(2, APPENDED);
    DO(nqabelihu_initiate_test(m, 2, 0));
    MAILBOX(3, NQABELIHU_ENTRY_PARITY_ERROR, 3, 8);
    MAILBOX(2, 0, 2, 8);
    MAILBOX(1, NQABELIHU_ENTRY_NEW, 1, 8);
    ARRIVES(1, APPENDED);
    DO(nqabelihu_write_setting(m, 2, NQABELIHU_SETTING_RECEIVE_MODE, NQABELIHU_RECEIVE_MODE_MAILBOX));
    ARRIVES(1, ALREADY_LISTED);
    DO(nqabelihu_write_setting(m, 2, NQABELIHU_SETTING_RECEIVE_MODE, NQABELIHU_RECEIVE_MODE_FIFO));
    ARRIVES(1, APPENDED);
    /* in FIFO mode an entry has no mailbox: clearing the word 3 leaves the mark of mailbox 3 */
    DO(nqabelihu_write_setting(m, 2, NQABELIHU_SETTING_RECEIVE_MODE, NQABELIHU_RECEIVE_MODE_MAILBOX));
    MAILBOX(1, 0, 1, 8);
    ARRIVES(3, APPENDED);
    DO(nqabelihu_read_receive_fifo(m, 2, &entry));
    DO(nqabelihu_write_setting(m, 2, NQABELIHU_SETTING_RECEIVE_MODE, NQABELIHU_RECEIVE_MODE_FIFO));
    ARRIVES(3, APPENDED);
    DO(nqabelihu_initiate_test(m, 2, 0));
    MAILBOX(3, NQABELIHU_ENTRY_NEW + NQABELIHU_ENTRY_PARITY_ERROR, 3, 8);
    DO(nqabelihu_read_counts(m, 2, &c));
    CHECK(c.receive_accepted == c.receive_read + c.receive_cleared + c.receive_overwritten && c.receive_overwritten == 5, "fates of indices");
}

static void is_output(nqabelihu_output o, uint32_t form, uint32_t x, uint32_t y, uint32_t z, int line)
{
    CHECK(o.form == form && o.x == x && o.y == y && o.z == z, "output of line %d: %u %u %u %u", line, (unsigned)o.form, (unsigned)o.x,
          (unsigned)o.y, (unsigned)o.z);
}

#define STEP(form, x, y, z) is_output(steps(m, 2), form, x, y, z, __LINE__)

static void transmitting(nqabelihu_memory m)
{
    static const uint32_t commands[] = {
        NQABELIHU_COMMAND_MESSAGE + 1, NQABELIHU_COMMAND_FIXED_GAP + 2, NQABELIHU_COMMAND_GAP + 2, NQABELIHU_COMMAND_GAP + 2,
        NQABELIHU_COMMAND_PAUSE,       NQABELIHU_COMMAND_INTERRUPT,     NQABELIHU_COMMAND_JUMP + 8, 0x7000,
        NQABELIHU_COMMAND_STOP};
    uint32_t at;
    DO(nqabelihu_write_setting(m, 2, NQABELIHU_SETTING_ALMOST_EMPTY, 1));
    DO(nqabelihu_write_setting(m, 2, NQABELIHU_SETTING_RATE, 9));
    DO(nqabelihu_write_transmit_fifo(m, 2, 1));
    DO(nqabelihu_write_transmit_fifo(m, 2, 2));
    DO(nqabelihu_write_transmit_fifo(m, 2, 3));
    STEP(NQABELIHU_FORM_QUIET, 0, 0, 0);
    DO(nqabelihu_write_setting(m, 2, NQABELIHU_SETTING_TRANSMITTER, 1));
    latched(m, 2);
    STEP(NQABELIHU_FORM_FIFO_WORD, 1, 9, 0);
    CHECK(latched(m, 2) == 0, "two words left");
    DO(nqabelihu_write_setting(m, 2, NQABELIHU_SETTING_TRANSMIT_MODE, NQABELIHU_TRANSMIT_MODE_TRIGGERED));
    STEP(NQABELIHU_FORM_QUIET, 0, 0, 0);
    DO(nqabelihu_trigger(m, 2));
    STEP(NQABELIHU_FORM_FIFO_WORD, 2, 9, 0);
    CHECK(latched(m, 2) == NQABELIHU_CONDITION_ALMOST_EMPTY, "almost empty");
    DO(nqabelihu_stop(m, 2));
    DO(nqabelihu_write_setting(m, 2, NQABELIHU_SETTING_TRANSMIT_MODE, NQABELIHU_TRANSMIT_MODE_IMMEDIATE));
    STEP(NQABELIHU_FORM_FIFO_WORD, 0x80000003, 9, 0);
    CHECK(latched(m, 2) == NQABELIHU_CONDITION_EMPTY, "empty");

    for (at = 0; at < 9; at++)
        DO(nqabelihu_write_schedule(m, 2, at, commands[at]));
    DO(nqabelihu_write_message(m, 2, 1, 0x100));
    DO(nqabelihu_write_message(m, 2, 2, 50));
    DO(nqabelihu_write_setting(m, 2, NQABELIHU_SETTING_TRANSMIT_MODE, NQABELIHU_TRANSMIT_MODE_SCHEDULED));
    DO(nqabelihu_write_async(m, 2, 0x200));
    DO(nqabelihu_trigger(m, 2));
    STEP(NQABELIHU_FORM_MESSAGE, 0x100, 0, 0);
    STEP(NQABELIHU_FORM_NULL_TIME, 50, 0, 0);
    STEP(NQABELIHU_FORM_ASYNC, 4, 0x200, 14);
    STEP(NQABELIHU_FORM_NULL_TIME, 50, 0, 0);
    STEP(NQABELIHU_FORM_QUIET, 0, 0, 0);
    STEP(NQABELIHU_FORM_QUIET, 0, 0, 0);
    CHECK(latched(m, 2) == 0, "paused before the interrupt");
    DO(nqabelihu_trigger(m, 2));
    STEP(NQABELIHU_FORM_QUIET, 0, 0, 0);
    CHECK(latched(m, 2) == NQABELIHU_CONDITION_INTERRUPT, "interrupt");
    STEP(NQABELIHU_FORM_QUIET, 0, 0, 0); /* the jump, over the reserved command */
    STEP(NQABELIHU_FORM_QUIET, 0, 0, 0); /* the stop */
    STEP(NQABELIHU_FORM_QUIET, 0, 0, 0);
    DO(nqabelihu_write_schedule(m, 2, 0, 0x7000));
    DO(nqabelihu_write_schedule(m, 2, 1, NQABELIHU_COMMAND_JUMP + 7));
    DO(nqabelihu_write_schedule(m, 2, 0, NQABELIHU_COMMAND_JUMP + 1));
    DO(nqabelihu_trigger(m, 2));
    STEP(NQABELIHU_FORM_QUIET, 0, 0, 0);
    STEP(NQABELIHU_FORM_QUIET, 0, 0, 0);
    STEP(NQABELIHU_FORM_RESERVED, 7, 0, 0);

    /* two messages in a row, and a stop and a trigger between two */
    DO(nqabelihu_write_schedule(m, 2, 0, NQABELIHU_COMMAND_MESSAGE + 1));
    DO(nqabelihu_write_schedule(m, 2, 1, NQABELIHU_COMMAND_MESSAGE + 1));
    DO(nqabelihu_trigger(m, 2));
    STEP(NQABELIHU_FORM_MESSAGE, 0x100, 0, 0);
    STEP(NQABELIHU_FORM_NULL_MESSAGE, 4, 0x100, 0);
    DO(nqabelihu_stop(m, 2));
    DO(nqabelihu_trigger(m, 2));
    STEP(NQABELIHU_FORM_NULL_MESSAGE, 4, 0x100, 0);
}

/* Every count has a number of its own. */
static void fates(nqabelihu_memory m)
{
    nqabelihu_counts c;
    nqabelihu_entry entry;
    uint32_t at;
    DO(nqabelihu_write_setting(m, 3, NQABELIHU_SETTING_RECEIVER, 1));
    DO(nqabelihu_write_setting(m, 3, NQABELIHU_SETTING_TRANSMITTER, 1));
    DO(nqabelihu_write_setting(m, 3, NQABELIHU_SETTING_FIFO_KIND, NQABELIHU_FIFO_KIND_CIRCULAR));
    DO(nqabelihu_write_setting(m, 3, NQABELIHU_SETTING_RECEIVE_SIZE, 4));
    for (at = 0; at < 9; at++)
        arrives(m, 3, at);
    DO(nqabelihu_read_receive_fifo(m, 3, &entry));
    CHECK(entry.word == 5, "the oldest that is left");
    for (at = 0; at < 6; at++)
        DO(nqabelihu_write_transmit_fifo(m, 3, at));
    steps(m, 3);
    steps(m, 3);
    latched(m, 3);
    DO(nqabelihu_initiate_test(m, 3, 0));
    DO(nqabelihu_read_counts(m, 3, &c));
    CHECK(c.receive_accepted == 9 && c.receive_read == 1 && c.receive_cleared == 3 && c.receive_overwritten == 5, "fates of the receive FIFO");
    CHECK(c.transmit_accepted == 6 && c.transmit_sent == 2 && c.transmit_cleared == 4, "fates of the transmit FIFO");
    latched(m, 3);
    DO(nqabelihu_write_threshold(m, 1));
    DO(nqabelihu_sample(m, 3, 1));
    CHECK(latched(m, 3) == NQABELIHU_CONDITION_FAULT, "fault");
}

/* The description's example: "32,768 failures with threshold 65,535: fault on the last." */
static void many_failures(nqabelihu_memory m)
{
    uint32_t failures;
    DO(nqabelihu_write_threshold(m, 65535));
    for (failures = 1; failures < 32768; failures++)
        DO(nqabelihu_sample(m, 1, 1));
    CHECK(latched(m, 1) == 0, "no fault after 32,767 failures");
    DO(nqabelihu_sample(m, 1, 1));
    CHECK(latched(m, 1) == NQABELIHU_CONDITION_FAULT, "fault on failure 32,768");
}

static void meanings(void)
{
    uint32_t *words = between_guards(NQABELIHU_WORDS(COUNT), AT_END);
    answers(fresh(words));
    receiving(fresh(words));
    listing(fresh(words));
    transmitting(fresh(words));
    fates(fresh(words));
    many_failures(fresh(words));
}

/* ---- readings ---- */

/* One reading: its refusal, kind, value and whole number. */
static void is_read(const uint32_t *list, size_t numbers, uint32_t word, uint32_t number, uint32_t kind, double units, int32_t whole)
{
    uint32_t given = 99;
    double value = 99;
    uint32_t got = nqabelihu_read_word(list, numbers, word, &given, &value);
    CHECK(got == number && given == kind && value == units, "reading %08x: %u %u %f", (unsigned)word, (unsigned)got, (unsigned)given, value);
    CHECK(nqabelihu_whole_number(list, numbers, word) == whole, "whole number of %08x", (unsigned)word);
}

static void is_encoded(const uint32_t *list, size_t numbers, uint32_t word, int32_t value, uint32_t number, uint32_t encoded)
{
    uint32_t given = 99;
    uint32_t got = nqabelihu_encode_word(list, numbers, word, value, &given);
    CHECK(got == number && given == encoded, "encoding %ld into %08x: %u %08x", (long)value, (unsigned)word, (unsigned)got, (unsigned)given);
}

/* The worked examples of docs/READINGS.md, and each refusal. */
static void word_readings(void)
{
    enum { NUMBERS = 12 };
    static const uint32_t entries[NUMBERS] = {0203, NQABELIHU_READING_BINARY, 4, 0310, NQABELIHU_READING_DECIMAL, 0, 0270, NQABELIHU_READING_BIT_FIELD, 0, 0203, NQABELIHU_READING_DECIMAL, 0};
    uint32_t *list = between_guards(NUMBERS, AT_END);
    uint32_t at;
    for (at = 0; at < NUMBERS; at++)
        list[at] = entries[at];

    is_read(list, NUMBERS, 0x694708C1, 0, NQABELIHU_READING_BINARY, 38000.5, 152002);
    is_read(list, NUMBERS, 0x7FC17CC1, 0, NQABELIHU_READING_BINARY, -1000.25, -4001);
    is_read(list, NUMBERS, 0x1E666413, 0, NQABELIHU_READING_DECIMAL, 79999, 79999);
    is_read(list, NUMBERS, 0x7E666413, 0, NQABELIHU_READING_DECIMAL, -79999, -79999);
    is_read(list, NUMBERS, 0x1400141D, 0, NQABELIHU_READING_BIT_FIELD, 327685, 327685);
    is_encoded(list, NUMBERS, 0x600000C1, 152002, 0, 0x694708C1);
    is_encoded(list, NUMBERS, 0xFFFFFFC1, -4001, 0, 0xFFC17FC1);
    is_encoded(list, NUMBERS, 0x80000013, -79999, 0, 0xFE666413);
    is_encoded(list, NUMBERS, 0x7E666413, 0, 0, 0x00000013);

    is_read(list, NUMBERS, 0x00000093, NQABELIHU_REFUSED_NOT_LISTED, 0, 0, 0);
    is_read(list, NUMBERS, 0x20000013, NQABELIHU_REFUSED_NO_SIGN, 0, 0, 0);
    is_read(list, NUMBERS, 0x00002813, NQABELIHU_REFUSED_NO_DIGIT, 0, 0, 0);
    is_read(NULL, 0, 0x694708C1, NQABELIHU_REFUSED_NOT_LISTED, 0, 0, 0);
    is_encoded(list, NUMBERS, 0x0000001D, 0, NQABELIHU_REFUSED_NOT_LISTED, 0);
    is_encoded(list, NUMBERS, 0x000000C1, 262144, NQABELIHU_REFUSED_VALUE, 0);
    is_encoded(list, NUMBERS, 0x000000C1, INT32_MIN, NQABELIHU_REFUSED_VALUE, 0);
    is_encoded(list, NUMBERS, 0x00000013, 80000, NQABELIHU_REFUSED_VALUE, 0);

    /* 60: an entry cut short, before the one that counts is looked for; and one wrong number in the last entry */
    is_read(list, NUMBERS - 1, 0x694708C1, NQABELIHU_REFUSED_WRONG_LIST, 0, 0, 0);
    is_encoded(list, NUMBERS - 2, 0x694708C1, 0, NQABELIHU_REFUSED_WRONG_LIST, 0);
    list[NUMBERS - 3] = 256;
    is_read(list, NUMBERS, 0x694708C1, NQABELIHU_REFUSED_WRONG_LIST, 0, 0, 0);
    list[NUMBERS - 3] = 255;
    list[NUMBERS - 2] = 4;
    is_read(list, NUMBERS, 0x694708C1, NQABELIHU_REFUSED_WRONG_LIST, 0, 0, 0);
    list[NUMBERS - 2] = NQABELIHU_READING_BINARY;
    list[NUMBERS - 1] = 3;
    is_read(list, NUMBERS, 0x694708C1, NQABELIHU_REFUSED_WRONG_LIST, 0, 0, 0);
    list[NUMBERS - 1] = NQABELIHU_GREATEST_DIVISOR;
    is_read(list, NUMBERS, 0x694708C1, 0, NQABELIHU_READING_BINARY, 38000.5, 152002);
}

/* ---- capture files ---- */

/* What stands at an offset: the refusal, the kind and the next offset, by each of the four functions; 24 is the last one's alone. */
static void stands(const uint8_t *bytes, size_t length, size_t offset, uint32_t *lent, size_t words, uint32_t number, uint32_t kind, size_t next)
{
    uint32_t got, given = 99, channel = 99, word = 99, stamp = 99;
    size_t behind = 99;
    uint32_t seen = number == NQABELIHU_REFUSED_FEW_VALUES ? nqabelihu_capture_kind(bytes, length, offset) : kind;
    got = nqabelihu_capture_read(bytes, length, offset, lent, words, &given, &behind, &channel, &word, &stamp);
    CHECK(got == number && given == kind && behind == next, "record at %lu: %u %u %lu", (unsigned long)offset, (unsigned)got, (unsigned)given,
          (unsigned long)behind);
    CHECK(kind != 0 || (channel == 0 && word == 0 && stamp == 0), "record at %lu: values beside no record", (unsigned long)offset);
    CHECK(nqabelihu_capture_kind(bytes, length, offset) == seen, "kind at %lu", (unsigned long)offset);
    if (number != NQABELIHU_REFUSED_FEW_VALUES) {
        CHECK(nqabelihu_capture_offset(bytes, length, offset) == next, "offset behind %lu", (unsigned long)offset);
        CHECK(nqabelihu_capture_refusal(bytes, length, offset) == number, "refusal at %lu", (unsigned long)offset);
    }
}

/* A record that is refused on writing changes no byte. */
static void not_written(uint8_t *bytes, size_t length, size_t offset, uint32_t kind, uint32_t channel, const uint32_t *commands, size_t count,
                        uint32_t number)
{
    size_t next = 99, at;
    for (at = 0; at < length; at++)
        bytes[at] = 0xA5;
    CHECK(nqabelihu_capture_write(bytes, length, offset, kind, channel, 1, 2, commands, count, &next) == number && next == 0, "not refused with %u",
          (unsigned)number);
    for (at = 0; at < length; at++)
        CHECK(bytes[at] == 0xA5, "a refused write changed byte %lu", (unsigned long)at);
}

static void capture_bytes(void)
{
    enum { WORDS = NQABELIHU_IMAGE_COMMANDS + 1, ROOM = NQABELIHU_IMAGE_BYTES, OLD = NQABELIHU_OLD_IMAGE_COMMANDS };
    static const uint8_t example[NQABELIHU_ARRIVAL_BYTES] = {0x0C, 0, 1, 0, 1, 0, 0x23, 1, 0, 0, 5, 0, 0, 0};
    uint8_t *bytes = (uint8_t *)between_guards(4, AT_END) + 2; /* 14 bytes before a page that may not be read */
    uint8_t *image = (uint8_t *)between_guards((ROOM + 2) / 4, AT_END) + 2; /* ROOM bytes, likewise */
    uint32_t *lent = between_guards(WORDS, AT_END);
    uint32_t *commands = between_guards(NQABELIHU_IMAGE_COMMANDS, AT_END);
    size_t next, at, length;
    uint32_t kind, channel, word, stamp;

    for (at = 0; at < sizeof example; at++)
        bytes[at] = example[at];
    stands(bytes, 14, 0, NULL, 0, 0, NQABELIHU_CAPTURED_ARRIVAL, 14);
    stands(bytes, 14, 14, NULL, 0, 0, 0, 14);
    stands(NULL, 0, 0, NULL, 0, 0, 0, 0);
    stands(NULL, 0, 1, NULL, 0, NQABELIHU_REFUSED_CUT, 0, 1);
    stands(bytes, 14, 15, NULL, 0, NQABELIHU_REFUSED_CUT, 0, 15);
    stands(bytes, 14, SIZE_MAX, NULL, 0, NQABELIHU_REFUSED_CUT, 0, SIZE_MAX);
    for (length = 1; length < 14; length++)
        stands(bytes, length, 0, NULL, 0, NQABELIHU_REFUSED_CUT, 0, 0);
    bytes[0] = 1; /* a length of 1: 21, but 20 where no byte is behind it */
    stands(bytes, 14, 0, NULL, 0, NQABELIHU_REFUSED_LENGTH, 0, 0);
    stands(bytes, 2, 0, NULL, 0, NQABELIHU_REFUSED_CUT, 0, 0);
    bytes[0] = 0;
    stands(bytes, 2, 0, NULL, 0, NQABELIHU_REFUSED_LENGTH, 0, 0);
    bytes[0] = 11; /* wrong for a known kind */
    stands(bytes, 14, 0, NULL, 0, NQABELIHU_REFUSED_LENGTH, 0, 0);
    bytes[0] = 2; /* an unknown kind of any length from 2 on */
    bytes[2] = 4;
    stands(bytes, 14, 0, NULL, 0, NQABELIHU_REFUSED_KIND, 0, 0);
    bytes[0] = 12;
    bytes[2] = 0;
    stands(bytes, 14, 0, NULL, 0, NQABELIHU_REFUSED_KIND, 0, 0);
    bytes[2] = 1;
    bytes[4] = 0;
    stands(bytes, 14, 0, NULL, 0, NQABELIHU_REFUSED_RECORD_CHANNEL, 0, 0);
    bytes[4] = 13;
    stands(bytes, 14, 0, NULL, 0, NQABELIHU_REFUSED_RECORD_CHANNEL, 0, 0);

    /* an image: its commands, one word more that stays, and one word too few */
    for (at = 0; at < NQABELIHU_IMAGE_COMMANDS; at++)
        commands[at] = 0x01020304 * (uint32_t)at;
    CHECK(nqabelihu_capture_write(image, ROOM, 0, NQABELIHU_CAPTURED_IMAGE, 12, 1, 2, commands, NQABELIHU_IMAGE_COMMANDS, &next) == 0 && next == ROOM,
          "an image written");
    for (at = 0; at < WORDS; at++)
        lent[at] = 0x5A5A5A5A;
    stands(image, ROOM, 0, lent + 2, NQABELIHU_IMAGE_COMMANDS - 1, NQABELIHU_REFUSED_FEW_VALUES, 0, 0);
    for (at = 0; at < WORDS; at++)
        CHECK(lent[at] == 0x5A5A5A5A, "a refused image changed word %lu", (unsigned long)at);
    stands(image, ROOM, 0, lent, WORDS, 0, NQABELIHU_CAPTURED_IMAGE, ROOM);
    for (at = 0; at < NQABELIHU_IMAGE_COMMANDS; at++)
        CHECK(lent[at] == commands[at], "command %lu", (unsigned long)at);
    CHECK(lent[NQABELIHU_IMAGE_COMMANDS] == 0x5A5A5A5A, "the word behind an image is written");
    CHECK((int)NQABELIHU_IMAGE_COMMANDS == (int)NQABELIHU_SCHEDULE_WORDS, "an image is no schedule");

    /* an old image: its own commands and then words of 0, and as many lent words as a new one */
    CHECK(nqabelihu_capture_write(image, ROOM, 0, NQABELIHU_CAPTURED_OLD_IMAGE, 12, 1, 2, commands, OLD, &next) == 0
              && next == NQABELIHU_OLD_IMAGE_BYTES,
          "an old image written");
    for (at = 0; at < WORDS; at++)
        lent[at] = 0x5A5A5A5A;
    stands(image, NQABELIHU_OLD_IMAGE_BYTES, 0, lent, NQABELIHU_IMAGE_COMMANDS - 1, NQABELIHU_REFUSED_FEW_VALUES, 0, 0);
    for (at = 0; at < WORDS; at++)
        CHECK(lent[at] == 0x5A5A5A5A, "a refused old image changed word %lu", (unsigned long)at);
    stands(image, NQABELIHU_OLD_IMAGE_BYTES, 0, lent, WORDS, 0, NQABELIHU_CAPTURED_OLD_IMAGE, NQABELIHU_OLD_IMAGE_BYTES);
    for (at = 0; at < NQABELIHU_IMAGE_COMMANDS; at++)
        CHECK(lent[at] == (at < OLD ? commands[at] : 0), "word %lu of an old image", (unsigned long)at);
    CHECK(lent[NQABELIHU_IMAGE_COMMANDS] == 0x5A5A5A5A, "the word behind an old image is written");

    /* writing: the example, and each refusal */
    CHECK(nqabelihu_capture_write(bytes, 14, 0, NQABELIHU_CAPTURED_ARRIVAL, 1, 0x123, 5, NULL, 0, &next) == 0 && next == 14, "an arrival written");
    for (at = 0; at < sizeof example; at++)
        CHECK(bytes[at] == example[at], "byte %lu", (unsigned long)at);
    CHECK(nqabelihu_capture_read(bytes, 14, 0, NULL, 0, &kind, &next, &channel, &word, &stamp) == 0 && channel == 1 && word == 0x123 && stamp == 5,
          "the example's values");
    not_written(bytes, 14, 0, NQABELIHU_CAPTURED_ARRIVAL, 1, commands, 1, NQABELIHU_REFUSED_LENGTH);
    not_written(image, ROOM, 0, NQABELIHU_CAPTURED_IMAGE, 1, commands, NQABELIHU_IMAGE_COMMANDS - 1, NQABELIHU_REFUSED_LENGTH);
    not_written(image, ROOM, 0, NQABELIHU_CAPTURED_IMAGE, 1, commands, OLD, NQABELIHU_REFUSED_LENGTH);
    not_written(image, ROOM, 0, NQABELIHU_CAPTURED_OLD_IMAGE, 1, commands, NQABELIHU_IMAGE_COMMANDS, NQABELIHU_REFUSED_LENGTH);
    not_written(bytes, 14, 0, 4, 1, NULL, 0, NQABELIHU_REFUSED_KIND);
    not_written(bytes, 14, 0, 0, 1, commands, 1, NQABELIHU_REFUSED_KIND);
    not_written(bytes, 14, 0, NQABELIHU_CAPTURED_ARRIVAL, 0, NULL, 0, NQABELIHU_REFUSED_RECORD_CHANNEL);
    not_written(bytes, 13, 0, NQABELIHU_CAPTURED_ARRIVAL, 13, NULL, 0, NQABELIHU_REFUSED_RECORD_CHANNEL);
    not_written(bytes, 13, 0, NQABELIHU_CAPTURED_ARRIVAL, 1, NULL, 0, NQABELIHU_REFUSED_FEW_VALUES);
    not_written(bytes, 14, 1, NQABELIHU_CAPTURED_ARRIVAL, 1, NULL, 0, NQABELIHU_REFUSED_FEW_VALUES);
    not_written(bytes, 14, SIZE_MAX, NQABELIHU_CAPTURED_ARRIVAL, 1, NULL, 0, NQABELIHU_REFUSED_FEW_VALUES);
    not_written(NULL, 0, 0, NQABELIHU_CAPTURED_ARRIVAL, 1, NULL, 0, NQABELIHU_REFUSED_FEW_VALUES);
}

int main(void)
{
    values = between_guards(NQABELIHU_VALUES, AT_END);
    sizes();
    labels();
    little_memory();
    exact_memory(1, AT_END);
    exact_memory(1, AT_START);
    exact_memory(COUNT, AT_END);
    exact_memory(COUNT, AT_START);
    exact_memory(NQABELIHU_MOST_CHANNELS, AT_END);
    few_values();
    every_op();
    every_address();
    random_calls();
    old_layout(old_off, sizeof old_off / sizeof old_off[0], 1);
    old_layout(old_on, sizeof old_on / sizeof old_on[0], 3);
    layout_number();
    by_name();
    meanings();
    kit();
    word_readings();
    capture_bytes();
    printf("%lu checks of the C interface\n", checks);
    return 0;
}
