/*
 * What the header builds on the calls: the fields of a word, texts, a step's output, the drain of a FIFO, the tally of outcomes, registers, and
 * the recorder.
 */
#include <stdio.h>
#include <string.h>

#include "check.h"
#include "nqabelihu_record.h"

#define DO(call) CHECK((call) == NQABELIHU_DONE, "%s", #call)

/* ---- the fields of a word ---- */

static uint32_t mixed(uint32_t n)
{
    n = (n ^ n >> 16) * 0x45D9F3B;
    n = (n ^ n >> 16) * 0x45D9F3B;
    return n ^ n >> 16;
}

static void fields(void)
{
    uint32_t label, sdi, turn, bit;
    for (label = 0; label < 256; label++) {
        CHECK(nqabelihu_label(nqabelihu_low_byte(label)) == label, "low byte of label %o", (unsigned)label);
        CHECK(nqabelihu_low_byte(label + 256) == nqabelihu_low_byte(label), "low byte of label %o + 256", (unsigned)label);
        for (sdi = 0; sdi < 4; sdi++) {
            uint32_t index = nqabelihu_index_of_label(label, sdi);
            CHECK(index < NQABELIHU_MAILBOXES && nqabelihu_label(index) == label && nqabelihu_sdi(index) == sdi, "index of label %o, SDI %u",
                  (unsigned)label, (unsigned)sdi);
            CHECK(nqabelihu_at_label(label, sdi + 4).number == index, "index of label %o, SDI %u + 4", (unsigned)label, (unsigned)sdi);
        }
    }
    CHECK(nqabelihu_at_label(0324, 1).number == 0x12B, "index of label 324, SDI 1");
    for (turn = 0; turn < 10000; turn++) {
        uint32_t word = turn < 2 ? 0 - turn : mixed(turn), parity = nqabelihu_with_odd_parity(word), ones = 0;
        for (bit = 0; bit < 32; bit++)
            ones += parity >> bit & 1;
        CHECK(ones % 2 == 1 && (parity ^ word) << 1 == 0, "parity of %08x", (unsigned)word);
        CHECK(nqabelihu_index_of_word(word) == (word & 0x3FF) && nqabelihu_at_word(word).number == (word & 0x3FF), "index of %08x", (unsigned)word);
        CHECK(nqabelihu_sdi(word) == (word >> 8 & 3), "SDI of %08x", (unsigned)word);
        CHECK(nqabelihu_data_bits(word) == (word >> 10 & 0x7FFFF), "data bits of %08x", (unsigned)word);
        CHECK(nqabelihu_sign_status(word) == (word >> 29 & 3), "sign/status matrix of %08x", (unsigned)word);
    }
    CHECK(nqabelihu_version() == NQABELIHU_VERSION, "library of version %u, header of %u", (unsigned)nqabelihu_version(), NQABELIHU_VERSION);
}

/* ---- texts: the number of each, and none for any other number below 300 ---- */

typedef struct {
    uint32_t number;
    const char *text;
} row;

static const row refusals[] = {{0, "done"},
                               {1, "fewer words lent than the module needs"},
                               {2, "a stored number is outside its range"},
                               {3, "channel number outside 1 to the stored count"},
                               {4, "an argument outside its range"},
                               {5, "not allowed in the present setting"},
                               {6, "transmit FIFO holds 255, or an async word already waits"},
                               {7, "receive FIFO holds none"},
                               {20, "a record is cut short"},
                               {21, "a record of the wrong length or count of commands"},
                               {22, "a record of unknown kind"},
                               {23, "a record's channel outside 1 to 12"},
                               {24, "lent output too short"},
                               {30, "a register's address is no multiple of four"},
                               {31, "no register of twelve channels at the address"},
                               {32, "a register that is only read, or only written"},
                               {42, "the op is no call"},
                               {60, "an entry of the label list is wrong or cut short"},
                               {61, "label not listed, or a bit field to encode"},
                               {62, "a decimal number without a sign"},
                               {63, "a decimal number with a digit above 9"},
                               {64, "a value to encode outside its range"}};
static const row outcomes[] = {{0, "ignored: the receiver is off"},
                               {1, "filtered: its index is not in the match set"},
                               {2, "appended to the FIFO"},
                               {3, "dropped: the bounded FIFO was full"},
                               {4, "appended to a full circular FIFO: the oldest is lost"},
                               {5, "already listed: its mailbox is still new"}};
static const row forms[] = {{0, "quiet"},
                            {1, "a word of the FIFO and the gap behind it"},
                            {2, "a word of the schedule, no gap"},
                            {3, "a gap"},
                            {4, "a gap with the async word in it"},
                            {5, "a reserved command: the schedule is idle"},
                            {6, "4 null and a word of the schedule"}};
static const row conditions[] = {{1, "receive FIFO almost full"}, {2, "receive FIFO full"},   {4, "transmit FIFO almost empty"},
                                 {8, "transmit FIFO empty"},      {16, "parity error"},       {32, "schedule interrupt"},
                                 {64, "fault"}};
static const row settings[] = {{32, "receiver"},        {33, "transmitter"},           {34, "parity"},
                               {35, "match"},           {36, "stamps"},                {37, "receive mode"},
                               {38, "FIFO kind"},       {39, "transmit mode"},         {40, "receive FIFO size"},
                               {41, "almost full threshold"}, {42, "almost empty threshold"}, {43, "transmit rate"}};
static const row ops[] = {{1, "power up"},
                          {2, "module reset"},
                          {3, "advance stamp"},
                          {4, "zero stamp"},
                          {5, "read stamp"},
                          {6, "write resolution"},
                          {7, "read resolution"},
                          {8, "write fault threshold"},
                          {9, "read fault threshold"},
                          {32, "write receiver"},
                          {43, "write transmit rate"},
                          {64, "read receiver"},
                          {75, "read transmit rate"},
                          {128, "arrive"},
                          {129, "read receive FIFO"},
                          {130, "read mailbox"},
                          {131, "write match"},
                          {132, "read match"},
                          {133, "write transmit FIFO"},
                          {134, "write async"},
                          {135, "trigger"},
                          {136, "pause"},
                          {137, "stop"},
                          {138, "step"},
                          {139, "write schedule"},
                          {140, "read schedule"},
                          {141, "write message"},
                          {142, "read message"},
                          {143, "sample"},
                          {144, "reset test"},
                          {145, "initiate test"},
                          {146, "read status"},
                          {147, "clear latch"},
                          {148, "write enable"},
                          {149, "read enable"},
                          {150, "write level mask"},
                          {151, "read level mask"},
                          {152, "read pending"},
                          {153, "read counts"},
                          {154, "read receive level"},
                          {155, "read transmit level"},
                          {156, "read async"},
                          {160, "read register"},
                          {161, "write register"}};

#define TEXTS(table, text_of, type)                                                                                                \
    do {                                                                                                                           \
        uint32_t number, at;                                                                                                       \
        for (number = 0; number < 300; number++) {                                                                                 \
            const char *text = text_of((type)number), *expected = NQABELIHU_NO_TEXT;                                               \
            for (at = 0; at < sizeof table / sizeof table[0]; at++)                                                                \
                if (table[at].number == number)                                                                                    \
                    expected = table[at].text;                                                                                     \
            CHECK(strcmp(text, expected) == 0, #text_of " of %u: %s, expected %s", (unsigned)number, text, expected);              \
        }                                                                                                                          \
    } while (0)

static void texts(void)
{
    uint32_t at, op;
    TEXTS(refusals, nqabelihu_refusal_text, nqabelihu_refusal);
    TEXTS(outcomes, nqabelihu_outcome_text, nqabelihu_outcome);
    TEXTS(forms, nqabelihu_form_text, nqabelihu_form);
    TEXTS(conditions, nqabelihu_condition_text, nqabelihu_condition);
    TEXTS(settings, nqabelihu_setting_text, nqabelihu_setting);
    for (at = 0; at < sizeof ops / sizeof ops[0]; at++)
        CHECK(strcmp(nqabelihu_op_text(ops[at].number), ops[at].text) == 0, "text of op %u: %s", (unsigned)ops[at].number,
              nqabelihu_op_text(ops[at].number));
    /* An op has a text exactly where it has a number of values. */
    for (op = 0; op < 400; op++)
        CHECK((strcmp(nqabelihu_op_text(op), NQABELIHU_NO_TEXT) != 0) == (nqabelihu_values_of(op) >= 0), "text of op %u", (unsigned)op);
}

/* ---- a step's output ---- */

static void is_sent(uint32_t form, uint32_t x, uint32_t y, uint32_t z, int sends, uint32_t word, uint32_t bit_times)
{
    nqabelihu_output output = {(nqabelihu_form)form, x, y, z};
    uint32_t sent = 1;
    CHECK(nqabelihu_output_word(output, &sent) == sends && sent == word, "word of form %u", (unsigned)form);
    CHECK(nqabelihu_output_bit_times(output) == bit_times, "bit times of form %u: %u", (unsigned)form, (unsigned)nqabelihu_output_bit_times(output));
}

static void outputs(void)
{
    is_sent(NQABELIHU_FORM_QUIET, 0, 0, 0, 0, 0, 0);
    is_sent(NQABELIHU_FORM_FIFO_WORD, 77, 1048575, 0, 1, 77, 1048607);
    is_sent(NQABELIHU_FORM_MESSAGE, 77, 0, 0, 1, 77, 32);
    is_sent(NQABELIHU_FORM_NULL_TIME, 77, 0, 0, 0, 0, 77);
    is_sent(NQABELIHU_FORM_ASYNC, 4, 77, 64, 1, 77, 100);
    is_sent(NQABELIHU_FORM_RESERVED, 200, 0, 0, 0, 0, 0);
    is_sent(NQABELIHU_FORM_NULL_MESSAGE, 4, 77, 0, 1, 77, 36);
}

/* ---- the drain and the tally ---- */

static uint32_t words[NQABELIHU_WORDS(2)];
static nqabelihu_memory m = {words, NQABELIHU_WORDS(2)};

static nqabelihu_outcome arrives(uint32_t channel, uint32_t word, nqabelihu_tally *tally)
{
    nqabelihu_outcome outcome;
    DO(nqabelihu_arrive(m, channel, word, &outcome));
    nqabelihu_tally_outcome(tally, outcome);
    return outcome;
}

static void drain(void)
{
    nqabelihu_entry entries[8];
    nqabelihu_tally tally = {0, 0, 0, 0, 0, 0, 0};
    size_t count, room, at;
    uint32_t next = 0;
    DO(nqabelihu_power_up(m, 2));
    DO(nqabelihu_write_setting(m, 1, NQABELIHU_SETTING_RECEIVER, 1));
    DO(nqabelihu_drain_receive_fifo(m, 1, entries, 8, &count));
    CHECK(count == 0, "%u entries of an empty FIFO", (unsigned)count);
    for (room = 0; room <= 8; room++) {
        for (at = 0; at < 5; at++)
            arrives(1, next + (uint32_t)at, &tally);
        memset(entries, 0xFF, sizeof entries);
        DO(nqabelihu_drain_receive_fifo(m, 1, entries, room, &count));
        CHECK(count == (room < 5 ? room : 5), "%u of five entries in room for %u", (unsigned)count, (unsigned)room);
        for (at = 0; at < count; at++)
            CHECK(entries[at].word == next + at && entries[at].stamp == 0, "entry %u", (unsigned)at);
        for (at = count; at < 8; at++)
            CHECK(entries[at].word == 0xFFFFFFFF, "room behind the entries was written");
        /* The others are still there, in order. */
        DO(nqabelihu_drain_receive_fifo(m, 1, entries, 8, &at));
        CHECK(count + at == 5 && (at == 0 || entries[0].word == next + count), "%u entries left", (unsigned)at);
        next += 5;
    }
    CHECK(nqabelihu_drain_receive_fifo(m, 3, entries, 8, &count) == NQABELIHU_REFUSED_CHANNEL && count == 0, "drain of channel 3");
}

/* Two in a bounded FIFO of two, then losses: by outcome, by the tally, and by condition "full" by level, where the edge is silent. */
static void losses(void)
{
    nqabelihu_tally bounded = {0, 0, 0, 0, 0, 0, 0}, circular = {0, 0, 0, 0, 0, 0, 0};
    nqabelihu_counts counts;
    uint32_t status, turn;
    DO(nqabelihu_power_up(m, 2));
    CHECK(arrives(1, 1, &bounded) == NQABELIHU_OUTCOME_IGNORED, "ignored");
    for (turn = 1; turn <= 2; turn++) {
        DO(nqabelihu_write_setting(m, turn, NQABELIHU_SETTING_RECEIVER, 1));
        DO(nqabelihu_write_setting(m, turn, NQABELIHU_SETTING_RECEIVE_SIZE, 2));
    }
    DO(nqabelihu_write_setting(m, 2, NQABELIHU_SETTING_FIFO_KIND, NQABELIHU_FIFO_KIND_CIRCULAR));
    DO(nqabelihu_write_setting(m, 1, NQABELIHU_SETTING_MATCH, 1));
    CHECK(arrives(1, 1, &bounded) == NQABELIHU_OUTCOME_FILTERED, "filtered");
    DO(nqabelihu_write_setting(m, 1, NQABELIHU_SETTING_MATCH, 0));
    for (turn = 0; turn < 4; turn++) {
        CHECK(arrives(1, 1, &bounded) == (turn < 2 ? NQABELIHU_OUTCOME_APPENDED : NQABELIHU_OUTCOME_DROPPED), "arrival %u", (unsigned)turn);
        CHECK(arrives(2, 1, &circular) == (turn < 2 ? NQABELIHU_OUTCOME_APPENDED : NQABELIHU_OUTCOME_OVERWRITING), "arrival %u", (unsigned)turn);
    }
    CHECK(nqabelihu_tally_lost(&bounded) == 2 && nqabelihu_tally_lost(&circular) == 2, "words lost");
    CHECK(bounded.offered == 6 && bounded.ignored == 1 && bounded.filtered == 1 && nqabelihu_tally_accepted(&bounded) == 2, "tally");
    DO(nqabelihu_read_counts(m, 1, &counts));
    CHECK(nqabelihu_tally_agrees(&bounded, &counts) == 1 && nqabelihu_tally_agrees(&circular, &counts) == 0, "tally of channel 1");
    DO(nqabelihu_read_counts(m, 2, &counts));
    CHECK(nqabelihu_tally_agrees(&circular, &counts) == 1 && nqabelihu_tally_agrees(&bounded, &counts) == 0, "tally of channel 2");
    bounded.offered++;
    DO(nqabelihu_read_counts(m, 1, &counts));
    CHECK(nqabelihu_tally_agrees(&bounded, &counts) == 0, "an arrival with no outcome");

    DO(nqabelihu_clear_latch(m, 1, NQABELIHU_ALL_CONDITIONS));
    CHECK(arrives(1, 1, &bounded) == NQABELIHU_OUTCOME_DROPPED, "dropped");
    DO(nqabelihu_read_status(m, 1, &status));
    CHECK((status & NQABELIHU_CONDITION_FULL) == 0, "by edge a further loss leaves the status");
    DO(nqabelihu_write_level_mask(m, 1, NQABELIHU_CONDITION_FULL));
    DO(nqabelihu_clear_latch(m, 1, NQABELIHU_ALL_CONDITIONS));
    DO(nqabelihu_read_status(m, 1, &status));
    CHECK((status & NQABELIHU_CONDITION_FULL) != 0, "by level the status tells that the FIFO is full");
}

/* A fast label in mailbox mode: its index is listed once until its mailbox is read, and every arrival has its place in the tally. */
static void floods(void)
{
    nqabelihu_tally tally = {0, 0, 0, 0, 0, 0, 0};
    nqabelihu_counts counts;
    nqabelihu_entry entries[8], mailbox;
    uint32_t turn;
    size_t count;
    DO(nqabelihu_power_up(m, 2));
    DO(nqabelihu_write_setting(m, 1, NQABELIHU_SETTING_RECEIVER, 1));
    DO(nqabelihu_write_setting(m, 1, NQABELIHU_SETTING_RECEIVE_MODE, NQABELIHU_RECEIVE_MODE_MAILBOX));
    for (turn = 0; turn < 300; turn++)
        CHECK(arrives(1, 0x12B + 1024 * turn, &tally) == (turn == 0 ? NQABELIHU_OUTCOME_APPENDED : NQABELIHU_OUTCOME_ALREADY_LISTED), "arrival %u",
              (unsigned)turn);
    CHECK(arrives(1, 0x0B0, &tally) == NQABELIHU_OUTCOME_APPENDED, "a slow label");
    CHECK(tally.offered == 301 && tally.already_listed == 299, "%u already listed", (unsigned)tally.already_listed);
    CHECK(nqabelihu_tally_accepted(&tally) == 2 && nqabelihu_tally_lost(&tally) == 0, "an arrival already listed is not accepted, and no index is lost");
    DO(nqabelihu_read_counts(m, 1, &counts));
    CHECK(nqabelihu_tally_agrees(&tally, &counts) == 1, "tally of a flood");
    DO(nqabelihu_drain_receive_fifo(m, 1, entries, 8, &count));
    CHECK(count == 2 && entries[0].word == 0x12B && entries[1].word == 0x0B0, "%u indices listed", (unsigned)count);
    DO(nqabelihu_read_mailbox(m, 1, nqabelihu_at_word(entries[0].word), &mailbox));
    CHECK(mailbox.word == 0x12B + 1024 * 299, "the last word of the fast label");
    CHECK(arrives(1, 0x12B, &tally) == NQABELIHU_OUTCOME_APPENDED && arrives(1, 0x0B0, &tally) == NQABELIHU_OUTCOME_ALREADY_LISTED,
          "with the mailbox read and not read");
    DO(nqabelihu_read_counts(m, 1, &counts));
    CHECK(nqabelihu_tally_agrees(&tally, &counts) == 1, "tally behind a flood");
}

/* By level: where condition "full" is not latched, no word was lost since it was last cleared. */
static void losses_by_level(uint32_t kind)
{
    nqabelihu_tally tally = {0, 0, 0, 0, 0, 0, 0};
    nqabelihu_entry entries[2];
    uint32_t status, turn, lost = 0, silent = 0, told = 0;
    size_t count;
    DO(nqabelihu_power_up(m, 2));
    DO(nqabelihu_write_setting(m, 1, NQABELIHU_SETTING_RECEIVER, 1));
    DO(nqabelihu_write_setting(m, 1, NQABELIHU_SETTING_RECEIVE_SIZE, 3));
    DO(nqabelihu_write_setting(m, 1, NQABELIHU_SETTING_FIFO_KIND, kind));
    DO(nqabelihu_write_level_mask(m, 1, NQABELIHU_CONDITION_FULL));
    for (turn = 0; turn < 3000; turn++) {
        switch (mixed(turn) % 5) {
        case 0:
            DO(nqabelihu_drain_receive_fifo(m, 1, entries, 1 + mixed(turn) / 5 % 2, &count));
            break;
        case 1:
            DO(nqabelihu_clear_latch(m, 1, NQABELIHU_CONDITION_FULL));
            lost = nqabelihu_tally_lost(&tally);
            break;
        default:
            arrives(1, turn, &tally);
            break;
        }
        DO(nqabelihu_read_status(m, 1, &status));
        if (status & NQABELIHU_CONDITION_FULL)
            told += nqabelihu_tally_lost(&tally) != lost;
        else {
            CHECK(nqabelihu_tally_lost(&tally) == lost, "a loss that condition 1 does not tell of, in turn %u", (unsigned)turn);
            silent++;
        }
    }
    CHECK(told > 100 && silent > 100, "%u losses told, %u turns with none", (unsigned)told, (unsigned)silent);
}

/* A setting and a channel exchanged: refused, whatever the two are. */
static void exchanged(void)
{
    uint32_t setting, channel, value;
    DO(nqabelihu_power_up(m, 2));
    for (setting = NQABELIHU_SETTING_RECEIVER; setting <= NQABELIHU_SETTING_RATE; setting++)
        for (channel = 1; channel <= NQABELIHU_MOST_CHANNELS; channel++) {
            CHECK(nqabelihu_write_setting(m, setting, (nqabelihu_setting)channel, 1) == NQABELIHU_REFUSED_NO_CALL, "exchanged");
            CHECK(nqabelihu_read_setting(m, setting, (nqabelihu_setting)channel, &value) == NQABELIHU_REFUSED_NO_CALL, "exchanged");
        }
}

/* ---- registers ---- */

/* A register read: the refusal and the value. */
static void is_register(uint32_t address, uint32_t refusal, uint32_t value, int line)
{
    uint32_t given = 99, got = nqabelihu_read_register(m, address, &given);
    CHECK(got == refusal && given == value, "register %05x read in line %d: %u %08x", (unsigned)address, line, (unsigned)got, (unsigned)given);
}

/* A register written: the refusal, and the mask of the channels that refused. */
static void is_written(uint32_t address, uint32_t value, uint32_t refusal, uint32_t refused, int line)
{
    uint32_t given = 99, got = nqabelihu_write_register(m, address, value, &given);
    CHECK(got == refusal && given == refused, "register %05x written in line %d: %u %03x", (unsigned)address, line, (unsigned)got, (unsigned)given);
}

#define READS(address, value) is_register(address, NQABELIHU_DONE, value, __LINE__)
#define WRITES(address, value) is_written(address, value, NQABELIHU_DONE, 0, __LINE__)
#define MASKS(address, value, refused) is_written(address, value, NQABELIHU_DONE, refused, __LINE__)
#define NOT_READ(address, refusal) is_register(address, NQABELIHU_REFUSED_##refusal, 0, __LINE__)
#define NOT_WRITTEN(address, value, refusal) is_written(address, value, NQABELIHU_REFUSED_##refusal, 0, __LINE__)

/* The map of docs/REGISTERS.md, by the header's functions: no other channel, and no word past a RAM's end, has a register. */
static void addresses(void)
{
    static const uint32_t outside[] = {0, 13, 17, 0x10000001, 0xFFFFFFFF};
    uint32_t channel, at;
    for (channel = 1; channel <= 12; channel++) {
        CHECK(nqabelihu_rate_register(channel) == 0x101C + 0x100 * channel, "rate of channel %u", (unsigned)channel);
        CHECK(nqabelihu_async_register(channel) == 0x1020 + 0x100 * channel, "async of channel %u", (unsigned)channel);
        CHECK(nqabelihu_status_register(channel) == 0x0800 + 0x10 * channel, "status of channel %u", (unsigned)channel);
        for (at = 0; at < 512; at++)
            CHECK(nqabelihu_schedule_register(channel, at) == 0x7F000 + 0x1000 * channel + 4 * at, "command %u", (unsigned)at);
        for (at = 0; at < 256; at++)
            CHECK(nqabelihu_message_register(channel, at) == 0x8F000 + 0x1000 * channel + 4 * at, "message %u", (unsigned)at);
        CHECK(nqabelihu_schedule_register(channel, 512) == NQABELIHU_REGISTER_NONE, "past the schedule RAM");
        CHECK(nqabelihu_schedule_register(channel, 1024) == NQABELIHU_REGISTER_NONE, "past the schedule RAM");
        CHECK(nqabelihu_message_register(channel, 256) == NQABELIHU_REGISTER_NONE, "past the message RAM");
        CHECK(nqabelihu_message_register(channel, 0xFFFFFFFF) == NQABELIHU_REGISTER_NONE, "past the message RAM");
    }
    for (at = 0; at < sizeof outside / sizeof outside[0]; at++) {
        channel = outside[at];
        CHECK(nqabelihu_rate_register(channel) == NQABELIHU_REGISTER_NONE && nqabelihu_async_register(channel) == NQABELIHU_REGISTER_NONE
                  && nqabelihu_status_register(channel) == NQABELIHU_REGISTER_NONE && nqabelihu_schedule_register(channel, 0) == NQABELIHU_REGISTER_NONE
                  && nqabelihu_message_register(channel, 0) == NQABELIHU_REGISTER_NONE,
              "channel %u has a register", (unsigned)channel);
    }
    NOT_READ(NQABELIHU_REGISTER_NONE, NO_REGISTER);
    NOT_WRITTEN(NQABELIHU_REGISTER_NONE, 0, NO_REGISTER);
}

/* Each register beside the call that it stands for. */
static void single_registers(void)
{
    enum { LATCH = 19 /* the word of a block */ };
    static const uint32_t shown[7] = {NQABELIHU_STATUS_ALMOST_FULL, NQABELIHU_STATUS_FULL,      NQABELIHU_STATUS_ALMOST_EMPTY, NQABELIHU_STATUS_EMPTY,
                                      NQABELIHU_STATUS_PARITY_ERROR, NQABELIHU_STATUS_INTERRUPT, NQABELIHU_STATUS_FAULT};
    uint32_t *latch = words + NQABELIHU_MODULE_WORDS + NQABELIHU_CHANNEL_WORDS + LATCH;
    uint32_t value, waiting, condition;
    DO(nqabelihu_power_up(m, 2));

    READS(nqabelihu_rate_register(2), 4);
    WRITES(nqabelihu_rate_register(2), 1048575);
    READS(nqabelihu_rate_register(2), 1048575);
    NOT_WRITTEN(nqabelihu_rate_register(2), 1048576 + 99, RANGE); /* not cut to 20 bits */
    NOT_WRITTEN(nqabelihu_rate_register(2), 3, RANGE);
    DO(nqabelihu_read_setting(m, 2, NQABELIHU_SETTING_RATE, &value));
    CHECK(value == 1048575, "the rate of channel 2");
    NOT_READ(nqabelihu_rate_register(3), CHANNEL);
    NOT_WRITTEN(nqabelihu_rate_register(12), 9, CHANNEL);

    READS(nqabelihu_async_register(2), 0); /* in any mode */
    NOT_WRITTEN(nqabelihu_async_register(2), 7, MODE);
    DO(nqabelihu_write_setting(m, 2, NQABELIHU_SETTING_TRANSMIT_MODE, NQABELIHU_TRANSMIT_MODE_SCHEDULED));
    WRITES(nqabelihu_async_register(2), 0x8000ABCD);
    NOT_WRITTEN(nqabelihu_async_register(2), 7, FULL);
    READS(nqabelihu_async_register(2), 0x8000ABCD);
    DO(nqabelihu_read_async(m, 2, &waiting, &value));
    CHECK(waiting == 1 && value == 0x8000ABCD, "the async word");

    WRITES(nqabelihu_schedule_register(2, 511), 0xABCD6100);
    READS(nqabelihu_schedule_register(2, 511), 0x6100);
    DO(nqabelihu_read_schedule(m, 2, 511, &value));
    CHECK(value == 0xABCD6100, "a command is stored as it is");
    WRITES(nqabelihu_message_register(2, 255), 0xFFFFFFFF);
    READS(nqabelihu_message_register(2, 255), 0xFFFFFFFF);
    DO(nqabelihu_read_message(m, 2, 255, &value));
    CHECK(value == 0xFFFFFFFF, "a word of the message RAM");

    for (condition = 0; condition < 7; condition++) {
        *latch = 1u << condition;
        READS(nqabelihu_status_register(2), shown[condition]);
        DO(nqabelihu_read_status(m, 2, &value));
        CHECK(value == 1u << condition, "condition %u by call", (unsigned)condition);
    }
    *latch = NQABELIHU_ALL_CONDITIONS;
    READS(nqabelihu_status_register(2), 0x6B6);
    READS(nqabelihu_status_register(1), 0);

    /* 30, 31 and 32 in this order */
    NOT_READ(0x111D, NOT_ALIGNED);
    NOT_WRITTEN(0x1002, 1, NOT_ALIGNED);
    NOT_READ(0x1D1C, NO_REGISTER); /* of a channel 13 */
    NOT_WRITTEN(0x80800, 1, NO_REGISTER);
    NOT_READ(0x90400, NO_REGISTER);
    NOT_WRITTEN(nqabelihu_status_register(1), 0, WRONG_WAY);
    NOT_WRITTEN(nqabelihu_status_register(12), 0, WRONG_WAY);
    NOT_READ(NQABELIHU_REGISTER_TRIGGER, WRONG_WAY);
    NOT_READ(NQABELIHU_REGISTER_PAUSE, WRONG_WAY);
    NOT_READ(NQABELIHU_REGISTER_STOP, WRONG_WAY);
}

/* The form of one step on channel 1 and on channel 2. */
static void is_stepped(nqabelihu_form first, nqabelihu_form second, int line)
{
    nqabelihu_output one, two;
    DO(nqabelihu_step(m, 1, &one));
    DO(nqabelihu_step(m, 2, &two));
    CHECK(one.form == first && two.form == second, "steps of line %d: %u and %u", line, (unsigned)one.form, (unsigned)two.form);
}

#define STEPS(first, second) is_stepped(NQABELIHU_FORM_##first, NQABELIHU_FORM_##second, __LINE__)

/* Trigger, pause and stop with a channel mask: bits 0 to 11 name channels, each is tried, and those that refuse are told. */
static void masked_registers(void)
{
    static uint32_t before[NQABELIHU_WORDS(2)];
    enum { STATE = 16 /* the word of a block */ };
    uint32_t *first_state = words + NQABELIHU_MODULE_WORDS + STATE;
    nqabelihu_memory whole = m;
    uint32_t channel, at;
    DO(nqabelihu_power_up(m, 2));
    for (channel = 1; channel <= 2; channel++) {
        DO(nqabelihu_write_setting(m, channel, NQABELIHU_SETTING_TRANSMIT_MODE, NQABELIHU_TRANSMIT_MODE_TRIGGERED));
        for (at = 0; at < 9; at++)
            DO(nqabelihu_write_transmit_fifo(m, channel, at));
    }
    /* the transmitter of channel 2 is off, and channels 3 to 12 are above the count */
    DO(nqabelihu_write_setting(m, 1, NQABELIHU_SETTING_TRANSMITTER, 1));
    MASKS(NQABELIHU_REGISTER_TRIGGER, 0, 0);
    MASKS(NQABELIHU_REGISTER_TRIGGER, 0xFFFFF000, 0);
    STEPS(QUIET, QUIET);
    MASKS(NQABELIHU_REGISTER_TRIGGER, 0xFFFFFFFF, 0xFFE);
    STEPS(FIFO_WORD, QUIET);
    DO(nqabelihu_write_setting(m, 2, NQABELIHU_SETTING_TRANSMITTER, 1));
    MASKS(NQABELIHU_REGISTER_TRIGGER, 2, 0);
    STEPS(FIFO_WORD, FIFO_WORD);
    MASKS(NQABELIHU_REGISTER_PAUSE, 0x801, 0x800);
    STEPS(QUIET, FIFO_WORD);
    MASKS(NQABELIHU_REGISTER_TRIGGER, 1, 0);
    MASKS(NQABELIHU_REGISTER_STOP, 2, 0);
    STEPS(FIFO_WORD, QUIET);
    MASKS(NQABELIHU_REGISTER_TRIGGER, 6, 4);
    STEPS(FIFO_WORD, FIFO_WORD);

    /* an unsound channel refuses, and those behind it are tried */
    *first_state = 3;
    MASKS(NQABELIHU_REGISTER_STOP, 3, 1);
    *first_state = 1;
    STEPS(FIFO_WORD, QUIET);

    /* short memory or an unsound module part refuses the whole write, whomever it names */
    memcpy(before, words, sizeof words);
    m.count--;
    NOT_WRITTEN(NQABELIHU_REGISTER_STOP, 0xFFF, SHORT);
    NOT_WRITTEN(NQABELIHU_REGISTER_STOP, 0, SHORT);
    NOT_WRITTEN(0x100C, 0, NO_REGISTER);
    NOT_READ(NQABELIHU_REGISTER_STOP, WRONG_WAY);
    m = whole;
    words[NQABELIHU_MODULE_WORDS - 1]++;
    NOT_WRITTEN(NQABELIHU_REGISTER_STOP, 0xFFF, UNSOUND);
    NOT_WRITTEN(NQABELIHU_REGISTER_STOP, 0, UNSOUND);
    words[NQABELIHU_MODULE_WORDS - 1]--;
    CHECK(memcmp(before, words, sizeof words) == 0, "a masked write that was refused changed the memory");
}

/* ---- the recorder ---- */

static void recorder(void)
{
    static uint32_t others[NQABELIHU_WORDS(1)];
    static const unsigned char expected[5][NQABELIHU_ITEM_BYTES] = {{1, 0, 0, 0, 0, 0, 0, 0, 2, 0, 0, 0, 0, 0, 0, 0},
                                                                     {129, 0, 0, 0, 2, 0, 0, 0, 0, 0, 0, 0, 0, 0, 0, 0},
                                                                     {141, 0, 0, 0, 1, 0, 0, 0, 9, 0, 0, 0, 0x44, 0x33, 0x22, 0x81},
                                                                     {161, 0, 0, 0, 0, 0, 0, 0, 0x24, 0, 9, 0, 0x44, 0x33, 0x22, 0x81},
                                                                     {2, 0, 0, 0, 0, 0, 0, 0, 0, 0, 0, 0, 0, 0, 0, 0}};
    nqabelihu_memory other = {others, NQABELIHU_WORDS(1)};
    nqabelihu_entry entry;
    unsigned char bytes[6 * NQABELIHU_ITEM_BYTES];
    FILE *file = tmpfile(), *full = fopen("/dev/full", "wb");
    size_t length;
    CHECK(file != NULL, "no temporary file");
    nqabelihu_record(m, file);
    DO(nqabelihu_power_up(m, 2));
    DO(nqabelihu_power_up(other, 1));
    CHECK(nqabelihu_read_receive_fifo(m, 2, &entry) == NQABELIHU_REFUSED_EMPTY, "empty");
    DO(nqabelihu_write_message(m, 1, 9, 0x81223344));
    WRITES(nqabelihu_message_register(1, 9), 0x81223344);
    CHECK(reset_elsewhere(m.words, m.count) == NQABELIHU_DONE, "reset in another source file");
    nqabelihu_record(m, NULL);
    DO(nqabelihu_module_reset(m));
    rewind(file);
    length = fread(bytes, 1, sizeof bytes, file);
    CHECK(length == sizeof expected && memcmp(bytes, expected, sizeof expected) == 0, "%u bytes recorded", (unsigned)length);
    CHECK(nqabelihu_record_lost() == 0, "items lost");
    fclose(file);
    /* Items that cannot be written are counted. */
    if (full != NULL) {
        setvbuf(full, NULL, _IONBF, 0);
        nqabelihu_record(m, full);
        DO(nqabelihu_power_up(m, 2));
        DO(nqabelihu_module_reset(m));
        nqabelihu_record(m, NULL);
        CHECK(nqabelihu_record_lost() == 2, "%lu items lost", nqabelihu_record_lost());
        fclose(full);
    }
}

/* ---- capture files ---- */

/* The document's example and an image, written by name, and read one after another. */
static void captures(void)
{
    static const uint8_t example[NQABELIHU_ARRIVAL_BYTES] = {0x0C, 0, 1, 0, 1, 0, 0x23, 1, 0, 0, 5, 0, 0, 0};
    enum { LENGTH = 2 * NQABELIHU_ARRIVAL_BYTES + NQABELIHU_IMAGE_BYTES, OLD = NQABELIHU_OLD_IMAGE_COMMANDS };
    static uint8_t bytes[LENGTH];
    static uint32_t commands[NQABELIHU_IMAGE_COMMANDS], lent[NQABELIHU_IMAGE_COMMANDS];
    nqabelihu_captured record;
    size_t offset = 0;
    uint32_t at;
    for (at = 0; at < NQABELIHU_IMAGE_COMMANDS; at++)
        commands[at] = 0x01020304 * at;
    CHECK(nqabelihu_capture_arrival(bytes, LENGTH, &offset, 1, 0x123, 5) == NQABELIHU_DONE && offset == sizeof example, "an arrival");
    CHECK(memcmp(bytes, example, sizeof example) == 0, "the document's example");
    CHECK(nqabelihu_capture_arrival(bytes, LENGTH, &offset, 13, 0x123, 5) == NQABELIHU_REFUSED_RECORD_CHANNEL && offset == sizeof example, "channel 13");
    CHECK(nqabelihu_capture_image(bytes, LENGTH, &offset, 12, commands) == NQABELIHU_DONE, "an image");
    CHECK(offset == sizeof example + NQABELIHU_IMAGE_BYTES, "behind the image");
    CHECK(nqabelihu_capture_image(bytes, LENGTH, &offset, 12, commands) == NQABELIHU_REFUSED_FEW_VALUES, "no room for an image");
    CHECK(nqabelihu_capture_arrival(bytes, LENGTH, &offset, 7, 0xFFFFFFFF, 0x80000000) == NQABELIHU_DONE && offset == LENGTH, "the last arrival");

    offset = 0;
    CHECK(nqabelihu_next_captured(bytes, LENGTH, &offset, NULL, 0, &record) == NQABELIHU_DONE && offset == sizeof example, "the example read");
    CHECK(record.kind == NQABELIHU_CAPTURED_ARRIVAL && record.channel == 1 && record.word == 0x123 && record.stamp == 5, "its values");
    CHECK(nqabelihu_next_captured(bytes, LENGTH, &offset, lent, NQABELIHU_IMAGE_COMMANDS - 1, &record) == NQABELIHU_REFUSED_FEW_VALUES, "a word too few");
    CHECK(record.kind == NQABELIHU_CAPTURED_NOTHING && offset == sizeof example, "the offset stays");
    CHECK(nqabelihu_next_captured(bytes, LENGTH, &offset, lent, NQABELIHU_IMAGE_COMMANDS, &record) == NQABELIHU_DONE, "the image read");
    CHECK(record.kind == NQABELIHU_CAPTURED_IMAGE && record.channel == 12 && record.word == 0 && record.stamp == 0, "its values");
    CHECK(memcmp(lent, commands, sizeof lent) == 0, "its commands");
    CHECK(nqabelihu_next_captured(bytes, LENGTH, &offset, NULL, 0, &record) == NQABELIHU_DONE && record.stamp == 0x80000000, "the last read");
    CHECK(nqabelihu_next_captured(bytes, LENGTH, &offset, NULL, 0, &record) == NQABELIHU_DONE && record.kind == NQABELIHU_CAPTURED_NOTHING, "the end");
    CHECK(offset == LENGTH, "the end's offset");

    offset = 0;
    CHECK(nqabelihu_capture_old_image(bytes, LENGTH, &offset, 3, commands) == NQABELIHU_DONE && offset == NQABELIHU_OLD_IMAGE_BYTES, "an old image");
    offset = 0;
    CHECK(nqabelihu_next_captured(bytes, NQABELIHU_OLD_IMAGE_BYTES, &offset, lent, NQABELIHU_IMAGE_COMMANDS, &record) == NQABELIHU_DONE, "it is read");
    CHECK(record.kind == NQABELIHU_CAPTURED_OLD_IMAGE && record.channel == 3 && offset == NQABELIHU_OLD_IMAGE_BYTES, "its kind stays");
    for (at = 0; at < NQABELIHU_IMAGE_COMMANDS; at++)
        CHECK(lent[at] == (at < OLD ? commands[at] : 0), "command %u of the old image", (unsigned)at);
}

void kit(void)
{
    fields();
    texts();
    outputs();
    drain();
    losses();
    floods();
    losses_by_level(NQABELIHU_FIFO_KIND_BOUNDED);
    losses_by_level(NQABELIHU_FIFO_KIND_CIRCULAR);
    exchanged();
    addresses();
    single_registers();
    masked_registers();
    recorder();
    captures();
}
