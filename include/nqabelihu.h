/*
 * nqabelihu.h: the C interface of a software ARINC 429 channel module.
 *
 * The library behind it is written in Rattle and proved: for any memory and any numbers each call is refused by a number of the table below, or
 * does exactly what docs/CALLS.md says of it. It holds no state, allocates nothing, starts no thread, and of the C library it calls memset alone.
 * A module is the memory that you lend.
 *
 * A word received:
 *
 *     static uint32_t words[NQABELIHU_WORDS(1)];
 *     nqabelihu_memory module = { words, NQABELIHU_WORDS(1) };
 *     nqabelihu_outcome outcome;
 *     nqabelihu_entry entry;
 *
 *     if (nqabelihu_power_up(module, 1) == NQABELIHU_DONE
 *         && nqabelihu_write_setting(module, 1, NQABELIHU_SETTING_RECEIVER, 1) == NQABELIHU_DONE
 *         && nqabelihu_arrive(module, 1, 0x6000012B, &outcome) == NQABELIHU_DONE
 *         && nqabelihu_read_receive_fifo(module, 1, &entry) == NQABELIHU_DONE)
 *         printf("label %o, word %08x\n", (unsigned)nqabelihu_label(entry.word), (unsigned)entry.word);
 *
 * Build: `./install PREFIX`, then `cc program.c $(pkg-config --cflags --libs nqabelihu)`; or, in the repository, `tools/build host` and
 * `cc -Iinclude program.c target/staticlib/libhost.a`. The library is for x86-64 Linux. This header is C99 and C++11.
 *
 * Rules that the proof takes for granted, and that you have to keep:
 *
 *   - A lent part is passed as a pointer and a number of 32-bit words. The pointer is that of an array of at least so many words, aligned
 *     for uint32_t. With 0 words it may be null: nothing is read or written through it.
 *   - The memory and the words lent for the values do not overlap. (The functions below by name lend an array of their own for the values.)
 *   - Nobody else reads or writes the lent words during a call. So two modules, each with memory of its own, may run on two threads at once;
 *     two channels of one module may not: lend a module to one thread at a time.
 *   - Lend a module's memory from its first word on. Between calls it is yours to copy, save and compare. Whatever you put there is never
 *     undefined behaviour: a call that meets a stored number outside its range, in the module part or on its channel (module-wide: on any
 *     channel), is refused with NQABELIHU_REFUSED_UNSOUND; power-up writes every needed word anew. The module part has a layout number: memory
 *     that a library of another layout left is refused, with NQABELIHU_REFUSED_SHORT or NQABELIHU_REFUSED_UNSOUND, and is not converted.
 *
 * +-- How a host sees every loss ----------------------------------------------------------------------------------------------------------+
 * | A full bounded FIFO drops the arrival, a full circular one overwrites its oldest entry. The counts of fates tell of the overwritten    |
 * | only (a dropped arrival was never accepted), and condition "full" latches, by edge, when the FIFO becomes full: with the latch cleared |
 * | while it is still full, further losses leave the status at 0. So:                                                                      |
 * |   1. look at every arrival's outcome: NQABELIHU_OUTCOME_DROPPED and NQABELIHU_OUTCOME_OVERWRITING are a word lost each. A              |
 * |      nqabelihu_tally counts them for a channel, and nqabelihu_tally_agrees holds it against the counts of fates;                       |
 * |   2. let condition "full" latch by level (nqabelihu_write_level_mask with NQABELIHU_CONDITION_FULL): every call on the channel then    |
 * |      latches it for as long as the FIFO is full, and where its bit is 0 no word was lost since it was last cleared;                    |
 * |   3. look at every call's result: an arrival that was refused reached no FIFO.                                                         |
 * | In mailbox mode the FIFO lists indices: what is lost there is an index, and the mailbox has the word. The outcome                      |
 * | NQABELIHU_OUTCOME_ALREADY_LISTED loses no index; its word goes over one that was not read from the mailbox.                            |
 * +----------------------------------------------------------------------------------------------------------------------------------------+
 *
 * Time is the host's. A step of the transmitter does not advance the module's stamp: nqabelihu_output_bit_times says how long the step's output
 * takes on the line, and the host turns bit times (10 microseconds each at 100 kbit/s, 80 at 12.5) into ticks of its own and hands them to
 * nqabelihu_advance_stamp.
 *
 * A schedule that has ended gives quiet, as one that pauses does. Put an interrupt command before the stop: it signals
 * NQABELIHU_CONDITION_INTERRUPT, which nqabelihu_read_status shows, and nqabelihu_read_pending where it is enabled. The step behind it is the stop.
 */
#ifndef NQABELIHU_H
#define NQABELIHU_H

#include <stddef.h>
#include <stdint.h>

/* The version of this header; nqabelihu_version() is that of the library that is linked. */
#define NQABELIHU_VERSION_MAJOR 0
#define NQABELIHU_VERSION_MINOR 1
#define NQABELIHU_VERSION_PATCH 0
#define NQABELIHU_VERSION (10000 * NQABELIHU_VERSION_MAJOR + 100 * NQABELIHU_VERSION_MINOR + NQABELIHU_VERSION_PATCH)

/* A result that has to be looked at: gcc and clang warn of a call that throws it away. */
#if defined(__GNUC__)
#define NQABELIHU_LOOK __attribute__((warn_unused_result))
#else
#define NQABELIHU_LOOK
#endif

#ifdef __cplusplus
extern "C" {
#endif

/* ---- the functions of the library ---- */

/* The words of memory that a module of `count` channels needs; 0 where count is not 1 to 12. */
size_t nqabelihu_words(uint32_t count);

/*
 * One call on a module's memory, given by four numbers: the op, the channel from 1, and two arguments; numbers that an op does not use are
 * ignored. The result is the answer's number. `values` takes the answer's values in its first seven words, zeros where there are fewer and
 * beside a refusal; words behind the seventh are left alone. With fewer than seven words lent for the values the result is
 * NQABELIHU_REFUSED_FEW_VALUES and nothing is written.
 */
NQABELIHU_LOOK uint32_t nqabelihu_perform(uint32_t *memory, size_t words, uint32_t *values, size_t places, uint32_t op, uint32_t channel,
                                          uint32_t a, uint32_t b);

/* The version of the library, as NQABELIHU_VERSION is written. */
uint32_t nqabelihu_version(void);

/* -- the fields of a word; any number is taken -- */

uint32_t nqabelihu_label(uint32_t word);           /* bits 1 to 8: print it in octal */
uint32_t nqabelihu_sdi(uint32_t word);             /* bits 9 and 10, the source/destination identifier */
uint32_t nqabelihu_data_bits(uint32_t word);       /* bits 11 to 29 */
uint32_t nqabelihu_sign_status(uint32_t word);     /* bits 30 and 31, the sign/status matrix */
uint32_t nqabelihu_with_odd_parity(uint32_t word); /* the word with bit 32 set or cleared so that the count of ones is odd */

uint32_t nqabelihu_low_byte(uint32_t label);                     /* the low byte of the words that have a label (its low eight bits count) */
uint32_t nqabelihu_index_of_word(uint32_t word);                 /* the SDI/Label index: the word modulo 1024 */
uint32_t nqabelihu_index_of_label(uint32_t label, uint32_t sdi); /* that of the words that have this label and SDI (its low two bits count) */

/* ---- sizes ---- */

enum {
    NQABELIHU_MOST_CHANNELS = 12,
    NQABELIHU_MODULE_WORDS = 17,    /* the module part */
    NQABELIHU_CHANNEL_WORDS = 4923, /* each channel */
    NQABELIHU_FIFO_ENTRIES = 255,   /* the most that a FIFO holds */
    NQABELIHU_MAILBOXES = 1024,     /* mailboxes, and places of the match set: one for each SDI/Label index */
    NQABELIHU_SCHEDULE_WORDS = 512, /* commands of the schedule RAM: addresses from 0 to one less */
    NQABELIHU_MESSAGE_WORDS = 256,  /* words of the message RAM, likewise */
    NQABELIHU_SETTINGS = 12,        /* settings of a channel */
    NQABELIHU_VALUES = 7,           /* the words that nqabelihu_perform asks for the values */
    NQABELIHU_WORD_BIT_TIMES = 32   /* the time that a word takes on the line */
};

/* nqabelihu_words for a count of 1 to 12 as a constant, for an array. */
#define NQABELIHU_WORDS(count) ((size_t)NQABELIHU_MODULE_WORDS + (size_t)(count) * (size_t)NQABELIHU_CHANNEL_WORDS)

/*
 * ---- tables: a name, its number and its text ----
 *
 * Each is an enum type and a function that gives the text of a number (nqabelihu_refusal_text and the like, further below). Hosts write the names;
 * a program that wants all the rows hands a macro of its own to the table.
 */

#define NQABELIHU_CASE(number, result) \
    case number:                       \
        return result;
#define NQABELIHU_ROW_NAME(name, number, text) name = number,
#define NQABELIHU_ROW_TEXT(name, number, text) NQABELIHU_CASE(number, text)

/* The answer's number. 1 to 7 are tested in this order, behind 24, then 42 and, for a register, 30 to 32: the first that applies is given. 20 to 24
 * are those of capture files and 60 to 64 those of readings, each tested in this order. */
#define NQABELIHU_REFUSAL_TABLE(ROW)                                                          \
    ROW(NQABELIHU_DONE, 0, "done")                                                            \
    ROW(NQABELIHU_REFUSED_SHORT, 1, "fewer words lent than the module needs")                 \
    ROW(NQABELIHU_REFUSED_UNSOUND, 2, "a stored number is outside its range")                 \
    ROW(NQABELIHU_REFUSED_CHANNEL, 3, "channel number outside 1 to the stored count")         \
    ROW(NQABELIHU_REFUSED_RANGE, 4, "an argument outside its range")                          \
    ROW(NQABELIHU_REFUSED_MODE, 5, "not allowed in the present setting")                      \
    ROW(NQABELIHU_REFUSED_FULL, 6, "transmit FIFO holds 255, or an async word already waits") \
    ROW(NQABELIHU_REFUSED_EMPTY, 7, "receive FIFO holds none")                                \
    ROW(NQABELIHU_REFUSED_CUT, 20, "a record is cut short")                                   \
    ROW(NQABELIHU_REFUSED_LENGTH, 21, "a record of the wrong length or count of commands")    \
    ROW(NQABELIHU_REFUSED_KIND, 22, "a record of unknown kind")                               \
    ROW(NQABELIHU_REFUSED_RECORD_CHANNEL, 23, "a record's channel outside 1 to 12")           \
    ROW(NQABELIHU_REFUSED_FEW_VALUES, 24, "lent output too short")                            \
    ROW(NQABELIHU_REFUSED_NOT_ALIGNED, 30, "a register's address is no multiple of four")     \
    ROW(NQABELIHU_REFUSED_NO_REGISTER, 31, "no register of twelve channels at the address")   \
    ROW(NQABELIHU_REFUSED_WRONG_WAY, 32, "a register that is only read, or only written")     \
    ROW(NQABELIHU_REFUSED_NO_CALL, 42, "the op is no call")                                   \
    ROW(NQABELIHU_REFUSED_WRONG_LIST, 60, "an entry of the label list is wrong or cut short") \
    ROW(NQABELIHU_REFUSED_NOT_LISTED, 61, "label not listed, or a bit field to encode")       \
    ROW(NQABELIHU_REFUSED_NO_SIGN, 62, "a decimal number without a sign")                     \
    ROW(NQABELIHU_REFUSED_NO_DIGIT, 63, "a decimal number with a digit above 9")              \
    ROW(NQABELIHU_REFUSED_VALUE, 64, "a value to encode outside its range")

typedef enum { NQABELIHU_REFUSAL_TABLE(NQABELIHU_ROW_NAME) } nqabelihu_refusal;

/* Settings of a channel. A setting's number is the op that writes it, so that a setting and a channel, exchanged, are refused. */
#define NQABELIHU_SETTING_TABLE(ROW)                                                                                       \
    ROW(NQABELIHU_SETTING_RECEIVER, 32, "receiver")                   /* 0 off, 1 on; factory 0 */                         \
    ROW(NQABELIHU_SETTING_TRANSMITTER, 33, "transmitter")             /* 0 off, 1 on; factory 0 */                         \
    ROW(NQABELIHU_SETTING_PARITY, 34, "parity")                       /* 0 off (ARINC 575 data), 1 on; factory 1 */        \
    ROW(NQABELIHU_SETTING_MATCH, 35, "match")                         /* 0 off, 1 on: by the match set alone; factory 0 */ \
    ROW(NQABELIHU_SETTING_STAMPS, 36, "stamps")                       /* 0 off, 1 on; factory 0 */                         \
    ROW(NQABELIHU_SETTING_RECEIVE_MODE, 37, "receive mode")           /* a receive mode below; factory FIFO */             \
    ROW(NQABELIHU_SETTING_FIFO_KIND, 38, "FIFO kind")                 /* a FIFO kind below; factory bounded */             \
    ROW(NQABELIHU_SETTING_TRANSMIT_MODE, 39, "transmit mode")         /* a transmit mode below; factory immediate */       \
    ROW(NQABELIHU_SETTING_RECEIVE_SIZE, 40, "receive FIFO size")      /* 1 to 255 entries; factory 255 */                  \
    ROW(NQABELIHU_SETTING_ALMOST_FULL, 41, "almost full threshold")   /* 0 to 255; factory 128 */                          \
    ROW(NQABELIHU_SETTING_ALMOST_EMPTY, 42, "almost empty threshold") /* 0 to 255; factory 32 */                           \
    ROW(NQABELIHU_SETTING_RATE, 43, "transmit rate")                  /* gap behind a FIFO word, 4 to 1048575; factory 4 */

typedef enum { NQABELIHU_SETTING_TABLE(NQABELIHU_ROW_NAME) } nqabelihu_setting;

/* Values of settings 37, 38 and 39. A full bounded FIFO drops the arrival, a full circular one overwrites its oldest entry. */
typedef enum { NQABELIHU_RECEIVE_MODE_FIFO = 0, NQABELIHU_RECEIVE_MODE_MAILBOX = 1 } nqabelihu_receive_mode;
typedef enum { NQABELIHU_FIFO_KIND_BOUNDED = 0, NQABELIHU_FIFO_KIND_CIRCULAR = 1 } nqabelihu_fifo_kind;
typedef enum {
    NQABELIHU_TRANSMIT_MODE_IMMEDIATE = 0,
    NQABELIHU_TRANSMIT_MODE_TRIGGERED = 1,
    NQABELIHU_TRANSMIT_MODE_SCHEDULED = 2
} nqabelihu_transmit_mode;

/* What became of an arriving word. In mailbox mode a mailbox has the word that was dropped, not new, and its index is not listed; one whose
 * mailbox is still new is not listed again, whether or not the list still has it: read the mailbox of every index that you read. */
#define NQABELIHU_OUTCOME_TABLE(ROW)                                                              \
    ROW(NQABELIHU_OUTCOME_IGNORED, 0, "ignored: the receiver is off")                             \
    ROW(NQABELIHU_OUTCOME_FILTERED, 1, "filtered: its index is not in the match set")             \
    ROW(NQABELIHU_OUTCOME_APPENDED, 2, "appended to the FIFO")                                    \
    ROW(NQABELIHU_OUTCOME_DROPPED, 3, "dropped: the bounded FIFO was full")                       \
    ROW(NQABELIHU_OUTCOME_OVERWRITING, 4, "appended to a full circular FIFO: the oldest is lost") \
    ROW(NQABELIHU_OUTCOME_ALREADY_LISTED, 5, "already listed: its mailbox is still new")

typedef enum { NQABELIHU_OUTCOME_TABLE(NQABELIHU_ROW_NAME) } nqabelihu_outcome;

/* The form of a step's output; behind each, what x, y and z are. */
#define NQABELIHU_FORM_TABLE(ROW)                                                                                          \
    ROW(NQABELIHU_FORM_QUIET, 0, "quiet")                                        /* 0 0 0 */                               \
    ROW(NQABELIHU_FORM_FIFO_WORD, 1, "a word of the FIFO and the gap behind it") /* word, bit times, 0 */                  \
    ROW(NQABELIHU_FORM_MESSAGE, 2, "a word of the schedule, no gap")             /* word, 0, 0 */                          \
    ROW(NQABELIHU_FORM_NULL_TIME, 3, "a gap")                                    /* bit times, 0, 0 */                     \
    ROW(NQABELIHU_FORM_ASYNC, 4, "a gap with the async word in it")              /* 4 bit times, word, bit times behind */ \
    ROW(NQABELIHU_FORM_RESERVED, 5, "a reserved command: the schedule is idle")  /* the command's address, 0, 0 */         \
    ROW(NQABELIHU_FORM_NULL_MESSAGE, 6, "4 null and a word of the schedule")     /* 4 bit times, word, 0 */

typedef enum { NQABELIHU_FORM_TABLE(NQABELIHU_ROW_NAME) } nqabelihu_form;

/* Conditions, as bits of the status, the enable mask and the level mask: condition k is bit k. */
#define NQABELIHU_CONDITION_TABLE(ROW)                                                                             \
    ROW(NQABELIHU_CONDITION_ALMOST_FULL, 1, "receive FIFO almost full")    /* level at or above almost full */     \
    ROW(NQABELIHU_CONDITION_FULL, 2, "receive FIFO full")                  /* level at size */                     \
    ROW(NQABELIHU_CONDITION_ALMOST_EMPTY, 4, "transmit FIFO almost empty") /* level at or below almost empty */    \
    ROW(NQABELIHU_CONDITION_EMPTY, 8, "transmit FIFO empty")                                                       \
    ROW(NQABELIHU_CONDITION_PARITY_ERROR, 16, "parity error")              /* of a word that was received */       \
    ROW(NQABELIHU_CONDITION_INTERRUPT, 32, "schedule interrupt")           /* the interrupt command */             \
    ROW(NQABELIHU_CONDITION_FAULT, 64, "fault")                            /* counter above the fault threshold */

typedef enum { NQABELIHU_CONDITION_TABLE(NQABELIHU_ROW_NAME) } nqabelihu_condition;
enum { NQABELIHU_ALL_CONDITIONS = 127 };

/* Bits of a received entry's status: an even count of ones; of a mailbox, the new mark: since an arrival set it the mailbox was not read, and no
 * entry of its index was overwritten or cleared. */
enum { NQABELIHU_ENTRY_PARITY_ERROR = 1, NQABELIHU_ENTRY_NEW = 2 };

/* Commands of the schedule RAM: a code, with the address that it names in its low bits. */
enum {
    NQABELIHU_COMMAND_STOP = 0x0000,
    NQABELIHU_COMMAND_MESSAGE = 0x1000,   /* + message RAM address: sends the word there */
    NQABELIHU_COMMAND_GAP = 0x2000,       /* + message RAM address: null time of so many bit times */
    NQABELIHU_COMMAND_FIXED_GAP = 0x3000, /* the same, the async word is never sent in it */
    NQABELIHU_COMMAND_PAUSE = 0x4000,     /* the next command follows on a trigger */
    NQABELIHU_COMMAND_INTERRUPT = 0x5000, /* signals NQABELIHU_CONDITION_INTERRUPT */
    NQABELIHU_COMMAND_JUMP = 0x6000       /* + schedule RAM address */
};

/* Registers of the AR1 module that are written with a channel mask, bit 0 for channel 1; those of a channel have functions further below. At
 * NQABELIHU_REGISTER_NONE there is no register. */
enum {
    NQABELIHU_REGISTER_NONE = 0,
    NQABELIHU_REGISTER_TRIGGER = 0x1000,
    NQABELIHU_REGISTER_PAUSE = 0x1004,
    NQABELIHU_REGISTER_STOP = 0x1008
};

/* Bits of a channel's status register: the conditions above in the manual's places, which are others than those of nqabelihu_read_status. */
typedef enum {
    NQABELIHU_STATUS_ALMOST_FULL = 0x002,
    NQABELIHU_STATUS_FULL = 0x004,
    NQABELIHU_STATUS_EMPTY = 0x010,
    NQABELIHU_STATUS_ALMOST_EMPTY = 0x020,
    NQABELIHU_STATUS_PARITY_ERROR = 0x080,
    NQABELIHU_STATUS_FAULT = 0x200,
    NQABELIHU_STATUS_INTERRUPT = 0x400
} nqabelihu_status_bit;

/*
 * Op codes of nqabelihu_perform, beside those of the settings: a setting's number is the op that writes it, and 32 more the one that reads it.
 * The last column is how many values the answer has.
 */
#define NQABELIHU_OP_NAME(name, number, text, values) name = number,
#define NQABELIHU_OP_TEXT(name, number, text, values) NQABELIHU_CASE(number, text)
#define NQABELIHU_OP_VALUES(name, number, text, values) NQABELIHU_CASE(number, values)
#define NQABELIHU_OP_TABLE(ROW)                                          \
    ROW(NQABELIHU_OP_POWER_UP, 1, "power up", 0)                         \
    ROW(NQABELIHU_OP_MODULE_RESET, 2, "module reset", 0)                 \
    ROW(NQABELIHU_OP_ADVANCE_STAMP, 3, "advance stamp", 0)               \
    ROW(NQABELIHU_OP_ZERO_STAMP, 4, "zero stamp", 0)                     \
    ROW(NQABELIHU_OP_READ_STAMP, 5, "read stamp", 1)                     \
    ROW(NQABELIHU_OP_WRITE_RESOLUTION, 6, "write resolution", 0)         \
    ROW(NQABELIHU_OP_READ_RESOLUTION, 7, "read resolution", 1)           \
    ROW(NQABELIHU_OP_WRITE_THRESHOLD, 8, "write fault threshold", 0)     \
    ROW(NQABELIHU_OP_READ_THRESHOLD, 9, "read fault threshold", 1)       \
    ROW(NQABELIHU_OP_ARRIVE, 128, "arrive", 1)                           \
    ROW(NQABELIHU_OP_READ_RECEIVE_FIFO, 129, "read receive FIFO", 3)     \
    ROW(NQABELIHU_OP_READ_MAILBOX, 130, "read mailbox", 3)               \
    ROW(NQABELIHU_OP_WRITE_MATCH, 131, "write match", 0)                 \
    ROW(NQABELIHU_OP_READ_MATCH, 132, "read match", 1)                   \
    ROW(NQABELIHU_OP_WRITE_TRANSMIT_FIFO, 133, "write transmit FIFO", 0) \
    ROW(NQABELIHU_OP_WRITE_ASYNC, 134, "write async", 0)                 \
    ROW(NQABELIHU_OP_TRIGGER, 135, "trigger", 0)                         \
    ROW(NQABELIHU_OP_PAUSE, 136, "pause", 0)                             \
    ROW(NQABELIHU_OP_STOP, 137, "stop", 0)                               \
    ROW(NQABELIHU_OP_STEP, 138, "step", 4)                               \
    ROW(NQABELIHU_OP_WRITE_SCHEDULE, 139, "write schedule", 0)           \
    ROW(NQABELIHU_OP_READ_SCHEDULE, 140, "read schedule", 1)             \
    ROW(NQABELIHU_OP_WRITE_MESSAGE, 141, "write message", 0)             \
    ROW(NQABELIHU_OP_READ_MESSAGE, 142, "read message", 1)               \
    ROW(NQABELIHU_OP_SAMPLE, 143, "sample", 0)                           \
    ROW(NQABELIHU_OP_RESET_TEST, 144, "reset test", 0)                   \
    ROW(NQABELIHU_OP_INITIATE_TEST, 145, "initiate test", 0)             \
    ROW(NQABELIHU_OP_READ_STATUS, 146, "read status", 1)                 \
    ROW(NQABELIHU_OP_CLEAR_LATCH, 147, "clear latch", 0)                 \
    ROW(NQABELIHU_OP_WRITE_ENABLE, 148, "write enable", 0)               \
    ROW(NQABELIHU_OP_READ_ENABLE, 149, "read enable", 1)                 \
    ROW(NQABELIHU_OP_WRITE_LEVEL_MASK, 150, "write level mask", 0)       \
    ROW(NQABELIHU_OP_READ_LEVEL_MASK, 151, "read level mask", 1)         \
    ROW(NQABELIHU_OP_READ_PENDING, 152, "read pending", 1)               \
    ROW(NQABELIHU_OP_READ_COUNTS, 153, "read counts", 7)                 \
    ROW(NQABELIHU_OP_READ_RECEIVE_LEVEL, 154, "read receive level", 1)   \
    ROW(NQABELIHU_OP_READ_TRANSMIT_LEVEL, 155, "read transmit level", 1) \
    ROW(NQABELIHU_OP_READ_ASYNC, 156, "read async", 2)                   \
    ROW(NQABELIHU_OP_READ_REGISTER, 160, "read register", 1)             \
    ROW(NQABELIHU_OP_WRITE_REGISTER, 161, "write register", 1)

typedef enum { NQABELIHU_OP_TABLE(NQABELIHU_OP_NAME) } nqabelihu_op;
enum { NQABELIHU_READ_SETTING = 32 }; /* + the setting: the op that reads it */

/* ---- types ---- */

/* A module's memory: the lent words, and how many. */
typedef struct {
    uint32_t *words;
    size_t count;
} nqabelihu_memory;

/* An SDI/Label index, which picks a mailbox and a place of the match set. A type of its own, so that an octal label is not taken for one. */
typedef struct {
    uint32_t number;
} nqabelihu_index;

/* An entry of the receive FIFO or a mailbox; in mailbox mode a FIFO entry's word is an SDI/Label index. */
typedef struct {
    uint32_t status;
    uint32_t word;
    uint32_t stamp;
} nqabelihu_entry;

/* What one step of the transmitter gave: a form above, and what belongs to it. Words are as sent, after parity. */
typedef struct {
    nqabelihu_form form;
    uint32_t x;
    uint32_t y;
    uint32_t z;
} nqabelihu_output;

/* Counts of fates since power-up, modulo 2^32. For the receive FIFO accepted = read + cleared + overwritten + held, for the transmit FIFO
 * accepted = sent + cleared + held. */
typedef struct {
    uint32_t receive_accepted;
    uint32_t receive_read;
    uint32_t receive_cleared;
    uint32_t receive_overwritten;
    uint32_t transmit_accepted;
    uint32_t transmit_sent;
    uint32_t transmit_cleared;
} nqabelihu_counts;

/* The index of the words that have a label and an SDI, and that of a word. */
static inline nqabelihu_index nqabelihu_at_label(uint32_t label, uint32_t sdi)
{
    nqabelihu_index index;
    index.number = nqabelihu_index_of_label(label, sdi);
    return index;
}

static inline nqabelihu_index nqabelihu_at_word(uint32_t word)
{
    nqabelihu_index index;
    index.number = nqabelihu_index_of_word(word);
    return index;
}

/* ---- texts ---- */

/* Of a number that is in no table. */
#define NQABELIHU_NO_TEXT "unknown"

static inline const char *nqabelihu_refusal_text(nqabelihu_refusal refusal)
{
    switch ((uint32_t)refusal) {
        NQABELIHU_REFUSAL_TABLE(NQABELIHU_ROW_TEXT)
    default:
        return NQABELIHU_NO_TEXT;
    }
}

static inline const char *nqabelihu_setting_text(nqabelihu_setting setting)
{
    switch ((uint32_t)setting) {
        NQABELIHU_SETTING_TABLE(NQABELIHU_ROW_TEXT)
    default:
        return NQABELIHU_NO_TEXT;
    }
}

static inline const char *nqabelihu_outcome_text(nqabelihu_outcome outcome)
{
    switch ((uint32_t)outcome) {
        NQABELIHU_OUTCOME_TABLE(NQABELIHU_ROW_TEXT)
    default:
        return NQABELIHU_NO_TEXT;
    }
}

static inline const char *nqabelihu_form_text(nqabelihu_form form)
{
    switch ((uint32_t)form) {
        NQABELIHU_FORM_TABLE(NQABELIHU_ROW_TEXT)
    default:
        return NQABELIHU_NO_TEXT;
    }
}

/* Of one condition, not of a mask of several. */
static inline const char *nqabelihu_condition_text(nqabelihu_condition condition)
{
    switch ((uint32_t)condition) {
        NQABELIHU_CONDITION_TABLE(NQABELIHU_ROW_TEXT)
    default:
        return NQABELIHU_NO_TEXT;
    }
}

#define NQABELIHU_WRITE_TEXT(name, number, text) NQABELIHU_CASE(number, "write " text)
#define NQABELIHU_READ_TEXT(name, number, text) NQABELIHU_CASE(number + NQABELIHU_READ_SETTING, "read " text)

/* Of any op, those of the settings among them. */
static inline const char *nqabelihu_op_text(uint32_t op)
{
    switch (op) {
        NQABELIHU_OP_TABLE(NQABELIHU_OP_TEXT)
        NQABELIHU_SETTING_TABLE(NQABELIHU_WRITE_TEXT)
        NQABELIHU_SETTING_TABLE(NQABELIHU_READ_TEXT)
    default:
        return NQABELIHU_NO_TEXT;
    }
}

#define NQABELIHU_WRITE_VALUES(name, number, text) NQABELIHU_CASE(number, 0)
#define NQABELIHU_READ_VALUES(name, number, text) NQABELIHU_CASE(number + NQABELIHU_READ_SETTING, 1)

/* How many values the answer of an op has; -1 for an op that is no call. */
static inline int nqabelihu_values_of(uint32_t op)
{
    switch (op) {
        NQABELIHU_OP_TABLE(NQABELIHU_OP_VALUES)
        NQABELIHU_SETTING_TABLE(NQABELIHU_WRITE_VALUES)
        NQABELIHU_SETTING_TABLE(NQABELIHU_READ_VALUES)
    default:
        return -1;
    }
}

/*
 * ---- every call by name ----
 *
 * Each gives the answer's number, NQABELIHU_DONE or a refusal. Beside a refusal every result is 0 and no word of the memory is changed.
 * Reads on a channel run the status rule too, and may set latch bits: the memory is never const. The pointers for results must not be null.
 *
 * All of them go through this macro. Define it before this header to see every call: nqabelihu_record.h records sessions so.
 */
#ifndef NQABELIHU_PERFORM
#define NQABELIHU_PERFORM nqabelihu_perform
#endif

/* The functions by name are made of these, whose names end in _ and which are not for hosts: a call with its values, one with no result, one
 * with a result, and one with an entry. */
NQABELIHU_LOOK static inline nqabelihu_refusal nqabelihu_call_(nqabelihu_memory memory, uint32_t *values, uint32_t op, uint32_t channel, uint32_t a,
                                                              uint32_t b)
{
    uint32_t number = NQABELIHU_PERFORM(memory.words, memory.count, values, NQABELIHU_VALUES, op, channel, a, b);
    return (nqabelihu_refusal)number;
}

NQABELIHU_LOOK static inline nqabelihu_refusal nqabelihu_do_(nqabelihu_memory memory, uint32_t op, uint32_t channel, uint32_t a, uint32_t b)
{
    uint32_t values[NQABELIHU_VALUES];
    return nqabelihu_call_(memory, values, op, channel, a, b);
}

NQABELIHU_LOOK static inline nqabelihu_refusal nqabelihu_get_(nqabelihu_memory memory, uint32_t op, uint32_t channel, uint32_t a, uint32_t *result)
{
    uint32_t values[NQABELIHU_VALUES];
    nqabelihu_refusal refusal = nqabelihu_call_(memory, values, op, channel, a, 0);
    *result = values[0];
    return refusal;
}

NQABELIHU_LOOK static inline nqabelihu_refusal nqabelihu_get_entry_(nqabelihu_memory memory, uint32_t op, uint32_t channel, uint32_t a,
                                                                   nqabelihu_entry *entry)
{
    uint32_t values[NQABELIHU_VALUES];
    nqabelihu_refusal refusal = nqabelihu_call_(memory, values, op, channel, a, 0);
    entry->status = values[0];
    entry->word = values[1];
    entry->stamp = values[2];
    return refusal;
}

/* -- the module -- */

/* Fills every needed word: factory settings, nothing held, stamp and counts 0. Refused only with RANGE (count not 1 to 12) and SHORT. */
NQABELIHU_LOOK static inline nqabelihu_refusal nqabelihu_power_up(nqabelihu_memory memory, uint32_t count)
{
    return nqabelihu_do_(memory, NQABELIHU_OP_POWER_UP, 0, count, 0);
}

/* FIFOs cleared (in mailbox mode the mailboxes of the listed indices lose their new marks first), async words dropped, transmitters idle, what
 * the schedules sent last forgotten, factory settings, stamp, fault counters and latches 0. Match sets, mailboxes (those marks aside), both
 * RAMs and the counts of fates stay. */
NQABELIHU_LOOK static inline nqabelihu_refusal nqabelihu_module_reset(nqabelihu_memory memory)
{
    return nqabelihu_do_(memory, NQABELIHU_OP_MODULE_RESET, 0, 0, 0);
}

/* Adds any number to the module's stamp, which rolls over. */
NQABELIHU_LOOK static inline nqabelihu_refusal nqabelihu_advance_stamp(nqabelihu_memory memory, uint32_t ticks)
{
    return nqabelihu_do_(memory, NQABELIHU_OP_ADVANCE_STAMP, 0, ticks, 0);
}

NQABELIHU_LOOK static inline nqabelihu_refusal nqabelihu_zero_stamp(nqabelihu_memory memory)
{
    return nqabelihu_do_(memory, NQABELIHU_OP_ZERO_STAMP, 0, 0, 0);
}

NQABELIHU_LOOK static inline nqabelihu_refusal nqabelihu_read_stamp(nqabelihu_memory memory, uint32_t *stamp)
{
    return nqabelihu_get_(memory, NQABELIHU_OP_READ_STAMP, 0, 0, stamp);
}

/* The stamp resolution, 0 to 3: stored, and changes nothing else. */
NQABELIHU_LOOK static inline nqabelihu_refusal nqabelihu_write_resolution(nqabelihu_memory memory, uint32_t resolution)
{
    return nqabelihu_do_(memory, NQABELIHU_OP_WRITE_RESOLUTION, 0, resolution, 0);
}

NQABELIHU_LOOK static inline nqabelihu_refusal nqabelihu_read_resolution(nqabelihu_memory memory, uint32_t *resolution)
{
    return nqabelihu_get_(memory, NQABELIHU_OP_READ_RESOLUTION, 0, 0, resolution);
}

/* The fault threshold, 1 to 65535. */
NQABELIHU_LOOK static inline nqabelihu_refusal nqabelihu_write_threshold(nqabelihu_memory memory, uint32_t threshold)
{
    return nqabelihu_do_(memory, NQABELIHU_OP_WRITE_THRESHOLD, 0, threshold, 0);
}

NQABELIHU_LOOK static inline nqabelihu_refusal nqabelihu_read_threshold(nqabelihu_memory memory, uint32_t *threshold)
{
    return nqabelihu_get_(memory, NQABELIHU_OP_READ_THRESHOLD, 0, 0, threshold);
}

/* -- settings -- */

/* The op of a setting, 0 (no call) where there is none of this number. */
static inline uint32_t nqabelihu_setting_op_(nqabelihu_setting setting)
{
    uint32_t op = (uint32_t)setting;
    return (uint32_t)NQABELIHU_SETTING_RECEIVER <= op && op <= (uint32_t)NQABELIHU_SETTING_RATE ? op : 0;
}

/* Writes one of the twelve settings. Refused with MODE for a receive size below the present level; another number than a setting's is NO_CALL. */
NQABELIHU_LOOK static inline nqabelihu_refusal nqabelihu_write_setting(nqabelihu_memory memory, uint32_t channel, nqabelihu_setting setting,
                                                                       uint32_t value)
{
    return nqabelihu_do_(memory, nqabelihu_setting_op_(setting), channel, value, 0);
}

NQABELIHU_LOOK static inline nqabelihu_refusal nqabelihu_read_setting(nqabelihu_memory memory, uint32_t channel, nqabelihu_setting setting,
                                                                      uint32_t *value)
{
    uint32_t op = nqabelihu_setting_op_(setting);
    return nqabelihu_get_(memory, op == 0 ? 0 : op + NQABELIHU_READ_SETTING, channel, 0, value);
}

/* -- receive -- */

/* A word arrives on the channel; the outcome says what became of it. */
NQABELIHU_LOOK static inline nqabelihu_refusal nqabelihu_arrive(nqabelihu_memory memory, uint32_t channel, uint32_t word,
                                                                nqabelihu_outcome *outcome)
{
    uint32_t result;
    nqabelihu_refusal refusal = nqabelihu_get_(memory, NQABELIHU_OP_ARRIVE, channel, word, &result);
    *outcome = (nqabelihu_outcome)result;
    return refusal;
}

/* Takes the oldest entry out of the receive FIFO. Refused with EMPTY when it holds none. */
NQABELIHU_LOOK static inline nqabelihu_refusal nqabelihu_read_receive_fifo(nqabelihu_memory memory, uint32_t channel, nqabelihu_entry *entry)
{
    return nqabelihu_get_entry_(memory, NQABELIHU_OP_READ_RECEIVE_FIFO, channel, 0, entry);
}

/* Reads the mailbox of an SDI/Label index, as nqabelihu_at_label and nqabelihu_at_word give it; it is then no longer new. */
NQABELIHU_LOOK static inline nqabelihu_refusal nqabelihu_read_mailbox(nqabelihu_memory memory, uint32_t channel, nqabelihu_index index,
                                                                      nqabelihu_entry *entry)
{
    return nqabelihu_get_entry_(memory, NQABELIHU_OP_READ_MAILBOX, channel, index.number, entry);
}

/* Puts an SDI/Label index into the match set (1) or takes it out (0). */
NQABELIHU_LOOK static inline nqabelihu_refusal nqabelihu_write_match(nqabelihu_memory memory, uint32_t channel, nqabelihu_index index, uint32_t in)
{
    return nqabelihu_do_(memory, NQABELIHU_OP_WRITE_MATCH, channel, index.number, in);
}

NQABELIHU_LOOK static inline nqabelihu_refusal nqabelihu_read_match(nqabelihu_memory memory, uint32_t channel, nqabelihu_index index, uint32_t *in)
{
    return nqabelihu_get_(memory, NQABELIHU_OP_READ_MATCH, channel, index.number, in);
}

/* -- transmit -- */

/* Puts a word behind those of the transmit FIFO. Refused with FULL when it holds 255. */
NQABELIHU_LOOK static inline nqabelihu_refusal nqabelihu_write_transmit_fifo(nqabelihu_memory memory, uint32_t channel, uint32_t word)
{
    return nqabelihu_do_(memory, NQABELIHU_OP_WRITE_TRANSMIT_FIFO, channel, word, 0);
}

/* Lets an async word wait for a gap of the schedule. Refused with MODE outside scheduled mode, with FULL when one already waits. */
NQABELIHU_LOOK static inline nqabelihu_refusal nqabelihu_write_async(nqabelihu_memory memory, uint32_t channel, uint32_t word)
{
    return nqabelihu_do_(memory, NQABELIHU_OP_WRITE_ASYNC, channel, word, 0);
}

/* Starts or goes on. Refused with MODE when the transmitter is off. */
NQABELIHU_LOOK static inline nqabelihu_refusal nqabelihu_trigger(nqabelihu_memory memory, uint32_t channel)
{
    return nqabelihu_do_(memory, NQABELIHU_OP_TRIGGER, channel, 0, 0);
}

NQABELIHU_LOOK static inline nqabelihu_refusal nqabelihu_pause(nqabelihu_memory memory, uint32_t channel)
{
    return nqabelihu_do_(memory, NQABELIHU_OP_PAUSE, channel, 0, 0);
}

NQABELIHU_LOOK static inline nqabelihu_refusal nqabelihu_stop(nqabelihu_memory memory, uint32_t channel)
{
    return nqabelihu_do_(memory, NQABELIHU_OP_STOP, channel, 0, 0);
}

/* One step of the transmitter gives one output. The stamp stays: advance it by the time that the output takes. */
NQABELIHU_LOOK static inline nqabelihu_refusal nqabelihu_step(nqabelihu_memory memory, uint32_t channel, nqabelihu_output *output)
{
    uint32_t values[NQABELIHU_VALUES];
    nqabelihu_refusal refusal = nqabelihu_call_(memory, values, NQABELIHU_OP_STEP, channel, 0, 0);
    output->form = (nqabelihu_form)values[0];
    output->x = values[1];
    output->y = values[2];
    output->z = values[3];
    return refusal;
}

/* The two RAMs: commands of the schedule (addresses below NQABELIHU_SCHEDULE_WORDS), and the words and gaps that they name (below
 * NQABELIHU_MESSAGE_WORDS). */
NQABELIHU_LOOK static inline nqabelihu_refusal nqabelihu_write_schedule(nqabelihu_memory memory, uint32_t channel, uint32_t address, uint32_t command)
{
    return nqabelihu_do_(memory, NQABELIHU_OP_WRITE_SCHEDULE, channel, address, command);
}

NQABELIHU_LOOK static inline nqabelihu_refusal nqabelihu_read_schedule(nqabelihu_memory memory, uint32_t channel, uint32_t address, uint32_t *command)
{
    return nqabelihu_get_(memory, NQABELIHU_OP_READ_SCHEDULE, channel, address, command);
}

NQABELIHU_LOOK static inline nqabelihu_refusal nqabelihu_write_message(nqabelihu_memory memory, uint32_t channel, uint32_t address, uint32_t word)
{
    return nqabelihu_do_(memory, NQABELIHU_OP_WRITE_MESSAGE, channel, address, word);
}

NQABELIHU_LOOK static inline nqabelihu_refusal nqabelihu_read_message(nqabelihu_memory memory, uint32_t channel, uint32_t address, uint32_t *word)
{
    return nqabelihu_get_(memory, NQABELIHU_OP_READ_MESSAGE, channel, address, word);
}

/* -- faults and tests -- */

/* A background sample: 1 failing adds 2 to the channel's fault counter, 0 good takes 1 away. */
NQABELIHU_LOOK static inline nqabelihu_refusal nqabelihu_sample(nqabelihu_memory memory, uint32_t channel, uint32_t failing)
{
    return nqabelihu_do_(memory, NQABELIHU_OP_SAMPLE, channel, failing, 0);
}

/* Zeroes the channel's fault counter. */
NQABELIHU_LOOK static inline nqabelihu_refusal nqabelihu_reset_test(nqabelihu_memory memory, uint32_t channel)
{
    return nqabelihu_do_(memory, NQABELIHU_OP_RESET_TEST, channel, 0, 0);
}

/* Clears both FIFOs and stops the transmitter; 1 for a failed test also latches the fault. */
NQABELIHU_LOOK static inline nqabelihu_refusal nqabelihu_initiate_test(nqabelihu_memory memory, uint32_t channel, uint32_t failed)
{
    return nqabelihu_do_(memory, NQABELIHU_OP_INITIATE_TEST, channel, failed, 0);
}

/* -- status: masks of the conditions above -- */

/* The latched conditions. */
NQABELIHU_LOOK static inline nqabelihu_refusal nqabelihu_read_status(nqabelihu_memory memory, uint32_t channel, uint32_t *latched)
{
    return nqabelihu_get_(memory, NQABELIHU_OP_READ_STATUS, channel, 0, latched);
}

/* Ones clear their latch bits; a condition that holds by level is latched again at once. */
NQABELIHU_LOOK static inline nqabelihu_refusal nqabelihu_clear_latch(nqabelihu_memory memory, uint32_t channel, uint32_t mask)
{
    return nqabelihu_do_(memory, NQABELIHU_OP_CLEAR_LATCH, channel, mask, 0);
}

/* The conditions whose latch makes an interrupt pending. */
NQABELIHU_LOOK static inline nqabelihu_refusal nqabelihu_write_enable(nqabelihu_memory memory, uint32_t channel, uint32_t mask)
{
    return nqabelihu_do_(memory, NQABELIHU_OP_WRITE_ENABLE, channel, mask, 0);
}

NQABELIHU_LOOK static inline nqabelihu_refusal nqabelihu_read_enable(nqabelihu_memory memory, uint32_t channel, uint32_t *mask)
{
    return nqabelihu_get_(memory, NQABELIHU_OP_READ_ENABLE, channel, 0, mask);
}

/* The conditions that latch by level (1) and not by edge (0). */
NQABELIHU_LOOK static inline nqabelihu_refusal nqabelihu_write_level_mask(nqabelihu_memory memory, uint32_t channel, uint32_t mask)
{
    return nqabelihu_do_(memory, NQABELIHU_OP_WRITE_LEVEL_MASK, channel, mask, 0);
}

NQABELIHU_LOOK static inline nqabelihu_refusal nqabelihu_read_level_mask(nqabelihu_memory memory, uint32_t channel, uint32_t *mask)
{
    return nqabelihu_get_(memory, NQABELIHU_OP_READ_LEVEL_MASK, channel, 0, mask);
}

/* 1 where a latched condition is enabled, else 0. */
NQABELIHU_LOOK static inline nqabelihu_refusal nqabelihu_read_pending(nqabelihu_memory memory, uint32_t channel, uint32_t *pending)
{
    return nqabelihu_get_(memory, NQABELIHU_OP_READ_PENDING, channel, 0, pending);
}

/* -- fates and levels -- */

NQABELIHU_LOOK static inline nqabelihu_refusal nqabelihu_read_counts(nqabelihu_memory memory, uint32_t channel, nqabelihu_counts *counts)
{
    uint32_t values[NQABELIHU_VALUES];
    nqabelihu_refusal refusal = nqabelihu_call_(memory, values, NQABELIHU_OP_READ_COUNTS, channel, 0, 0);
    counts->receive_accepted = values[0];
    counts->receive_read = values[1];
    counts->receive_cleared = values[2];
    counts->receive_overwritten = values[3];
    counts->transmit_accepted = values[4];
    counts->transmit_sent = values[5];
    counts->transmit_cleared = values[6];
    return refusal;
}

NQABELIHU_LOOK static inline nqabelihu_refusal nqabelihu_read_receive_level(nqabelihu_memory memory, uint32_t channel, uint32_t *level)
{
    return nqabelihu_get_(memory, NQABELIHU_OP_READ_RECEIVE_LEVEL, channel, 0, level);
}

NQABELIHU_LOOK static inline nqabelihu_refusal nqabelihu_read_transmit_level(nqabelihu_memory memory, uint32_t channel, uint32_t *level)
{
    return nqabelihu_get_(memory, NQABELIHU_OP_READ_TRANSMIT_LEVEL, channel, 0, level);
}

/* 1 where an async word waits, and that word; else 0 and 0. */
NQABELIHU_LOOK static inline nqabelihu_refusal nqabelihu_read_async(nqabelihu_memory memory, uint32_t channel, uint32_t *waiting, uint32_t *word)
{
    uint32_t values[NQABELIHU_VALUES];
    nqabelihu_refusal refusal = nqabelihu_call_(memory, values, NQABELIHU_OP_READ_ASYNC, channel, 0, 0);
    *waiting = values[0];
    *word = values[1];
    return refusal;
}

/* -- registers: 32-bit reads and writes at the addresses of the AR1 module, for a host that was written for it (docs/REGISTERS.md) -- */

/* Channel 1's register and how far each further channel's stands behind; NQABELIHU_REGISTER_NONE for a channel that is not 1 to 12. */
static inline uint32_t nqabelihu_register_(uint32_t first, uint32_t step, uint32_t channel)
{
    if (channel < 1 || NQABELIHU_MOST_CHANNELS < channel)
        return NQABELIHU_REGISTER_NONE;
    return first + step * (channel - 1);
}

/* The same for a word of a RAM; NQABELIHU_REGISTER_NONE for one past its end. */
static inline uint32_t nqabelihu_ram_register_(uint32_t first, uint32_t words, uint32_t channel, uint32_t address)
{
    uint32_t start = nqabelihu_register_(first, 0x1000, channel);
    if (start == NQABELIHU_REGISTER_NONE || words <= address)
        return NQABELIHU_REGISTER_NONE;
    return start + 4 * address;
}

/* The address of a channel's transmit rate, read and written. */
static inline uint32_t nqabelihu_rate_register(uint32_t channel)
{
    return nqabelihu_register_(0x111C, 0x100, channel);
}

/* The address of a channel's async word: written as by nqabelihu_write_async, read as the word that waits, or 0. */
static inline uint32_t nqabelihu_async_register(uint32_t channel)
{
    return nqabelihu_register_(0x1120, 0x100, channel);
}

/* The address of a channel's status, only read: the latched conditions at the bits of nqabelihu_status_bit. */
static inline uint32_t nqabelihu_status_register(uint32_t channel)
{
    return nqabelihu_register_(0x0810, 0x10, channel);
}

/* The address of a command of a channel's schedule RAM, read and written: a read shows the low 16 bits. */
static inline uint32_t nqabelihu_schedule_register(uint32_t channel, uint32_t address)
{
    return nqabelihu_ram_register_(0x80000, NQABELIHU_SCHEDULE_WORDS, channel, address);
}

/* The address of a word of a channel's message RAM, read and written. */
static inline uint32_t nqabelihu_message_register(uint32_t channel, uint32_t address)
{
    return nqabelihu_ram_register_(0x90000, NQABELIHU_MESSAGE_WORDS, channel, address);
}

/* Reads the register at an address. Refused with NOT_ALIGNED, NO_REGISTER and WRONG_WAY, in this order, and then as the call is that it stands for. */
NQABELIHU_LOOK static inline nqabelihu_refusal nqabelihu_read_register(nqabelihu_memory memory, uint32_t address, uint32_t *value)
{
    return nqabelihu_get_(memory, NQABELIHU_OP_READ_REGISTER, 0, address, value);
}

/* Writes the register at an address, refused likewise. With a channel mask (trigger, pause, stop; bits 0 to 11 count) each named channel is tried in
 * order and the write is done: look at `refused`, the mask of the named channels that refused. It is 0 for every other register. */
NQABELIHU_LOOK static inline nqabelihu_refusal nqabelihu_write_register(nqabelihu_memory memory, uint32_t address, uint32_t value, uint32_t *refused)
{
    uint32_t values[NQABELIHU_VALUES];
    nqabelihu_refusal refusal = nqabelihu_call_(memory, values, NQABELIHU_OP_WRITE_REGISTER, 0, address, value);
    *refused = values[0];
    return refusal;
}

/* ---- what a host does with the answers ---- */

/* Whether a step sent a word, whatever its form: 1 and the word, or 0 and 0. */
static inline int nqabelihu_output_word(nqabelihu_output output, uint32_t *word)
{
    switch ((uint32_t)output.form) {
    case NQABELIHU_FORM_FIFO_WORD:
    case NQABELIHU_FORM_MESSAGE:
        *word = output.x;
        return 1;
    case NQABELIHU_FORM_ASYNC:
    case NQABELIHU_FORM_NULL_MESSAGE:
        *word = output.y;
        return 1;
    default:
        *word = 0;
        return 0;
    }
}

/* The bit times that a step's output takes on the line, whatever its form: words and null time together. */
static inline uint32_t nqabelihu_output_bit_times(nqabelihu_output output)
{
    switch ((uint32_t)output.form) {
    case NQABELIHU_FORM_FIFO_WORD:
        return NQABELIHU_WORD_BIT_TIMES + output.y;
    case NQABELIHU_FORM_MESSAGE:
        return NQABELIHU_WORD_BIT_TIMES;
    case NQABELIHU_FORM_NULL_TIME:
        return output.x;
    case NQABELIHU_FORM_ASYNC:
        return output.x + NQABELIHU_WORD_BIT_TIMES + output.z;
    case NQABELIHU_FORM_NULL_MESSAGE:
        return output.x + NQABELIHU_WORD_BIT_TIMES;
    default:
        return 0;
    }
}

/* Reads the receive FIFO, oldest entry first, until it is empty or `room` entries are read; `count` says how many. With count = room there may
 * be more. Done where it ended so; another refusal than EMPTY is given, with no entry read. */
NQABELIHU_LOOK static inline nqabelihu_refusal nqabelihu_drain_receive_fifo(nqabelihu_memory memory, uint32_t channel, nqabelihu_entry *entries,
                                                                            size_t room, size_t *count)
{
    nqabelihu_entry entry;
    nqabelihu_refusal refusal = NQABELIHU_DONE;
    *count = 0;
    while (*count < room && refusal == NQABELIHU_DONE) {
        refusal = nqabelihu_read_receive_fifo(memory, channel, &entry);
        if (refusal == NQABELIHU_DONE)
            entries[(*count)++] = entry;
    }
    return refusal == NQABELIHU_REFUSED_EMPTY ? NQABELIHU_DONE : refusal;
}

/* What became of the words that were offered to a channel, since it was all zeros, modulo 2^32. Zero it at power-up, as the counts of fates are.
 * A refused arrival was not offered to the channel. */
typedef struct {
    uint32_t offered;
    uint32_t ignored;
    uint32_t filtered;
    uint32_t appended;
    uint32_t dropped;
    uint32_t overwriting;
    uint32_t already_listed;
} nqabelihu_tally;

/* One arrival more, with its outcome. */
static inline void nqabelihu_tally_outcome(nqabelihu_tally *tally, nqabelihu_outcome outcome)
{
    tally->offered++;
    switch ((uint32_t)outcome) {
    case NQABELIHU_OUTCOME_IGNORED:
        tally->ignored++;
        break;
    case NQABELIHU_OUTCOME_FILTERED:
        tally->filtered++;
        break;
    case NQABELIHU_OUTCOME_APPENDED:
        tally->appended++;
        break;
    case NQABELIHU_OUTCOME_DROPPED:
        tally->dropped++;
        break;
    case NQABELIHU_OUTCOME_OVERWRITING:
        tally->overwriting++;
        break;
    case NQABELIHU_OUTCOME_ALREADY_LISTED:
        tally->already_listed++;
        break;
    default:
        break;
    }
}

/* Those that the FIFO took: what nqabelihu_counts calls accepted. */
static inline uint32_t nqabelihu_tally_accepted(const nqabelihu_tally *tally)
{
    return tally->appended + tally->overwriting;
}

/* The words that are lost: those dropped, and one overwritten by each that came in over it. */
static inline uint32_t nqabelihu_tally_lost(const nqabelihu_tally *tally)
{
    return tally->dropped + tally->overwriting;
}

/* 1 where offered = accepted + dropped + already listed + filtered + ignored, and accepted and overwritten are those of the channel's counts of
 * fates; else 0. */
NQABELIHU_LOOK static inline int nqabelihu_tally_agrees(const nqabelihu_tally *tally, const nqabelihu_counts *counts)
{
    uint32_t accepted = nqabelihu_tally_accepted(tally);
    uint32_t others = tally->dropped + tally->already_listed + tally->filtered + tally->ignored;
    return tally->offered == accepted + others && accepted == counts->receive_accepted
           && tally->overwriting == counts->receive_overwritten;
}

/* ---- readings ---- */

/*
 * What a word reads as, by a label list, and words with a number in them. The list is lent as 32-bit numbers, three to an entry: the label (as
 * nqabelihu_label gives it), the kind, and the divisor, a power of two from 1 to 262144, which is read for binary only. The first entry for a
 * label counts. All of it stands in ARINC bits 11 to 29; a decimal number has its sign in bits 30 and 31. docs/READINGS.md has examples.
 * Each of these functions keeps the rules above: an empty list may be null, and the results overlap neither the list nor each other.
 */
/* The kinds of an entry, and of a reading. */
typedef enum {
    NQABELIHU_READING_BINARY = 1,   /* two's complement, -262144 to 262143, divided by the divisor */
    NQABELIHU_READING_DECIMAL = 2,  /* five digits, -79999 to 79999 */
    NQABELIHU_READING_BIT_FIELD = 3 /* 0 to 524287; it is read and not encoded */
} nqabelihu_reading_kind;

enum { NQABELIHU_GREATEST_DIVISOR = 262144 };

/* Reads a word: the result is 0 or the refusal. kind takes 1 to 3, units the value, exact in a double, whatever the kind; zeros if refused. */
uint32_t nqabelihu_read_word(const uint32_t *list, size_t numbers, uint32_t word, uint32_t *kind, double *units);

/* The whole number in a word: a binary number undivided, a decimal number, or the field; 0 where reading it is refused. */
int32_t nqabelihu_whole_number(const uint32_t *list, size_t numbers, uint32_t word);

/* Puts a whole number into a word: the result is 0 or the refusal. encoded takes the word, whose other bits stay; 0 if refused. */
uint32_t nqabelihu_encode_word(const uint32_t *list, size_t numbers, uint32_t word, int32_t value, uint32_t *encoded);

/* ---- capture files ---- */

/*
 * Records of arrivals and schedule images, one behind the other. A record is its length (two bytes, lowest first, counting kind and body), its
 * kind (two bytes) and its body; docs/CAPTURES.md has the format. Capture bytes are lent as a pointer and a number of bytes, by the rules above:
 * 0 bytes may be null, and what is written overlaps neither what is read nor each other. Any bytes, offset and numbers are taken.
 */
/* What stands at an offset. */
typedef enum {
    NQABELIHU_CAPTURED_NOTHING = 0,   /* the end of the bytes, or a record that is refused */
    NQABELIHU_CAPTURED_ARRIVAL = 1,   /* channel, word and stamp */
    NQABELIHU_CAPTURED_OLD_IMAGE = 2, /* channel and the commands of a schedule of 256, as schedules were once */
    NQABELIHU_CAPTURED_IMAGE = 3      /* channel and the commands of its schedule */
} nqabelihu_captured_kind;

enum {
    NQABELIHU_IMAGE_COMMANDS = 512,     /* the words that reading an image, old or new, needs, and the commands that writing a new one takes */
    NQABELIHU_OLD_IMAGE_COMMANDS = 256, /* the commands that writing an old image takes */
    NQABELIHU_ARRIVAL_BYTES = 14,       /* the whole record of an arrival */
    NQABELIHU_IMAGE_BYTES = 6 + 4 * NQABELIHU_IMAGE_COMMANDS, /* the whole record of an image */
    NQABELIHU_OLD_IMAGE_BYTES = 6 + 4 * NQABELIHU_OLD_IMAGE_COMMANDS
};

/* The kind of the record at an offset, the offset behind it, and its refusal, 20 to 23. At the end and beside a refusal the kind is 0 and the
 * offset is the same; at the end the refusal is 0. */
uint32_t nqabelihu_capture_kind(const uint8_t *bytes, size_t length, size_t offset);
size_t nqabelihu_capture_offset(const uint8_t *bytes, size_t length, size_t offset);
uint32_t nqabelihu_capture_refusal(const uint8_t *bytes, size_t length, size_t offset);

/* Reads the record at an offset: the result is 0 or the refusal, 20 to 24. An image fills the first NQABELIHU_IMAGE_COMMANDS words of `commands`,
 * an old one with its own commands and then stops, words of 0; words behind them are left alone. kind, next, channel, word and stamp are written
 * always, zeros (next: the same offset) at the end and beside a refusal. */
NQABELIHU_LOOK uint32_t nqabelihu_capture_read(const uint8_t *bytes, size_t length, size_t offset, uint32_t *commands, size_t commands_length,
                                               uint32_t *kind, size_t *next, uint32_t *channel, uint32_t *word, uint32_t *stamp);

/* Writes a record at an offset: the result is 0 or the refusal, 21 to 24. An arrival takes word and stamp and no commands, an image exactly
 * NQABELIHU_IMAGE_COMMANDS commands, an old image exactly NQABELIHU_OLD_IMAGE_COMMANDS. next takes the offset behind the record; beside a refusal
 * it is 0 and no byte is written. */
NQABELIHU_LOOK uint32_t nqabelihu_capture_write(uint8_t *bytes, size_t length, size_t offset, uint32_t kind, uint32_t channel, uint32_t word,
                                                uint32_t stamp, const uint32_t *commands, size_t commands_length, size_t *next);

/* A record that was read; an image's commands are in the words lent for them. */
typedef struct {
    nqabelihu_captured_kind kind;
    uint32_t channel;
    uint32_t word;
    uint32_t stamp;
} nqabelihu_captured;

/* Reads the record at *offset and moves *offset on behind it. At the end the kind is NQABELIHU_CAPTURED_NOTHING; beside a refusal *offset stays. */
NQABELIHU_LOOK static inline nqabelihu_refusal nqabelihu_next_captured(const uint8_t *bytes, size_t length, size_t *offset, uint32_t *commands,
                                                                       size_t commands_length, nqabelihu_captured *record)
{
    uint32_t kind;
    uint32_t number = nqabelihu_capture_read(bytes, length, *offset, commands, commands_length, &kind, offset, &record->channel, &record->word,
                                             &record->stamp);
    record->kind = (nqabelihu_captured_kind)kind;
    return (nqabelihu_refusal)number;
}

/* Writes a record at *offset and moves *offset on behind it; beside a refusal it stays. */
NQABELIHU_LOOK static inline nqabelihu_refusal nqabelihu_capture_(uint8_t *bytes, size_t length, size_t *offset, uint32_t kind, uint32_t channel,
                                                                  uint32_t word, uint32_t stamp, const uint32_t *commands, size_t commands_length)
{
    size_t next;
    uint32_t number = nqabelihu_capture_write(bytes, length, *offset, kind, channel, word, stamp, commands, commands_length, &next);
    if (number == NQABELIHU_DONE)
        *offset = next;
    return (nqabelihu_refusal)number;
}

/* An arrival: NQABELIHU_ARRIVAL_BYTES bytes. It has no commands: nothing is read through their pointer. */
NQABELIHU_LOOK static inline nqabelihu_refusal nqabelihu_capture_arrival(uint8_t *bytes, size_t length, size_t *offset, uint32_t channel,
                                                                         uint32_t word, uint32_t stamp)
{
    return nqabelihu_capture_(bytes, length, offset, NQABELIHU_CAPTURED_ARRIVAL, channel, word, stamp, &word, 0);
}

/* A schedule image of NQABELIHU_IMAGE_COMMANDS commands: NQABELIHU_IMAGE_BYTES bytes. An old reader of captures refuses it with KIND. */
NQABELIHU_LOOK static inline nqabelihu_refusal nqabelihu_capture_image(uint8_t *bytes, size_t length, size_t *offset, uint32_t channel,
                                                                       const uint32_t *commands)
{
    return nqabelihu_capture_(bytes, length, offset, NQABELIHU_CAPTURED_IMAGE, channel, 0, 0, commands, NQABELIHU_IMAGE_COMMANDS);
}

/* An old schedule image of NQABELIHU_OLD_IMAGE_COMMANDS commands: NQABELIHU_OLD_IMAGE_BYTES bytes. */
NQABELIHU_LOOK static inline nqabelihu_refusal nqabelihu_capture_old_image(uint8_t *bytes, size_t length, size_t *offset, uint32_t channel,
                                                                           const uint32_t *commands)
{
    return nqabelihu_capture_(bytes, length, offset, NQABELIHU_CAPTURED_OLD_IMAGE, channel, 0, 0, commands, NQABELIHU_OLD_IMAGE_COMMANDS);
}

#ifdef __cplusplus
}
#endif

#endif
