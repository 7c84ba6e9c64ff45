/*
 * A dome node: it takes attitude words from one ARINC 429 channel, sends them on to the projectors by a schedule on a second, and keeps the
 * last words of the line on a third. For three frames the node is late and reads nothing: the FIFO fills and arrivals are lost, and the
 * tally of outcomes, the status and the counts of fates tell so. With the name of a file as its argument the node records the session there, and
 * with a second one it keeps every arrival in that file, a capture that show_capture shows.
 *
 * Build: cc -std=c99 -Iinclude examples/node.c target/staticlib/libhost.a
 */
#include <stdio.h>
#include <stdlib.h>

#include "nqabelihu_record.h"

enum { ATTITUDE = 1, PROJECTORS = 2, RECORDER = 3, CHANNELS = 3 };
enum { PITCH = 0324, ROLL = 0325, HEADING = 0314, ALTITUDE = 0203, DISCRETES = 0270 };
enum { FROM_AIRCRAFT = 1, TO_PROJECTORS = 2 }; /* SDI */
enum { FRAMES = 8, TICKS = 50, ANGLES = 3 };

/* An angle on the line: its label and how many bits of binary (BNR) data it has below the sign, for plus or minus 180 degrees. */
typedef struct {
    uint32_t label;
    const char *name;
    int bits;
} angle;

static const angle angles[ANGLES] = {{PITCH, "pitch angle", 14}, {ROLL, "roll angle", 14}, {HEADING, "true heading", 15}};

/* The words of the module, lent to every call. */
static uint32_t words[NQABELIHU_WORDS(CHANNELS)];
static nqabelihu_memory module_memory = {words, NQABELIHU_WORDS(CHANNELS)};

/* What became of the words that the line has brought so far, for each receiving channel. */
static nqabelihu_tally tallies[CHANNELS + 1];

/* The capture of every arrival, or none. */
static FILE *capture;

/* A refusal in this loop is a fault of the loop: say which call, and end. */
static void done(nqabelihu_refusal refusal, const char *call)
{
    if (refusal != NQABELIHU_DONE) {
        printf("%s: refused with %u, %s\n", call, (unsigned)refusal, nqabelihu_refusal_text(refusal));
        exit(1);
    }
}

/* ---- ARINC 429 words ---- */

static int32_t rounded(int32_t n, int32_t d)
{
    return (n + (n < 0 ? -d / 2 : d / 2)) / d;
}

/* A word with an angle in hundredths of a degree: sign in bit 29, data below it, sign/status matrix "normal operation". */
static uint32_t angle_word(const angle *a, uint32_t sdi, int32_t hundredths)
{
    uint32_t units = (uint32_t)rounded(hundredths * (1 << a->bits), 18000);
    uint32_t data = (units & ((2u << a->bits) - 1)) << (28 - a->bits);
    return nqabelihu_with_odd_parity(nqabelihu_index_of_label(a->label, sdi) | data | 3u << 29);
}

static int32_t angle_in(const angle *a, uint32_t word)
{
    int32_t units = (int32_t)(word >> (28 - a->bits) & ((2u << a->bits) - 1));
    if (units >= 1 << a->bits)
        units -= 2 << a->bits;
    return rounded(units * 18000, 1 << a->bits);
}

/* ---- printing ---- */

static void print_degrees(int32_t hundredths)
{
    int32_t size = hundredths < 0 ? -hundredths : hundredths;
    printf("%c%d.%02d deg", hundredths < 0 ? '-' : '+', (int)(size / 100), (int)(size % 100));
}

static void print_status(uint32_t status)
{
    uint32_t condition;
    int some = 0;
    printf("status:");
    for (condition = 1; condition <= NQABELIHU_ALL_CONDITIONS; condition *= 2)
        if (status & condition)
            printf("%s %s", some++ ? "," : "", nqabelihu_condition_text((nqabelihu_condition)condition));
    printf("%s\n", some ? "" : " nothing latched");
}

/* ---- set up ---- */

static void set(uint32_t channel, nqabelihu_setting setting, uint32_t value)
{
    done(nqabelihu_write_setting(module_memory, channel, setting, value), nqabelihu_setting_text(setting));
}

static void set_up(void)
{
    static const uint32_t commands[] = {
        NQABELIHU_COMMAND_MESSAGE + 0, NQABELIHU_COMMAND_FIXED_GAP + 3, /* pitch, the least gap */
        NQABELIHU_COMMAND_MESSAGE + 1, NQABELIHU_COMMAND_FIXED_GAP + 3, /* roll */
        NQABELIHU_COMMAND_MESSAGE + 2, NQABELIHU_COMMAND_GAP + 4,       /* heading, a gap that takes an async word */
        NQABELIHU_COMMAND_INTERRUPT,   NQABELIHU_COMMAND_STOP           /* the frame is sent */
    };
    uint32_t at;

    done(nqabelihu_power_up(module_memory, CHANNELS), "power up");
    printf("power up: %u channels in %u words\n", (unsigned)CHANNELS, (unsigned)nqabelihu_words(CHANNELS));

    /* The attitude receiver: three labels of one source, a FIFO of two frames, and an interrupt when it is full or parity is wrong. */
    for (at = 0; at < ANGLES; at++)
        done(nqabelihu_write_match(module_memory, ATTITUDE, nqabelihu_at_label(angles[at].label, FROM_AIRCRAFT), 1), "write match");
    set(ATTITUDE, NQABELIHU_SETTING_MATCH, 1);
    set(ATTITUDE, NQABELIHU_SETTING_STAMPS, 1);
    set(ATTITUDE, NQABELIHU_SETTING_RECEIVE_SIZE, 2 * ANGLES);
    set(ATTITUDE, NQABELIHU_SETTING_ALMOST_FULL, 2 * ANGLES - 1);
    done(nqabelihu_write_enable(module_memory, ATTITUDE, NQABELIHU_CONDITION_FULL + NQABELIHU_CONDITION_PARITY_ERROR), "write enable");
    done(nqabelihu_write_level_mask(module_memory, ATTITUDE, NQABELIHU_CONDITION_FULL), "write level mask");
    set(ATTITUDE, NQABELIHU_SETTING_RECEIVER, 1);
    printf("channel 1: attitude receiver, bounded FIFO of %u, labels 324 325 314 of SDI 1\n", (unsigned)(2 * ANGLES));

    /* The projectors' transmitter: a schedule of three words, run once in a frame. */
    for (at = 0; at < sizeof commands / sizeof commands[0]; at++)
        done(nqabelihu_write_schedule(module_memory, PROJECTORS, at, commands[at]), "write schedule");
    done(nqabelihu_write_message(module_memory, PROJECTORS, 3, 4), "write message");
    done(nqabelihu_write_message(module_memory, PROJECTORS, 4, 200), "write message");
    for (at = 0; at < ANGLES; at++)
        done(nqabelihu_write_message(module_memory, PROJECTORS, at, angle_word(&angles[at], TO_PROJECTORS, 0)), "write message");
    set(PROJECTORS, NQABELIHU_SETTING_TRANSMIT_MODE, NQABELIHU_TRANSMIT_MODE_SCHEDULED);
    done(nqabelihu_write_enable(module_memory, PROJECTORS, NQABELIHU_CONDITION_INTERRUPT), "write enable");
    set(PROJECTORS, NQABELIHU_SETTING_TRANSMITTER, 1);
    printf("channel 2: projectors' transmitter, schedule of %u commands\n", (unsigned)(sizeof commands / sizeof commands[0]));

    /* The recorder: the last four words of the line, whatever they are. */
    set(RECORDER, NQABELIHU_SETTING_RECEIVE_SIZE, 4);
    set(RECORDER, NQABELIHU_SETTING_FIFO_KIND, NQABELIHU_FIFO_KIND_CIRCULAR);
    set(RECORDER, NQABELIHU_SETTING_STAMPS, 1);
    set(RECORDER, NQABELIHU_SETTING_RECEIVER, 1);
    printf("channel 3: recorder, circular FIFO of 4\n");
}

/* ---- one frame ---- */

/* An arrival into the capture, with the stamp at this moment. */
static void keep(uint32_t channel, uint32_t word)
{
    uint8_t record[NQABELIHU_ARRIVAL_BYTES];
    size_t length = 0;
    uint32_t stamp;
    done(nqabelihu_read_stamp(module_memory, &stamp), "read stamp");
    done(nqabelihu_capture_arrival(record, sizeof record, &length, channel, word, stamp), "capture arrival");
    if (fwrite(record, 1, length, capture) != length) {
        printf("the capture cannot be written\n");
        exit(1);
    }
}

/* A word of the line on a receiving channel: its outcome goes into the channel's tally. */
static void arrives(uint32_t channel, uint32_t word)
{
    nqabelihu_outcome outcome;
    done(nqabelihu_arrive(module_memory, channel, word, &outcome), "arrive");
    nqabelihu_tally_outcome(&tallies[channel], outcome);
    if (capture != NULL)
        keep(channel, word);
}

/* The line: the aircraft's simulation sends three angles and the altitude. In frame 3 a bit of the roll word is wrong. */
static void line_brings(uint32_t frame)
{
    int32_t now = (int32_t)frame;
    int32_t flown[ANGLES];
    uint32_t line[ANGLES + 1];
    uint32_t at;
    nqabelihu_tally before = tallies[ATTITUDE];

    flown[0] = 250 + 30 * now;
    flown[1] = 150 - 100 * now;
    flown[2] = 9000 + 175 * now;
    for (at = 0; at < ANGLES; at++)
        line[at] = angle_word(&angles[at], FROM_AIRCRAFT, flown[at]);
    if (frame == 3)
        line[1] ^= 1u << 20;
    line[ANGLES] = nqabelihu_with_odd_parity(nqabelihu_index_of_label(ALTITUDE, FROM_AIRCRAFT) | (2500 + 10 * frame) << 11 | 3u << 29);

    for (at = 0; at <= ANGLES; at++) {
        arrives(ATTITUDE, line[at]);
        arrives(RECORDER, line[at]);
    }
    printf("  line        %u appended, %u dropped, %u filtered\n", (unsigned)(tallies[ATTITUDE].appended - before.appended),
           (unsigned)(tallies[ATTITUDE].dropped - before.dropped), (unsigned)(tallies[ATTITUDE].filtered - before.filtered));
}

static const angle *angle_of(uint32_t word)
{
    int at;
    for (at = 0; at < ANGLES; at++)
        if (angles[at].label == nqabelihu_label(word))
            return &angles[at];
    return NULL;
}

/* Reads the attitude FIFO until it is empty. A good word goes into the schedule, with the projectors' SDI. */
static void read_attitude(void)
{
    nqabelihu_entry entries[2 * ANGLES];
    size_t count, at;
    uint32_t now;
    done(nqabelihu_read_stamp(module_memory, &now), "read stamp");
    done(nqabelihu_drain_receive_fifo(module_memory, ATTITUDE, entries, 2 * ANGLES, &count), "drain receive FIFO");
    for (at = 0; at < count; at++) {
        uint32_t word = entries[at].word;
        const angle *a = angle_of(word);
        if (a == NULL)
            continue;
        printf("  received    label %o SDI %u word %08x  %-12s ", (unsigned)a->label, (unsigned)nqabelihu_sdi(word), (unsigned)word, a->name);
        if (entries[at].status & NQABELIHU_ENTRY_PARITY_ERROR) {
            printf("parity error, not used\n");
            continue;
        }
        print_degrees(angle_in(a, word));
        if (now != entries[at].stamp)
            printf(", %u ticks old", (unsigned)(now - entries[at].stamp));
        printf("\n");
        done(nqabelihu_write_message(module_memory, PROJECTORS, (uint32_t)(a - angles), angle_word(a, TO_PROJECTORS, angle_in(a, word))),
             "write message");
    }
}

/* Runs the schedule up to its interrupt, and one step further to its stop. */
static void send_to_projectors(void)
{
    nqabelihu_output output;
    uint32_t sent = 0, time = 0;
    printf("  projectors ");
    done(nqabelihu_trigger(module_memory, PROJECTORS), "trigger");
    while (!sent) {
        done(nqabelihu_step(module_memory, PROJECTORS, &output), "step");
        switch (output.form) {
        case NQABELIHU_FORM_MESSAGE:
            printf(" %08x", (unsigned)output.x);
            break;
        case NQABELIHU_FORM_NULL_TIME:
            printf(" null %u", (unsigned)output.x);
            break;
        case NQABELIHU_FORM_ASYNC:
            printf(" null %u async %08x null %u", (unsigned)output.x, (unsigned)output.y, (unsigned)output.z);
            break;
        default:
            break;
        }
        time += nqabelihu_output_bit_times(output);
        done(nqabelihu_read_pending(module_memory, PROJECTORS, &sent), "read pending");
    }
    done(nqabelihu_step(module_memory, PROJECTORS, &output), "step");
    done(nqabelihu_clear_latch(module_memory, PROJECTORS, NQABELIHU_CONDITION_INTERRUPT), "clear latch");
    printf(", %u bit times\n", (unsigned)time);
}

/* Every entry has a fate, accepted = read + cleared + overwritten + held, modulo 2^32, and every word of the line an outcome. */
static void check_fates(const char *name, uint32_t channel)
{
    nqabelihu_counts counts;
    uint32_t held;
    done(nqabelihu_read_counts(module_memory, channel, &counts), "read counts");
    done(nqabelihu_read_receive_level(module_memory, channel, &held), "read receive level");
    printf("  %-11s accepted %u = read %u + overwritten %u + held %u", name, (unsigned)counts.receive_accepted,
           (unsigned)counts.receive_read, (unsigned)counts.receive_overwritten, (unsigned)held);
    if (counts.receive_accepted != counts.receive_read + counts.receive_cleared + counts.receive_overwritten + held) {
        printf(": an entry has no fate\n");
        exit(1);
    }
    if (!nqabelihu_tally_agrees(&tallies[channel], &counts)) {
        printf(": a word of the line has no outcome\n");
        exit(1);
    }
}

static void check_channels(void)
{
    uint32_t status, pending;

    done(nqabelihu_sample(module_memory, ATTITUDE, 0), "sample");
    check_fates("attitude", ATTITUDE);
    if (nqabelihu_tally_lost(&tallies[ATTITUDE]) != 0)
        printf(", LOST %u of %u", (unsigned)nqabelihu_tally_lost(&tallies[ATTITUDE]), (unsigned)tallies[ATTITUDE].offered);
    done(nqabelihu_read_status(module_memory, ATTITUDE, &status), "read status");
    done(nqabelihu_read_pending(module_memory, ATTITUDE, &pending), "read pending");
    printf("; %s", pending ? "INTERRUPT, " : "");
    print_status(status);
    done(nqabelihu_clear_latch(module_memory, ATTITUDE, NQABELIHU_ALL_CONDITIONS), "clear latch");

    check_fates("recorder", RECORDER);
    printf("\n");
}

int main(int argc, char **argv)
{
    nqabelihu_entry kept[4];
    size_t count, at;
    uint32_t frame;
    FILE *session = NULL;

    if (argc > 1) {
        session = fopen(argv[1], "wb");
        if (session == NULL) {
            printf("%s: cannot be written\n", argv[1]);
            return 1;
        }
        nqabelihu_record(module_memory, session);
    }
    if (argc > 2) {
        capture = fopen(argv[2], "wb");
        if (capture == NULL) {
            printf("%s: cannot be written\n", argv[2]);
            return 1;
        }
    }
    set_up();
    for (frame = 1; frame <= FRAMES; frame++) {
        int late = 4 <= frame && frame <= 6;
        done(nqabelihu_advance_stamp(module_memory, TICKS), "advance stamp");
        printf("frame %u\n", (unsigned)frame);
        line_brings(frame);
        if (late)
            printf("  the node is late: nothing read\n");
        else
            read_attitude();
        if (frame == 2) /* the dome's discretes, once: sent in the schedule's long gap */
            done(nqabelihu_write_async(module_memory, PROJECTORS, nqabelihu_index_of_label(DISCRETES, TO_PROJECTORS) | 1u << 10), "write async");
        send_to_projectors();
        check_channels();
    }
    printf("the last words of the line, from the recorder\n");
    done(nqabelihu_drain_receive_fifo(module_memory, RECORDER, kept, 4, &count), "drain receive FIFO");
    for (at = 0; at < count; at++)
        printf("  stamp %u  label %o  word %08x\n", (unsigned)kept[at].stamp, (unsigned)nqabelihu_label(kept[at].word), (unsigned)kept[at].word);
    if (session != NULL) {
        nqabelihu_record(module_memory, NULL);
        if (fclose(session) != 0 || nqabelihu_record_lost() != 0) {
            printf("%s: the session is not recorded whole\n", argv[1]);
            return 1;
        }
    }
    if (capture != NULL && fclose(capture) != 0) {
        printf("%s: the capture is not written whole\n", argv[2]);
        return 1;
    }
    return 0;
}
