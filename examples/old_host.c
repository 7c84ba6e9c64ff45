/*
 * An old host: a program that was written for the AR1 module reads and writes its 32-bit registers, by the addresses and bits of the manual.
 * Its two functions `peek` and `poke`, which went to the card, go to the library here. What no register of the map does is done around it by calls:
 * power-up, the switches and modes, and the steps of the transmitters. With the name of a file as its argument the session is recorded there.
 *
 * Build: cc -std=c99 -Iinclude examples/old_host.c target/staticlib/libhost.a
 */
#include <stdio.h>
#include <stdlib.h>

#include "nqabelihu_record.h"

enum { CHANNELS = 2 };

static uint32_t words[NQABELIHU_WORDS(CHANNELS)];
static nqabelihu_memory module_memory = {words, NQABELIHU_WORDS(CHANNELS)};

static void done(nqabelihu_refusal refusal, const char *call)
{
    if (refusal != NQABELIHU_DONE) {
        printf("%s: refused with %u, %s\n", call, (unsigned)refusal, nqabelihu_refusal_text(refusal));
        exit(1);
    }
}

/* ---- the card: a refusal, which a bus cannot hand back, is printed; reads then give 0 ---- */

static uint32_t peek(uint32_t address)
{
    uint32_t value;
    nqabelihu_refusal refusal = nqabelihu_read_register(module_memory, address, &value);
    if (refusal != NQABELIHU_DONE)
        printf("  read of %05x: refused with %u, %s\n", (unsigned)address, (unsigned)refusal, nqabelihu_refusal_text(refusal));
    return value;
}

static void poke(uint32_t address, uint32_t value)
{
    uint32_t refused;
    nqabelihu_refusal refusal = nqabelihu_write_register(module_memory, address, value, &refused);
    if (refusal != NQABELIHU_DONE)
        printf("  write of %05x: refused with %u, %s\n", (unsigned)address, (unsigned)refusal, nqabelihu_refusal_text(refusal));
    if (refused != 0)
        printf("  write of %05x: of the channels %03x these refused: %03x\n", (unsigned)address, (unsigned)value, (unsigned)refused);
}

/* ---- the old program, as it was ---- */

enum { TX_TRIGGER = 0x1000, TX_PAUSE = 0x1004, TX_STOP = 0x1008, CH1_RATE = 0x111C, CH1_ASYNC = 0x1120, CH2_RATE = 0x121C };
enum { CH1_STATUS = 0x0810, CH1_SCHEDULE = 0x80000, CH1_MESSAGES = 0x90000, CH13_RATE = 0x1D1C };
enum { TX_FIFO_EMPTY = 1 << 4, SCHEDULE_INTERRUPT = 1 << 10 };

static void load_schedule(void)
{
    /* message 0, a gap of message 1, message 2, the same gap, interrupt, stop */
    static const uint32_t commands[] = {0x1000, 0x2001, 0x1002, 0x2001, 0x5000, 0x0000};
    static const uint32_t messages[] = {0x6000012B, 100, 0xE000022B};
    uint32_t at;
    for (at = 0; at < sizeof commands / sizeof commands[0]; at++)
        poke(CH1_SCHEDULE + 4 * at, commands[at]);
    for (at = 0; at < sizeof messages / sizeof messages[0]; at++)
        poke(CH1_MESSAGES + 4 * at, messages[at]);
    printf("schedule:");
    for (at = 0; at < sizeof commands / sizeof commands[0]; at++)
        printf(" %04x", (unsigned)peek(CH1_SCHEDULE + 4 * at));
    printf("\nmessages:");
    for (at = 0; at < sizeof messages / sizeof messages[0]; at++)
        printf(" %08x", (unsigned)peek(CH1_MESSAGES + 4 * at));
    printf("\n");
}

/* ---- the line: one step of channel 1 ---- */

static void step(void)
{
    nqabelihu_output output;
    done(nqabelihu_step(module_memory, 1, &output), "step");
    printf("  step: %s, %u bit times\n", nqabelihu_form_text(output.form), (unsigned)nqabelihu_output_bit_times(output));
}

int main(int argc, char **argv)
{
    FILE *session = NULL;
    if (argc > 1) {
        session = fopen(argv[1], "wb");
        if (session == NULL) {
            printf("%s: cannot be written\n", argv[1]);
            return 1;
        }
        nqabelihu_record(module_memory, session);
    }
    done(nqabelihu_power_up(module_memory, CHANNELS), "power up");
    done(nqabelihu_write_setting(module_memory, 1, NQABELIHU_SETTING_TRANSMITTER, 1), "transmitter");
    done(nqabelihu_write_setting(module_memory, 1, NQABELIHU_SETTING_TRANSMIT_MODE, NQABELIHU_TRANSMIT_MODE_SCHEDULED), "transmit mode");

    load_schedule();
    poke(CH2_RATE, 40);
    printf("rates: %u and %u\n", (unsigned)peek(CH1_RATE), (unsigned)peek(CH2_RATE));

    poke(CH1_ASYNC, 0x8000061D);
    printf("async word that waits: %08x\n", (unsigned)peek(CH1_ASYNC));

    printf("trigger of both channels; the transmitter of channel 2 is off\n");
    poke(TX_TRIGGER, 0x003);
    while ((peek(CH1_STATUS) & SCHEDULE_INTERRUPT) == 0)
        step();
    printf("status of channel 1: %03x\n", (unsigned)peek(CH1_STATUS));
    printf("async word that waits: %08x\n", (unsigned)peek(CH1_ASYNC));
    poke(TX_STOP, 0x001);

    printf("slips of the old program\n");
    poke(CH1_RATE, 0x100000);
    poke(CH1_ASYNC, 1);
    poke(CH1_ASYNC, 2);
    peek(CH1_RATE + 2);
    peek(CH13_RATE);
    peek(CH1_SCHEDULE + 4 * 512);
    poke(CH1_STATUS, TX_FIFO_EMPTY);
    peek(TX_PAUSE);

    if (session != NULL) {
        nqabelihu_record(module_memory, NULL);
        if (fclose(session) != 0 || nqabelihu_record_lost() != 0) {
            printf("%s: the session is not recorded whole\n", argv[1]);
            return 1;
        }
    }
    return 0;
}
