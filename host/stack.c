/* The stack that each function needs: it is called on a painted stack, and the lowest byte that lost its paint is
 * looked for. The most of many calls, with some tens of bytes of the caller's own. */
#include <stdio.h>
#include <string.h>
#include <ucontext.h>

#include "esdi.h"

enum { ROOM = 65536, PAINT = 0xA5, PACK = 4095 + 44, SAMPLE = 6, SAMPLES = 300 };

static _Alignas(64) unsigned char painted[ROOM];
static ucontext_t here, there;
static const unsigned char *top;
static void (*called)(void);

static struct esdi_chain chain;
static struct esdi_pack pack;
static uint8_t file[ESDI_SLOTS * PACK];
static uint8_t capture[SAMPLE * SAMPLES], answers[8 * SAMPLES];
static uint32_t kind, a, b;
static volatile uint64_t answer;

static void event(void) { answer = esdi_event(&chain, file, sizeof file, kind, a, b); }
static void word(void) { answer = esdi_word(&chain, a, b); }
static void lines(void) { answer = esdi_lines(&chain); }
static void fit(void) { answer = esdi_fit(&chain, file, sizeof file); }
static void packs(void) { answer = esdi_packs(file, sizeof file); }
static void pack_at(void) { answer = esdi_pack_at(&pack, file, sizeof file, a); }
static void run(void) {
    answer = esdi_capture(&chain, file, sizeof file, capture, sizeof capture, answers, sizeof answers);
}
static void count(void) { answer = esdi_capture_count(&chain, capture, sizeof capture); }
static void lay(void) { answer = esdi_lay(file + (a - 1) * PACK, PACK, &pack.profile); }

static void enter(void) {
    top = __builtin_frame_address(0);
    called();
}

/* How deep a call went, if deeper than the deepest before it. */
static void deepen(void (*function)(void), size_t *most) {
    memset(painted, PAINT, sizeof painted);
    getcontext(&there);
    there.uc_stack.ss_sp = painted;
    there.uc_stack.ss_size = sizeof painted;
    there.uc_link = &here;
    called = function;
    makecontext(&there, enter, 0);
    swapcontext(&here, &there);
    const unsigned char *low = painted;
    while (*low == PAINT)
        low++;
    if ((size_t)(top - low) > *most)
        *most = (size_t)(top - low);
}

/* A word's bits, bit by bit, so that the events that carry it out are among the calls. */
static void send(uint32_t bits, size_t *most) {
    for (int i = 16; i >= 0; i--) {
        const uint32_t steps[3][2] = {{ESDI_COMMAND_DATA, bits >> i & 1}, {ESDI_REQUEST, 1}, {ESDI_REQUEST, 0}};
        for (int s = 0; s < 3; s++) {
            kind = steps[s][0], a = steps[s][1], b = 0;
            deepen(event, most);
        }
    }
}

/* A word's bits over and over, slot 1 selected: a sample an edge, five microseconds apart. */
static void sample_word(uint32_t bits) {
    for (int n = 0; n < SAMPLES; n++) {
        const uint32_t edge = (uint32_t)n % 34, levels = 1 | (bits >> (16 - edge / 2) & 1) << 9 | (~edge & 1) << 10;
        const uint8_t sample[SAMPLE] = {0, 0, (uint8_t)(n * 5 >> 8), (uint8_t)(n * 5), (uint8_t)(levels >> 8), (uint8_t)levels};
        memcpy(capture + n * SAMPLE, sample, SAMPLE);
    }
}

int main(void) {
    size_t of_event = 0, of_word = 0, of_lines = 0, of_fit = 0, of_packs = 0, of_pack_at = 0, of_lay = 0;
    size_t of_capture = 0, of_count = 0;
    pack.profile.general = ESDI_GENERAL_DRIVE_HARD_SECTORED | ESDI_GENERAL_FIXED | ESDI_GENERAL_RATE_TO_10_MHZ;
    pack.profile.shape = (struct esdi_shape){.cylinders = 1, .heads = 1, .track = PACK - 44, .sector = 512};
    for (a = 1; a <= ESDI_SLOTS; a++) {
        pack.profile.slot = (uint8_t)a;
        deepen(lay, &of_lay);
    }
    deepen(packs, &of_packs);
    deepen(fit, &of_fit);
    if (answer != ESDI_TAKEN) {
        printf("stack: the packs were refused, %u\n", ESDI_ANSWER(answer));
        return 1;
    }
    for (a = 0; a <= ESDI_SLOTS + 1; a++)
        deepen(pack_at, &of_pack_at);
    for (a = 1; a <= ESDI_SLOTS; a++)
        for (b = 0; b < 1 << 17; b += 511)
            deepen(word, &of_word);
    for (uint32_t w = 0; w < 1 << 17; w += 4093)
        send(w, &of_event);
    for (kind = ESDI_SELECT; kind <= ESDI_CONDITION + 1; kind++)
        for (a = 0; a < 18; a++)
            for (b = 0; b < 4; b++) {
                deepen(event, &of_event);
                deepen(lines, &of_lines);
            }
    for (uint32_t w = 0; w < 1 << 17; w += 8191) {
        sample_word(w);
        deepen(count, &of_count);
        deepen(run, &of_capture);
        if (ESDI_ANSWER(answer) != ESDI_TAKEN) {
            printf("stack: the capture was refused, %u\n", ESDI_ANSWER(answer));
            return 1;
        }
    }
    printf("stack, bytes: event %zu, word %zu, lines %zu, fit %zu, packs %zu, pack_at %zu, lay %zu, capture %zu, count %zu\n",
           of_event, of_word, of_lines, of_fit, of_packs, of_pack_at, of_lay, of_capture, of_count);
    return 0;
}
