/* The header's record against the library's: every field lies where the library puts its mark, nothing else is written,
 * and the codes and bits that the header names are those that a drive goes through. */
#include <stdio.h>
#include <string.h>

#include "esdi.h"

static int wrong;
static size_t covered;

/* A field at an offset in the record's bytes holds a mark, and the header gives it the mark's size. */
#define SEES(at, size, mark)                                                                        \
    do {                                                                                            \
        uint64_t want = (mark), got = 0;                                                            \
        covered += (size);                                                                          \
        memcpy(&got, (const unsigned char *)&room + (at), (size));                                  \
        if (got != want && ++wrong)                                                                 \
            printf("layout: at %zu, %s: %llu is not %llu\n", (size_t)(at), #at, (unsigned long long)got, \
                   (unsigned long long)want);                                                       \
    } while (0)
#define FIELD(path, mark) SEES(offsetof(struct esdi_chain, path), sizeof room.chain.path, mark)

static struct {
    struct esdi_chain chain;
    unsigned char past[64];
} room;

static void pack(int i) {
    size_t at = offsetof(struct esdi_chain, packs) + (size_t)i * sizeof(struct esdi_pack);
#define PACK(path, mark) SEES(at + offsetof(struct esdi_pack, path), sizeof room.chain.packs[0].path, mark)
    PACK(fitted, 16777229);
    PACK(place, 33554433 + i);
    PACK(profile.slot, 18);
    PACK(profile.vendor, 19);
    PACK(profile.general, 4100);
    PACK(profile.gap, 20);
    PACK(profile.sync, 21);
    PACK(profile.write_protected, 4105);
    PACK(profile.shape.cylinders, 4097);
    PACK(profile.shape.heads, 4104);
    PACK(profile.shape.track, 4098);
    PACK(profile.shape.sector, 4099);
    PACK(profile.times.settle, 16777217);
    PACK(profile.times.step, 16777218);
    PACK(profile.times.head_switch, 16777219);
    PACK(profile.times.recalibrate, 16777220);
    PACK(profile.times.start, 16777221);
    PACK(profile.times.diagnostic, 16777222);
    PACK(profile.times.offset, 16777223);
}

static void state(int i) {
    size_t at = offsetof(struct esdi_chain, states) + (size_t)i * sizeof(struct esdi_state);
#define STATE(path, mark) SEES(at + offsetof(struct esdi_state, path), sizeof room.chain.states[0].path, mark)
    STATE(body.busy, 50331649 + i);
    STATE(body.head_timer, 16777224);
    STATE(body.cylinder, 4101);
    STATE(body.offset, 24);
    STATE(body.lost, 25);
    STATE(body.latched, 4102);
    STATE(body.sector, 4103);
    STATE(body.head, 26);
    STATE(body.motor, 27);
    STATE(body.reading, 28);
    STATE(body.writing, 29);
    STATE(body.standing, 16777230);
    STATE(transfer.waiting, 16777225);
    STATE(transfer.bits, 16777226);
    STATE(transfer.response, 16777227);
    STATE(transfer.count, 4108);
    STATE(transfer.way, 30);
    STATE(transfer.acknowledge, 32);
}

static struct esdi_chain chain;
static uint8_t file[4095 + 44];
static const struct esdi_body *const body = &chain.states[0].body;

/* A word at once to the drive in slot 1, its parity bit put to it; the response without its own. */
static uint32_t sent(uint32_t word) {
    uint32_t ones = 0;
    for (uint32_t rest = word; rest; rest >>= 1)
        ones += rest & 1;
    return ESDI_RESPONSE(esdi_word(&chain, 1, word * 2 + (ones + 1) % 2)) >> 1;
}

#define IS(what, code)                                                                              \
    do {                                                                                            \
        unsigned long long got = (what), want = (code);                                             \
        if (got != want && ++wrong)                                                                 \
            printf("layout: %s is %llu, not %s, %llu\n", #what, got, #code, want);                  \
    } while (0)

static void fitted(void) {
    const struct esdi_profile profile = {
        .slot = 1,
        .general = ESDI_GENERAL_DRIVE_HARD_SECTORED | ESDI_GENERAL_MOTOR_OPTION | ESDI_GENERAL_REMOVABLE |
                   ESDI_GENERAL_RATE_TO_10_MHZ | ESDI_GENERAL_OFFSET_OPTION,
        .write_protected = 1,
        .shape = {.cylinders = 1, .heads = 1, .track = 4095, .sector = 512},
        .times = {.start = 1},
    };
    IS(esdi_lay(file, sizeof file, &profile), ESDI_TAKEN);
    IS(esdi_fit(&chain, file, sizeof file), ESDI_TAKEN);
}

static void words(void) {
    IS(body->motor, ESDI_MOTOR_UP);
    IS(sent(0x2000), ESDI_STATUS_POWER_ON | ESDI_STATUS_PROTECTED_REMOVABLE);
    sent(0x5000);
    IS(body->latched, 0);
    sent(0x7200);
    IS(body->offset, ESDI_OFFSET_PLUS);
    sent(0x7300);
    IS(body->offset, ESDI_OFFSET_MINUS);
    sent(0x7000);
    IS(body->offset, ESDI_OFFSET_NONE);
    sent(0xF000);
    IS(body->latched, ESDI_STATUS_INVALID_COMMAND);
    IS(esdi_word(&chain, 1, 0), ESDI_FAULT);
    IS(body->latched, ESDI_STATUS_INVALID_COMMAND | ESDI_STATUS_COMMAND_PARITY);
    sent(0x5000);
    sent(0x5200);
    IS(body->motor, ESDI_MOTOR_STOPPED);
    IS(sent(0x2000), ESDI_STATUS_MOTOR_STOPPED | ESDI_STATUS_PROTECTED_REMOVABLE);
    sent(0x5300);
    IS(body->motor, ESDI_MOTOR_STARTING);
}

static void events(void) {
    const struct esdi_transfer *transfer = &chain.states[0].transfer;
    IS(esdi_event(&chain, file, sizeof file, ESDI_PASS, 1, 0), ESDI_TAKEN);
    for (uint32_t b = ESDI_CONDITION_WRITE_FAULT; b <= ESDI_CONDITION_MEDIUM_CHANGED; b++)
        IS(esdi_event(&chain, file, sizeof file, ESDI_CONDITION, 1, b), ESDI_TAKEN);
    IS(body->latched, ESDI_STATUS_WRITE_FAULT | ESDI_STATUS_SEEK_FAULT | ESDI_STATUS_MEDIUM_CHANGED);
    IS(body->standing, 1);
    sent(0x5000);
    IS(body->latched, ESDI_STATUS_WRITE_FAULT);
    IS(esdi_event(&chain, file, sizeof file, ESDI_CONDITION, 1, ESDI_CONDITION_WRITE_FAULT_ENDS), ESDI_TAKEN);
    IS(body->standing, 0);
    IS(body->latched, ESDI_STATUS_WRITE_FAULT);
    sent(0x5000);
    IS(body->latched, 0);
    IS(esdi_event(&chain, file, sizeof file, ESDI_SELECT, 1, 0), ESDI_TAKEN);
    IS(ESDI_ANSWER(esdi_lines(&chain)), ESDI_TAKEN);
    IS(ESDI_VALUE(esdi_lines(&chain)), ESDI_LINE_SELECTED | ESDI_LINE_READY | ESDI_LINE_COMPLETE);
    IS(transfer->way, ESDI_WAY_NONE);
    IS(esdi_event(&chain, file, sizeof file, ESDI_REQUEST, 1, 0), ESDI_TAKEN);
    IS(ESDI_VALUE(esdi_lines(&chain)), ESDI_LINE_SELECTED | ESDI_LINE_READY | ESDI_LINE_ACKNOWLEDGE);
    IS(transfer->way, ESDI_WAY_TAKING);
    IS(esdi_event(&chain, file, sizeof file, ESDI_SELECT, 0, 0), ESDI_FAULT);
    IS(body->latched, ESDI_STATUS_INTERFACE_FAULT);
}

int main(void) {
    fitted();
    words();
    events();
    memset(&room, 0xA5, sizeof room);
    esdi_marks(&room.chain);
    for (int i = 0; i < ESDI_SLOTS; i++) {
        pack(i);
        state(i);
    }
    FIELD(lines.select, 33);
    FIELD(lines.heads, 34);
    FIELD(lines.write_gate, 4106);
    FIELD(lines.read_gate, 4107);
    FIELD(lines.command_data, 37);
    FIELD(lines.request, 38);
    FIELD(length, 16777228);
    /* no byte is padding, and the library writes nothing past the record */
    if (covered != sizeof room.chain && ++wrong)
        printf("layout: the fields have %zu bytes, the record %zu\n", covered, sizeof room.chain);
    for (size_t i = 0; i < sizeof room.past; i++)
        if (room.past[i] != 0xA5 && ++wrong)
            printf("layout: byte %zu past the record was written\n", i);
    /* no field is wider than four bytes: the record is aligned to four */
    if (_Alignof(struct esdi_chain) != 4 && ++wrong)
        printf("layout: alignment %zu\n", _Alignof(struct esdi_chain));
    printf("layout: %zu bytes, aligned to %zu, %d wrong\n", sizeof room.chain, _Alignof(struct esdi_chain), wrong);
    return wrong != 0;
}
