/* The command side of a replacement disk board: a chain of up to seven serial-mode ESDI drives on one control cable.
 *
 * Every function is proved: it takes any record, any file and any numbers, and says by a number what it refuses.
 * What C's own types say must hold: a pointer to a record, a pack or a profile points at one, and a file's pointer,
 * a capture's or the answers' at as many bytes as its length says (any pointer will do where the length is 0). What one
 * call is lent may not overlap.
 *
 * A record is plain data, without pointers or padding. It may be copied, kept and compared byte by byte. All zeros is
 * the empty chain: no drive, all lines low, a file of length 0. Fields may be read at any time; a record that was
 * written to by hand is checked by every call that acts on it and refused with 22 where the rules could not have left
 * it.
 *
 * Link with libesdi.a, which `rt lib` in crates/esdi writes. */
#ifndef ESDI_H
#define ESDI_H

#include <stddef.h>
#include <stdint.h>

#ifdef __cplusplus
extern "C" {
#endif

/* The answers' numbers. */
enum esdi_answer {
    ESDI_TAKEN = 0,         /* taken */
    ESDI_READ = 1,          /* byte read: the value is the byte */
    ESDI_WRITTEN = 2,       /* byte written */
    ESDI_UNSELECTED = 3,    /* no fitted drive selected */
    ESDI_INHIBITED = 4,     /* inhibited, nothing latched */
    ESDI_FAULT = 5,         /* a fault rule applied */
    ESDI_UNKNOWN_KIND = 20, /* refused, as are all below: unknown kind */
    ESDI_OUT_OF_RANGE = 21, /* operand out of range */
    ESDI_MALFORMED = 22,    /* chain record malformed */
    ESDI_WRONG_LENGTH = 23, /* the file's length isn't the record's */
    ESDI_INAPPLICABLE = 24, /* condition, word or pack of an empty slot, or condition 3 on a fixed drive */
    ESDI_PAST_TRACK = 25,   /* cell position at or past the track's length */
    ESDI_SHORT = 30,        /* of a pack file: fewer than 44 bytes left */
    ESDI_DISTANCE = 31,     /* distance below 44 or more than is left */
    ESDI_FORM = 32,         /* other form */
    ESDI_FIELD = 33,        /* a field */
    ESDI_SIZE = 34,         /* distance isn't cylinders x heads x track length + 44 */
    ESDI_ORDER = 35,        /* slots not rising through the file */
    ESDI_LARGE = 36,        /* over 2,147,483,647 bytes */
    ESDI_ROOM = 37,         /* too little room, of a part or for answers */
    ESDI_CAPTURE = 40       /* not a capture */
};

/* The kinds of events. Kinds 0 to 5 are the lines that the host drives, under their names in struct esdi_levels. */
enum esdi_kind {
    ESDI_SELECT = 0,       /* a: drive select code 0..7, 0 = none */
    ESDI_HEADS = 1,        /* a: head lines 0..15 */
    ESDI_WRITE_GATE = 2,   /* a: level, as of the next three */
    ESDI_READ_GATE = 3,
    ESDI_COMMAND_DATA = 4, /* the host's bits go this way, the drive's by ESDI_LINE_CONFIGURATION_STATUS */
    ESDI_REQUEST = 5,
    ESDI_PASS = 6,         /* a: microseconds 0..65,535 */
    ESDI_CELL = 7,         /* a: position in the track 0..65,535, b: byte */
    ESDI_CONDITION = 8     /* a: slot 1..7, b: a condition */
};

/* The conditions, b of ESDI_CONDITION. */
enum esdi_condition {
    ESDI_CONDITION_WRITE_FAULT = 1, /* a write fault begins; it stands until it is ended */
    ESDI_CONDITION_SEEK_ERROR = 2,
    ESDI_CONDITION_MEDIUM_CHANGED = 3, /* on a removable drive only */
    ESDI_CONDITION_WRITE_FAULT_ENDS = 4 /* nothing changes where none stands; bit 1 stays until the word 5000h */
};

/* The lines that the selected drive shows, as esdi_lines adds them up. */
enum esdi_line {
    ESDI_LINE_SELECTED = 1,
    ESDI_LINE_READY = 2,
    ESDI_LINE_ACKNOWLEDGE = 4,
    ESDI_LINE_CONFIGURATION_STATUS = 8, /* a response's bits */
    ESDI_LINE_ATTENTION = 16,
    ESDI_LINE_COMPLETE = 32
};

/* The bits of the status word, which a drive responds to the word 2000h. Those up to 256 are latched: they stand in
 * the field latched until the word 5000h clears them, all but ESDI_STATUS_WRITE_FAULT where a write fault stands. The
 * last three follow the drive. */
enum esdi_status {
    ESDI_STATUS_MEDIUM_CHANGED = 1,
    ESDI_STATUS_WRITE_FAULT = 2,
    ESDI_STATUS_WRITE_WITH_OFFSET = 8,
    ESDI_STATUS_SEEK_FAULT = 16,
    ESDI_STATUS_INVALID_COMMAND = 32,
    ESDI_STATUS_INTERFACE_FAULT = 64,
    ESDI_STATUS_COMMAND_PARITY = 128,
    ESDI_STATUS_POWER_ON = 256,
    ESDI_STATUS_MOTOR_STOPPED = 512,
    ESDI_STATUS_PROTECTED_FIXED = 4096,
    ESDI_STATUS_PROTECTED_REMOVABLE = 8192
};

/* The bits of a profile's general word. Of the three sectorings, of fixed and removable, and of the three transfer
 * rates exactly one stands; slow heads exactly where head_switch is over 15; 4,096 and 32,768 never. Else the profile
 * is refused with 33. */
enum esdi_general {
    ESDI_GENERAL_CONTROLLER_HARD_SECTORED = 1,
    ESDI_GENERAL_DRIVE_HARD_SECTORED = 2,
    ESDI_GENERAL_SOFT_SECTORED = 4,
    ESDI_GENERAL_RLL = 8, /* not MFM */
    ESDI_GENERAL_SLOW_HEADS = 16, /* head switch over 15 microseconds */
    ESDI_GENERAL_MOTOR_OPTION = 32, /* words that stop and start the motor are valid */
    ESDI_GENERAL_FIXED = 64,
    ESDI_GENERAL_REMOVABLE = 128,
    ESDI_GENERAL_RATE_TO_5_MHZ = 256,
    ESDI_GENERAL_RATE_TO_10_MHZ = 512,
    ESDI_GENERAL_RATE_OVER_10_MHZ = 1024,
    ESDI_GENERAL_SPEED_TOLERANCE = 2048, /* over 0.5 in 100 */
    ESDI_GENERAL_OFFSET_OPTION = 8192, /* words that set the track offset are valid */
    ESDI_GENERAL_SPEED_TOLERANCE_GAP = 16384
};

/* The field offset, of the track. */
enum esdi_offset {
    ESDI_OFFSET_NONE = 0,
    ESDI_OFFSET_PLUS = 1, /* +1 */
    ESDI_OFFSET_MINUS = 2 /* -1 */
};

/* The field motor. */
enum esdi_motor {
    ESDI_MOTOR_STOPPED = 0,
    ESDI_MOTOR_STARTING = 1,
    ESDI_MOTOR_UP = 2
};

/* The field way: which way the bits of the open transfer go. */
enum esdi_way {
    ESDI_WAY_NONE = 0,      /* no transfer open */
    ESDI_WAY_TAKING = 1,    /* a word's bits from the host */
    ESDI_WAY_RESPONDING = 2 /* a response's bits to the host */
};

/* The slots of a chain, 1 to 7. */
#define ESDI_SLOTS 7

/* What a pack's trailer says of its shape. */
struct esdi_shape {
    uint16_t cylinders; /* 1..4,096 */
    uint16_t heads;     /* 1..16 */
    uint16_t track;     /* bytes, 4,095..40,960 */
    uint16_t sector;    /* bytes, 162..4,095, or 0 exactly if soft sectored */
};

/* Microseconds. */
struct esdi_times {
    uint32_t settle;                         /* up to 60,000; not spent where a seek finds the heads there already */
    uint32_t step;                           /* a cylinder, up to 1,000 */
    uint32_t head_switch;                    /* up to 60,000 */
    uint32_t recalibrate, start, diagnostic; /* up to 30,000,000 each */
    uint32_t offset;                         /* up to 60,000 */
};

struct esdi_profile {
    uint8_t slot; /* 1..7 */
    uint8_t vendor;
    uint16_t general; /* a sum of esdi_general's */
    uint8_t gap, sync; /* bytes; a word can set no sector size that gap + 2 x sync fill */
    uint16_t write_protected; /* 0 or 1 */
    struct esdi_shape shape;
    struct esdi_times times;
};

/* A slot's pack. */
struct esdi_pack {
    uint32_t fitted; /* 0 or 1 */
    uint32_t place;  /* where its medium starts in the file */
    struct esdi_profile profile;
};

/* What a drive is doing, all but its transfer. */
struct esdi_body {
    uint32_t busy, head_timer; /* microseconds left */
    uint16_t cylinder;
    uint8_t offset; /* an esdi_offset */
    uint8_t lost;   /* 1 where the position is lost */
    uint16_t latched; /* a sum of esdi_status's first eight */
    uint16_t sector;  /* the size now in force: the pack's, or the last that a word set */
    uint8_t head;
    uint8_t motor; /* an esdi_motor */
    uint8_t reading, writing;
    uint32_t standing; /* 1 while a write fault stands: ESDI_STATUS_WRITE_FAULT is then latched */
};

struct esdi_transfer {
    uint32_t waiting;  /* microseconds since the last request edge */
    uint32_t bits;     /* the bits taken, the last one lowest */
    uint32_t response; /* seventeen bits, parity lowest */
    uint16_t count;    /* bits taken, or put out */
    uint8_t way;       /* an esdi_way */
    uint8_t acknowledge;
};

struct esdi_state {
    struct esdi_body body;
    struct esdi_transfer transfer;
};

/* The levels of the lines that the host drives. */
struct esdi_levels {
    uint8_t select, heads;
    uint16_t write_gate, read_gate;
    uint8_t command_data, request;
};

/* The chain record. Slot n is element n - 1. No byte of it is padding: some flags are wider than they need to be, so
 * that the fields fill it. Two records are the same exactly where their bytes are. */
struct esdi_chain {
    struct esdi_pack packs[ESDI_SLOTS];
    struct esdi_state states[ESDI_SLOTS];
    struct esdi_levels lines;
    uint32_t length; /* the file's */
};

/* A compiler that packs structs otherwise, or whose numbers are of other sizes, is found out here. */
#ifdef __cplusplus
static_assert(sizeof(struct esdi_chain) == 656, "the chain record doesn't lie in memory as the library's");
#else
_Static_assert(sizeof(struct esdi_chain) == 656, "the chain record doesn't lie in memory as the library's");
#endif

/* A code taken apart: the answer in the low byte, the value in the next, a place or a response in the high half; of a
 * capture's code all above the low byte is a count. */
#define ESDI_ANSWER(code) ((unsigned)((code) & 255))
#define ESDI_VALUE(code) ((unsigned)((code) >> 8 & 255))
#define ESDI_PLACE(code) ((uint32_t)((uint64_t)(code) >> 32))
#define ESDI_RESPONDS(code) ((unsigned)((code) >> 8 & 1))
#define ESDI_RESPONSE(code) ((uint32_t)((uint64_t)(code) >> 32))
#define ESDI_COUNT(code) ((uint64_t)(code) >> 8)

/* Fits a chain from a pack file: a fresh drive for each pack, all lines low.
 * 0 where the file is taken. Else the answer is 30 to 36, ESDI_PLACE the end of the pack that is refused (0 for 36),
 * and the record is as it was. The media are not looked at. */
uint64_t esdi_fit(struct esdi_chain *chain, const uint8_t *file, size_t length);

/* An event. ESDI_ANSWER is 0 to 5 or 20 to 25, ESDI_VALUE the byte where the answer is 1, else 0.
 * Answer 1 leaves the record and the file as they were; answer 2 leaves the record and writes one byte of the file;
 * 0, 3, 4 and 5 leave the file; 20 to 25 leave both. They are tried in the order of their numbers. */
uint32_t esdi_event(struct esdi_chain *chain, uint8_t *file, size_t length, uint32_t kind, uint32_t a, uint32_t b);

/* Runs a logic analyser's capture: samples of six bytes, a stamp in microseconds (four) and the lines' levels (two),
 * high byte first. In the levels bits 0 to 2 are the select code, 3 to 6 the head lines, 7 read gate, 8 write gate, 9
 * command data, 10 request. The record, the file and the answers are those of esdi_event, called for these events one
 * after the other. For each sample but the first: the time since the one before, as ESDI_PASS of 65,535 as often as
 * that goes, and one of the rest if it isn't 0. For each sample: every line whose level isn't that of the sample
 * before, or of the record for the first sample, in the order of the bits. An event's answer takes two bytes of
 * answers, first its ESDI_ANSWER, then its ESDI_VALUE; bytes past the last stay.
 *
 * ESDI_ANSWER is 0, 40 not a capture, or 37 answers shorter than two bytes an event; 40 is tried first, and both leave
 * the record, the file and the answers as they were. A capture is whole samples, any number of them and none too, with
 * 0 in bits 11 to 15 of the levels. ESDI_COUNT is the number of events, for 37 as well; for 40 it is the place, in
 * bytes, where the first sample that is none begins. It is 2^56 - 1 where it would be more. What esdi_event refuses is
 * no refusal here: on a record that is malformed, or with a file of another length, each event is answered 22 or 23.
 *
 * The stamp runs over at 2^32. A pause of 2^32 microseconds (71 min 35 s) or more between two samples can't be told:
 * what is left of it is taken. Lines that change in one sample are taken in the order of the bits, whichever was first
 * on the cable: a write gate that falls as the read gate rises meets it as both on, which is bit 6, and a request that
 * falls as another drive is selected comes too late for its transfer, which is left open: bit 6 too.
 *
 * A capture may be run in parts. Cut at a sample, which ends the first part and begins the second, it gives the same
 * as the whole, where the record isn't malformed and the file's length is the record's. */
uint64_t esdi_capture(struct esdi_chain *chain, uint8_t *file, size_t length, const uint8_t *capture,
                      size_t capture_length, uint8_t *answers, size_t answers_length);

/* How many events a capture has, from the lines as they stand in the record: ESDI_ANSWER 0 and ESDI_COUNT, each asking
 * for two bytes of answers; or 40 and the place, as of esdi_capture. No record is refused. */
uint64_t esdi_capture_count(const struct esdi_chain *chain, const uint8_t *capture, size_t capture_length);

/* What the selected drive shows: ESDI_ANSWER 0 and ESDI_VALUE a sum of the lines above, 0 where no fitted drive is
 * selected; or 22 record malformed. */
uint32_t esdi_lines(const struct esdi_chain *chain);

/* The plain word rules: a word of seventeen bits, word * 2 + parity, at once to the drive in a slot, 1 to 7.
 * ESDI_ANSWER is 0 taken, 5 a fault latched (bit 6 on a drive that reads, writes or isn't complete; bits 7, 5 and 4
 * of the word), 21 a slot or a word out of range, 22 record malformed, 24 empty slot, tried in that order.
 * ESDI_RESPONDS is 1 where there is a response, and ESDI_RESPONSE then its seventeen bits, parity lowest.
 * A refusal leaves the record as it was. */
uint64_t esdi_word(struct esdi_chain *chain, uint32_t slot, uint32_t word);

/* The status of a pack file: ESDI_ANSWER 0 and ESDI_VALUE the number of packs; or 30 to 36 with ESDI_PLACE. */
uint64_t esdi_packs(const uint8_t *file, size_t length);

/* Fills *pack with the pack in a slot, 1 to 7, of a pack file: its place and its fields. 0 where one is there. Else
 * ESDI_ANSWER is 21 slot out of range, 30 to 36 with ESDI_PLACE of the file, 24 empty slot, tried in that order, and
 * *pack is as it was. */
uint64_t esdi_pack_at(struct esdi_pack *pack, const uint8_t *file, size_t length, uint32_t slot);

/* Lays a pack at the start of a part of a file: a zeroed medium and its trailer. 0, or 33 a field of the profile, 36
 * longer than 2,147,483,647 bytes, 37 too little room, tried in that order; then not a byte is written. Bytes past
 * the pack stay.
 *
 * It writes in this order: the form, fifth byte from the pack's end, to 0; the medium; the trailer's first 40 bytes;
 * the distance, its last four. So a card that is pulled meanwhile holds no pack that looks finished: cut at the pack's
 * end it is refused, or it is the whole pack. A host that lays in memory and then copies to a card keeps that order on
 * the card. Of a longer pack that stood there the trailer stays, past the new one's end: cut the file there first. */
uint32_t esdi_lay(uint8_t *part, size_t length, const struct esdi_profile *profile);

/* Fills a record with marks, a number of its own in each field of a struct, by which host/layout.c sees that the
 * structs above lie in memory as the library's do. It is no chain. */
void esdi_marks(struct esdi_chain *chain);

#ifdef __cplusplus
}
#endif

#endif
