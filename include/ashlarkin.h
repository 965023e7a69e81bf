/* Ashlarkin: lines of the Game Boy Advance's picture, drawn from captured video memory by a proved library.

   Link libashlarkin.a, which `make library` writes to host/target/proved/. It is object code for x86-64 Linux.
   include/example.c draws a whole frame.

   Every function answers 0 where it did its work, and otherwise one of the numbers below. They are tested in this
   order, the first that applies is the answer, and a refusal changes no lent byte. A byte store that changes nothing,
   to OAM or to sprite tiles, is no refusal. The numbers are those of docs/01-scope.md, and from 8 on those of
   docs/02-change-requests.md, which has no 10. The answer is what a function returns; ashlarkin_explain and
   ashlarkin_read8 return a struct whose `number` is the answer, and with a refusal every other field is 0.

   A buffer is a pointer and then its length in bytes. The length must be that of the memory behind the pointer: any
   length is answered (2 where it isn't the one expected), and nothing is read or written through a buffer of another
   length than the one expected. A pointer may be null only with length 0. A buffer that is written may not overlap
   another buffer of the same call; those that are only read may overlap each other, so all of ashlarkin_explain's and
   all of ashlarkin_read8's may, which write none. For a store all three memories count as written, whichever it is to.
   A row of records is a pointer and then its count of records, and the same holds for it.

   Nothing is kept between calls and nothing is allocated, so any number of threads may call at once, each with buffers
   of its own where they are written. */
#ifndef ASHLARKIN_H
#define ASHLARKIN_H

#include <stddef.h>
#include <stdint.h>
#ifndef __cplusplus
#include <stdbool.h>
#endif

#ifdef __cplusplus
extern "C" {
#endif

enum {
    ASHLARKIN_DRAWN = 0,       /* done: all 240 pixels, the row, or the references are written, the reason or the byte is
                                  given, the store is done or is one that changes nothing */
    ASHLARKIN_READING = 1,     /* the reading is neither 0 nor 1 */
    ASHLARKIN_LENGTH = 2,      /* a buffer has another length */
    ASHLARKIN_LINE = 3,        /* the line is 160 or more */
    ASHLARKIN_MODE = 4,        /* forced blank off, mode 6 or 7 */
    ASHLARKIN_BRIGHTNESS = 5,  /* forced blank off, reading R, low five bits of BLDY above 16 */
    ASHLARKIN_REFERENCE = 6,   /* forced blank off, a reference outside -2^28 .. 2^28 - 1 */
    ASHLARKIN_ENTRY = 7,       /* forced blank off, an entry not well shaped */
    ASHLARKIN_COLUMN = 8,      /* the column is 240 or more */
    ASHLARKIN_PAGE = 9,        /* the address lies on another page than 5, 6 and 7 */
    ASHLARKIN_ODD_ADDRESS = 11 /* a halfword store at an odd address of page 6 */
};

enum {
    ASHLARKIN_READING_R = 0, /* as the emulator's Rust draws */
    ASHLARKIN_READING_H = 1  /* as the hardware notes say, where they part from the Rust (docs/DIFFERENCES.md) */
};

/* The lengths expected. */
enum {
    ASHLARKIN_VRAM_LEN = 131072,
    ASHLARKIN_PALETTE_LEN = 1024,
    ASHLARKIN_OAM_LEN = 1024,
    ASHLARKIN_REGISTERS_LEN = 86,  /* I/O offsets 0x00 to 0x55, little-endian */
    ASHLARKIN_ENTRIES_LEN = 960,   /* 240 object entries: colour (2 bytes, little-endian), priority, marks */
    ASHLARKIN_OUTPUT_LEN = 960,    /* 240 pixels: little-endian words 0x00RRGGBB */
    ASHLARKIN_REFERENCES_LEN = 16, /* x2, y2, x3, y3: signed 32-bit words, little-endian */
    ASHLARKIN_RECORDS_COUNT = 240  /* a row of records, counted in records */
};

/* A background's numbers for rotation and scaling: the matrix, the reference point as written, and as it runs. */
struct BgAffine {
    int16_t pa, pb, pc, pd;
    int32_t x, y;
    int32_t internal_x, internal_y;
};

/* An object entry as a record of 6 bytes: alpha is bit 0 of the entry's marks (semi-transparent), window is bit 1. The
   reset entry is {false, false, 0x8000, 4}. A bool must hold 0 or 1. Assigning to the field sees to it; bytes copied
   into a record must be 0 or 1 there, since no answer is promised for others. */
struct ObjBufferEntry {
    bool window;
    bool alpha;
    uint16_t color;
    uint16_t priority;
};

/* The window that a column lies in. */
enum {
    ASHLARKIN_REGION_NO_WINDOWS = 0,
    ASHLARKIN_REGION_WINDOW0 = 1,
    ASHLARKIN_REGION_WINDOW1 = 2,
    ASHLARKIN_REGION_OBJECT_WINDOW = 3,
    ASHLARKIN_REGION_OUTSIDE = 4 /* a window is on, and none holds it */
};

/* The layers, each the number of its bit in BLDCNT. */
enum {
    ASHLARKIN_LAYER_BACKGROUND0 = 0,
    ASHLARKIN_LAYER_BACKGROUND1 = 1,
    ASHLARKIN_LAYER_BACKGROUND2 = 2,
    ASHLARKIN_LAYER_BACKGROUND3 = 3,
    ASHLARKIN_LAYER_OBJECTS = 4,
    ASHLARKIN_LAYER_BACKDROP = 5,
    ASHLARKIN_LAYER_NONE = 6 /* forced blank */
};

/* What becomes of the top layer's colour: named by its case, not by what it changes, so white by 0 is white. */
enum {
    ASHLARKIN_EFFECT_NONE = 0,
    ASHLARKIN_EFFECT_SPRITE_BLEND = 1,  /* a semi-transparent sprite's, with the layer behind it */
    ASHLARKIN_EFFECT_CONTROL_BLEND = 2, /* BLDCNT's, with the layer behind it */
    ASHLARKIN_EFFECT_WHITE = 3,
    ASHLARKIN_EFFECT_BLACK = 4
};

/* Why a column has its colour. Under forced blank blank is 1, top and bottom are 6, pixel is 0xf8f8f8, and every other
   field is 0. */
struct ashlarkin_reason {
    uint32_t number;                      /* 0, or the refusal; then every other field is 0 */
    uint32_t blank;                       /* 1: forced blank, and no layer is named */
    uint32_t region;                      /* ASHLARKIN_REGION_.. */
    uint32_t top, bottom;                 /* ASHLARKIN_LAYER_..: the first two; nothing but the backdrop: 5 and 5 */
    uint32_t effect;                      /* ASHLARKIN_EFFECT_.. */
    uint16_t top_color, bottom_color;     /* as the layers have them: 15 bits, and bit 15 as it was */
    uint16_t first_weight, second_weight; /* in sixteenths: EVA and EVB as the reading counts them, 16 - EVY and EVY, or
                                             16 and 0 without an effect */
    uint32_t pixel;                       /* the colour that follows, 0x00RRGGBB */
};

/* A byte that was read. */
struct ashlarkin_byte {
    uint32_t number; /* 0, or the refusal; then the value is 0 */
    uint32_t value;  /* 0 to 255 */
};

/* Draws one line, 0 to 159, and puts the line's sprites into the entries.

   x2, y2, x3, y3 are the running reference points of backgrounds 2 and 3; those in the registers aren't read. Each line
   of a frame starts with reset entries; a second draw of the same line may go on with the entries of the first. */
uint32_t ashlarkin_draw(uint32_t reading, uint32_t line, int32_t x2, int32_t y2, int32_t x3, int32_t y3,
    const uint8_t *vram, size_t vram_len, const uint8_t *palette, size_t palette_len,
    const uint8_t *oam, size_t oam_len, const uint8_t *registers, size_t registers_len,
    uint8_t *entries, size_t entries_len, uint8_t *output, size_t output_len);

/* Writes 240 reset entries: colour 0x8000, priority 4, marks 0. Returns 0 or 2. */
uint32_t ashlarkin_reset(uint8_t *entries, size_t entries_len);

/* The step at a line's end: adds pb to x and pd to y, for backgrounds 2 and 3. Returns 0, 2, or 6 where a reference is
   out of range before or after; then all four stay. Under reading H it follows every line, under R lines 1 to 159. */
uint32_t ashlarkin_step(int16_t pb2, int16_t pd2, int16_t pb3, int16_t pd3, uint8_t *references, size_t references_len);

/* The step on records: adds each record's own pb to its internal_x and pd to its internal_y. Returns 0, or 6 where one
   of the four is out of range before or after; then both records stay as they were, all or nothing. No other field is
   judged or changed. The two are different records, and neither pointer is null. */
uint32_t ashlarkin_step_records(struct BgAffine *bg2, struct BgAffine *bg3);

/* The draw on a row of 240 records in place of the entry bytes: the byte form's numbers in its order, its output and
   its entries. Another count than 240 gives 2, as another length does. A priority is judged whole: 256 and more is ill
   shaped, which gives 7, whatever its low byte. A refusal changes no record and no byte, and forced blank leaves every
   record exactly as it was. */
uint32_t ashlarkin_draw_records(uint32_t reading, uint32_t line, int32_t x2, int32_t y2, int32_t x3, int32_t y3,
    const uint8_t *vram, size_t vram_len, const uint8_t *palette, size_t palette_len,
    const uint8_t *oam, size_t oam_len, const uint8_t *registers, size_t registers_len,
    struct ObjBufferEntry *entries, size_t count, uint8_t *output, size_t output_len);

/* Why a column, 0 to 239, has the colour that a draw on these entries gives it. It speaks of the entries as they stand
   after that draw, and takes those from before it. Nothing is drawn, and no lent byte is written. The draw's numbers in
   its order, and then 8; all 240 entries are judged, not the column's alone. */
struct ashlarkin_reason ashlarkin_explain(uint32_t reading, uint32_t line, int32_t x2, int32_t y2, int32_t x3,
    int32_t y3, const uint8_t *vram, size_t vram_len, const uint8_t *palette, size_t palette_len, const uint8_t *oam,
    size_t oam_len, const uint8_t *registers, size_t registers_len, const uint8_t *entries, size_t entries_len,
    uint32_t column);

/* Memory by address, as the bus has it. The top eight bits of an address are its page: 5 is the palette, 6 video
   memory, 7 OAM, and any other gives 9. The palette and OAM repeat every 1,024 bytes; an offset into video memory is
   taken modulo 0x20000, and one from 0x18000 on loses 0x8000. All lent lengths are judged, whichever page it is. */

/* The byte at an address. Numbers 0, 2, 9. */
struct ashlarkin_byte ashlarkin_read8(uint32_t address, const uint8_t *vram, size_t vram_len, const uint8_t *palette,
    size_t palette_len, const uint8_t *oam, size_t oam_len);

/* Stores a byte: it fills both halves of its halfword in the palette and in background memory, and changes nothing in
   OAM and sprite tiles. These start at 0x14000 if the registers' mode is 3 to 7, and else at 0x10000; what counts is
   where the byte would be written, so that in mode 3 one at 0x06018000 is written at 0x10000. Returns 0, 2 or 9. */
uint32_t ashlarkin_store8(uint32_t address, uint8_t value, const uint8_t *registers, size_t registers_len,
    uint8_t *vram, size_t vram_len, uint8_t *palette, size_t palette_len, uint8_t *oam, size_t oam_len);

/* Stores a halfword, little-endian, to OAM and sprite tiles, too. On pages 5 and 7 bit 0 of the address is cleared; on
   page 6 an odd address gives 11. Returns 0, 2, 9 or 11. */
uint32_t ashlarkin_store16(uint32_t address, uint16_t value, uint8_t *vram, size_t vram_len, uint8_t *palette,
    size_t palette_len, uint8_t *oam, size_t oam_len);

#ifdef __cplusplus
}
#endif

#endif
