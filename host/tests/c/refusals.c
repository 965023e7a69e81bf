/* The library's refusals as a C program meets them: each number is returned, no lent byte changes, nor any beside. And
   what C alone sees of a reason: every field of it, with a refusal and under forced blank, too. And the bus: what each
   read gives, and which two bytes each store changes. */
#include <stdio.h>
#include <stdlib.h>
#include <string.h>

#include "ashlarkin.h"

/* More than the library takes, so that longer lengths lie in real memory. */
enum { SPARE = 64, CANARY = 0xa5 };

static uint8_t vram[ASHLARKIN_VRAM_LEN + SPARE], palette[ASHLARKIN_PALETTE_LEN + SPARE], oam[ASHLARKIN_OAM_LEN + SPARE];
static uint8_t registers[ASHLARKIN_REGISTERS_LEN + SPARE], entries[ASHLARKIN_ENTRIES_LEN + SPARE];
static uint8_t output[ASHLARKIN_OUTPUT_LEN + SPARE], references[ASHLARKIN_REFERENCES_LEN + SPARE];

static uint8_t *const buffers[6] = {vram, palette, oam, registers, entries, output};
static const size_t expected[6] = {ASHLARKIN_VRAM_LEN, ASHLARKIN_PALETTE_LEN, ASHLARKIN_OAM_LEN,
    ASHLARKIN_REGISTERS_LEN, ASHLARKIN_ENTRIES_LEN, ASHLARKIN_OUTPUT_LEN};

static uint8_t entries_before[sizeof entries], output_before[sizeof output], references_before[sizeof references];
static int tried;

/* assert would be compiled out with NDEBUG. */
static void check(int holds, const char *what, size_t which)
{
    tried++;
    if (!holds) {
        fprintf(stderr, "refusals: %s (%zu)\n", what, which);
        exit(1);
    }
}

static void fresh(void)
{
    for (int i = 0; i < 6; i++)
        memset(buffers[i], 0, expected[i] + SPARE);
    memset(output, CANARY, sizeof output);
    memset(entries, CANARY, sizeof entries);
    memset(references, CANARY, sizeof references);
    check(ashlarkin_reset(entries, ASHLARKIN_ENTRIES_LEN) == ASHLARKIN_DRAWN, "reset", 0);
}

static void remember(void)
{
    memcpy(entries_before, entries, sizeof entries);
    memcpy(output_before, output, sizeof output);
    memcpy(references_before, references, sizeof references);
}

static int unchanged(void)
{
    return !memcmp(entries_before, entries, sizeof entries) && !memcmp(output_before, output, sizeof output)
        && !memcmp(references_before, references, sizeof references);
}

static uint32_t draw(uint32_t reading, uint32_t line, int32_t x2, const size_t lens[6])
{
    return ashlarkin_draw(reading, line, x2, 0, 0, 0, lens[0] ? vram : NULL, lens[0], lens[1] ? palette : NULL, lens[1],
        lens[2] ? oam : NULL, lens[2], lens[3] ? registers : NULL, lens[3], lens[4] ? entries : NULL, lens[4],
        lens[5] ? output : NULL, lens[5]);
}

static void refused(uint32_t number, uint32_t reading, uint32_t line, int32_t x2, const size_t lens[6])
{
    remember();
    check(draw(reading, line, x2, lens) == number, "a draw gives its number", number);
    check(unchanged(), "a refused draw changes no byte", number);
}

static void wrong_lengths(void)
{
    for (int i = 0; i < 6; i++) {
        const size_t wrong[6] = {0, 1, expected[i] / 2, expected[i] - 1, expected[i] + 1, expected[i] + SPARE};
        for (int j = 0; j < 6; j++) {
            size_t lens[6];
            memcpy(lens, expected, sizeof lens);
            lens[i] = wrong[j];
            fresh();
            refused(ASHLARKIN_LENGTH, 0, 0, 0, lens);
        }
    }
    for (size_t len = 0; len <= sizeof entries; len++) {
        if (len == ASHLARKIN_ENTRIES_LEN)
            continue;
        memset(entries, CANARY, sizeof entries);
        remember();
        check(ashlarkin_reset(len ? entries : NULL, len) == ASHLARKIN_LENGTH && unchanged(),
            "a reset of another length", len);
    }
    for (size_t len = 0; len <= sizeof references; len++) {
        if (len == ASHLARKIN_REFERENCES_LEN)
            continue;
        memset(references, 0x7f, sizeof references);
        remember();
        check(ashlarkin_step(1, 1, 1, 1, len ? references : NULL, len) == ASHLARKIN_LENGTH && unchanged(),
            "a step of another length", len);
    }
}

static void other_refusals(void)
{
    fresh();
    refused(ASHLARKIN_READING, 2, 0, 0, expected);
    refused(ASHLARKIN_LINE, 0, 160, 0, expected);
    refused(ASHLARKIN_REFERENCE, 0, 0, 1 << 28, expected);
    registers[0] = 7;
    refused(ASHLARKIN_MODE, 0, 0, 0, expected);
    registers[0] = 0;
    registers[0x54] = 17;
    refused(ASHLARKIN_BRIGHTNESS, 0, 0, 0, expected);
    registers[0x54] = 0;
    entries[2] = 5;
    refused(ASHLARKIN_ENTRY, 1, 0, 0, expected);

    memset(references, 0xff, sizeof references); /* four times -1 */
    references[12] = references[13] = references[14] = 0;
    references[15] = 0xf0; /* -2^28 */
    remember();
    check(ashlarkin_step(1, 2, 3, -1, references, 16) == ASHLARKIN_REFERENCE && unchanged(), "a step out of range", 0);
}

/* What is done is done within the lengths. */
static void done(void)
{
    fresh();
    remember();
    palette[0] = 0x1f; /* a red backdrop */
    check(draw(1, 159, 0, expected) == ASHLARKIN_DRAWN, "a draw", 0);
    for (size_t i = 0; i < ASHLARKIN_OUTPUT_LEN; i++)
        check(output[i] == (i % 4 == 2 ? 0xf8 : 0), "a red pixel", i);
    for (size_t i = ASHLARKIN_OUTPUT_LEN; i < sizeof output; i++)
        check(output[i] == CANARY && entries[i] == CANARY, "a byte beside the buffers", i);
    check(!memcmp(entries_before, entries, sizeof entries), "a line without sprites leaves the entries", 0);

    memset(references, 0, ASHLARKIN_REFERENCES_LEN);
    check(ashlarkin_step(1, -1, 258, 0, references, 16) == ASHLARKIN_DRAWN, "a step", 0);
    const uint8_t stepped[17] = {1, 0, 0, 0, 255, 255, 255, 255, 2, 1, 0, 0, 0, 0, 0, 0, CANARY};
    check(!memcmp(references, stepped, sizeof stepped), "the stepped references", 0);
}

_Static_assert(sizeof(struct BgAffine) == 24 && sizeof(struct ObjBufferEntry) == 6, "records have no gaps");

/* One more at the end, which no call may reach but with its count. */
static struct ObjBufferEntry row[ASHLARKIN_RECORDS_COUNT + 1], row_before[ASHLARKIN_RECORDS_COUNT + 1];

static uint32_t draw_records(uint32_t reading, size_t count)
{
    memcpy(row_before, row, sizeof row);
    remember();
    return ashlarkin_draw_records(reading, 159, 0, 0, 0, 0, vram, ASHLARKIN_VRAM_LEN, palette, ASHLARKIN_PALETTE_LEN,
        oam, ASHLARKIN_OAM_LEN, registers, ASHLARKIN_REGISTERS_LEN, count ? row : NULL, count, output,
        ASHLARKIN_OUTPUT_LEN);
}

static void refused_records(uint32_t number, uint32_t reading, size_t count)
{
    check(draw_records(reading, count) == number, "a draw on records gives its number", number);
    check(unchanged() && !memcmp(row_before, row, sizeof row), "a refused draw changes no record", number);
}

/* The forms over records. */
static void records(void)
{
    const struct ObjBufferEntry reset = {false, false, 0x8000, 4};
    fresh();
    for (size_t i = 0; i <= ASHLARKIN_RECORDS_COUNT; i++)
        row[i] = reset;
    refused_records(ASHLARKIN_READING, 2, 239);
    refused_records(ASHLARKIN_LENGTH, 1, 0);
    refused_records(ASHLARKIN_LENGTH, 1, 239);
    refused_records(ASHLARKIN_LENGTH, 1, 241);
    row[7].priority = 260;
    refused_records(ASHLARKIN_ENTRY, 1, ASHLARKIN_RECORDS_COUNT);
    registers[0] = 0x80; /* forced blank */
    check(draw_records(1, ASHLARKIN_RECORDS_COUNT) == ASHLARKIN_DRAWN && output[0] == 0xf8, "a blank draw", 0);
    check(!memcmp(row_before, row, sizeof row), "forced blank leaves the records", 0);

    /* A sprite of 8x8 at the left of line 159: its first row colour 1, semi-transparent, of priority 2. */
    fresh();
    row[7] = reset;
    row[239].window = true;
    registers[1] = 0x10;
    oam[0] = 159;
    oam[1] = 0x04;
    oam[5] = 0x08;
    memset(vram + 0x10000, 0x11, 4);
    palette[0x202] = 0x1f;
    for (size_t i = 8; i < ASHLARKIN_OAM_LEN; i += 8)
        oam[i + 1] = 0x02; /* hidden */
    check(draw_records(1, ASHLARKIN_RECORDS_COUNT) == ASHLARKIN_DRAWN, "a draw on records", 0);
    for (size_t i = 0; i <= ASHLARKIN_RECORDS_COUNT; i++) {
        const struct ObjBufferEntry *r = &row[i];
        check(r->color == (i < 8 ? 0x1f : 0x8000) && r->priority == (i < 8 ? 2 : 4), "a record's pixel", i);
        check(r->alpha == (i < 8) && r->window == (i == 239), "a record's marks", i);
    }
    check(output[2] == 0xf8 && output[4 * 8 + 2] == 0, "the sprite shows", 0);
    check(output[ASHLARKIN_OUTPUT_LEN] == CANARY, "a byte beside the output", 0);

    struct BgAffine bg2 = {1, 2, 3, -4, 5, 6, 100, 200}, bg3 = {7, 1, 8, 0, 9, 10, (1 << 28) - 2, 0};
    check(ashlarkin_step_records(&bg2, &bg3) == ASHLARKIN_DRAWN, "a step on records", 0);
    const struct BgAffine stepped2 = {1, 2, 3, -4, 5, 6, 102, 196}, stepped3 = {7, 1, 8, 0, 9, 10, (1 << 28) - 1, 0};
    check(!memcmp(&bg2, &stepped2, sizeof bg2) && !memcmp(&bg3, &stepped3, sizeof bg3), "the stepped records", 0);
    check(ashlarkin_step_records(&bg2, &bg3) == ASHLARKIN_REFERENCE, "a step on records out of range", 0);
    check(!memcmp(&bg2, &stepped2, sizeof bg2) && !memcmp(&bg3, &stepped3, sizeof bg3), "both records stay", 0);
}

_Static_assert(sizeof(struct ashlarkin_reason) == 36, "a reason has no gaps");

/* The five buffers that are lent for a reason, and to the bus, as they were. */
static uint8_t lent_before[5][sizeof vram];

static void remember_lent(void)
{
    for (int i = 0; i < 5; i++)
        memcpy(lent_before[i], buffers[i], expected[i] + SPARE);
}

static void check_lent(const char *what)
{
    for (int i = 0; i < 5; i++)
        check(!memcmp(lent_before[i], buffers[i], expected[i] + SPARE), what, (size_t)i);
}

static struct ashlarkin_reason explain(uint32_t reading, uint32_t line, int32_t x2, const size_t lens[6],
    uint32_t column)
{
    remember_lent();
    const struct ashlarkin_reason reason = ashlarkin_explain(reading, line, x2, 0, 0, 0, lens[0] ? vram : NULL, lens[0],
        lens[1] ? palette : NULL, lens[1], lens[2] ? oam : NULL, lens[2], lens[3] ? registers : NULL, lens[3],
        lens[4] ? entries : NULL, lens[4], column);
    check_lent("a reason changes no byte");
    return reason;
}

/* Every field. */
static int same(struct ashlarkin_reason a, struct ashlarkin_reason b)
{
    return a.number == b.number && a.blank == b.blank && a.region == b.region && a.top == b.top
        && a.bottom == b.bottom && a.effect == b.effect && a.top_color == b.top_color
        && a.bottom_color == b.bottom_color && a.first_weight == b.first_weight
        && a.second_weight == b.second_weight && a.pixel == b.pixel;
}

static void unexplained(uint32_t number, uint32_t reading, uint32_t line, int32_t x2, const size_t lens[6],
    uint32_t column)
{
    const struct ashlarkin_reason refusal = {.number = number};
    check(same(explain(reading, line, x2, lens, column), refusal), "a reason is refused, every other field 0", number);
}

/* All faults from a number on: the first of them is given. */
static void unexplained_in_order(void)
{
    for (uint32_t first = ASHLARKIN_READING; first <= ASHLARKIN_COLUMN; first++) {
        size_t lens[6];
        memcpy(lens, expected, sizeof lens);
        fresh();
        lens[4] -= first <= ASHLARKIN_LENGTH;
        registers[0] = first <= ASHLARKIN_MODE ? 7 : 0;
        registers[0x54] = first <= ASHLARKIN_BRIGHTNESS ? 17 : 16;
        entries[959] = first <= ASHLARKIN_ENTRY ? 4 : 0;
        unexplained(first, first <= ASHLARKIN_READING ? 2 : 0, first <= ASHLARKIN_LINE ? 160 : 159,
            first <= ASHLARKIN_REFERENCE ? 1 << 28 : 0, lens, 240);
    }
}

static void unexplained_one_by_one(void)
{
    const size_t none[6] = {0};
    fresh();
    unexplained(ASHLARKIN_LENGTH, 0, 0, 0, none, 0);
    for (int i = 0; i < 5; i++) {
        const size_t wrong[6] = {0, 1, expected[i] / 2, expected[i] - 1, expected[i] + 1, expected[i] + SPARE};
        for (int j = 0; j < 6; j++) {
            size_t lens[6];
            memcpy(lens, expected, sizeof lens);
            lens[i] = wrong[j];
            unexplained(ASHLARKIN_LENGTH, 0, 160, 0, lens, 0);
        }
    }
    unexplained(ASHLARKIN_READING, 2, 0, 0, expected, 0);
    unexplained(ASHLARKIN_LINE, 0, 160, 0, expected, 0);
    unexplained(ASHLARKIN_REFERENCE, 0, 0, 1 << 28, expected, 0);
    unexplained(ASHLARKIN_COLUMN, 0, 0, 0, expected, 240);
    unexplained(ASHLARKIN_COLUMN, 1, 159, 0, expected, UINT32_MAX);
    registers[0] = 7;
    unexplained(ASHLARKIN_MODE, 0, 0, 0, expected, 0);
    unexplained(ASHLARKIN_MODE, 0, 0, 0, expected, 240);
    registers[0] = 0;
    registers[0x54] = 17;
    unexplained(ASHLARKIN_BRIGHTNESS, 0, 0, 0, expected, 0);
    registers[0x54] = 0;
    entries[2] = 5; /* not the column's own */
    unexplained(ASHLARKIN_ENTRY, 1, 0, 0, expected, 239);
}

/* Forced blank isn't stopped by 4 to 7. All buffers may be the same memory, since none is written. */
static void explained_blank(void)
{
    const struct ashlarkin_reason blank = {.blank = 1, .top = ASHLARKIN_LAYER_NONE, .bottom = ASHLARKIN_LAYER_NONE,
        .pixel = 0xf8f8f8};
    fresh();
    registers[0] = 0x87;
    registers[0x54] = 17;
    entries[2] = 5;
    check(same(explain(0, 0, 1 << 28, expected, 239), blank), "forced blank", 0);
    unexplained(ASHLARKIN_COLUMN, 0, 0, 0, expected, 240);
    vram[0] = 0x80;
    check(same(ashlarkin_explain(1, 159, 0, 0, 0, 0, vram, ASHLARKIN_VRAM_LEN, vram, ASHLARKIN_PALETTE_LEN, vram,
                   ASHLARKIN_OAM_LEN, vram, ASHLARKIN_REGISTERS_LEN, vram, ASHLARKIN_ENTRIES_LEN, 0),
              blank),
        "one memory for all", 0);
}

/* A row of mode 3 on line 159, a semi-transparent sprite over its first 8 columns, and window 0 around those. */
static void scene(void)
{
    fresh();
    registers[0] = 3;
    registers[1] = 0x34; /* background 2, sprites, window 0 */
    registers[0x0c] = 3; /* background 2's priority */
    registers[0x21] = 1; /* a pixel a column */
    registers[0x40] = 8; /* window 0's columns 0 to 7 .. */
    registers[0x44] = 160;
    registers[0x48] = 0x14; /* .. show background 2 and sprites, without effects */
    registers[0x51] = 0x04; /* second target: background 2 */
    registers[0x52] = 8;
    registers[0x53] = 31; /* H counts it as 16 */
    palette[0] = 3;
    palette[1] = 0x80;
    palette[0x202] = 20;
    oam[0] = 159;
    oam[1] = 0x04;
    oam[5] = 0x0a; /* priority 2, tile 512 */
    for (size_t i = 8; i < ASHLARKIN_OAM_LEN; i += 8)
        oam[i + 1] = 0x02; /* hidden */
    memset(vram + 0x14000, 0x11, 4);
    for (size_t i = 0; i < 2 * ASHLARKIN_RECORDS_COUNT; i++)
        vram[i] = i % 2 ? 0x80 : 10;
}

static void explained(void)
{
    scene();
    struct ashlarkin_reason blended = {0, 0, ASHLARKIN_REGION_WINDOW0, ASHLARKIN_LAYER_OBJECTS,
        ASHLARKIN_LAYER_BACKGROUND2, ASHLARKIN_EFFECT_SPRITE_BLEND, 20, 0x800a, 8, 16, 20 << 19};
    check(same(explain(1, 159, 0, expected, 0), blended), "a sprite's blend under H", 0);
    check(same(explain(1, 159, 0, expected, 7), blended), "a sprite's blend under H", 7);
    blended.second_weight = 31;
    blended.pixel = 29 << 19; /* (20 * 8 + 10 * 31) / 16, rounded down */
    check(same(explain(0, 159, 0, expected, 7), blended), "a sprite's blend under R", 7);
    const struct ashlarkin_reason backdrop = {0, 0, ASHLARKIN_REGION_OUTSIDE, ASHLARKIN_LAYER_BACKDROP,
        ASHLARKIN_LAYER_BACKDROP, ASHLARKIN_EFFECT_NONE, 0x8003, 0x8003, 16, 0, 3 << 19};
    check(same(explain(0, 159, 0, expected, 8), backdrop), "the backdrop outside", 8);
    check(same(explain(0, 159, 0, expected, 239), backdrop), "the backdrop outside", 239);

    uint32_t pixels[ASHLARKIN_RECORDS_COUNT];
    for (uint32_t column = 0; column < ASHLARKIN_RECORDS_COUNT; column++)
        pixels[column] = explain(0, 159, 0, expected, column).pixel;
    check(draw(0, 159, 0, expected) == ASHLARKIN_DRAWN, "a draw of what was explained", 0);
    for (size_t i = 0; i < ASHLARKIN_OUTPUT_LEN; i++)
        check(output[i] == (uint8_t)(pixels[i / 4] >> 8 * (i % 4)), "the pixel is the drawn one", i / 4);
}

_Static_assert(sizeof(struct ashlarkin_byte) == 8, "a byte has no gaps");

/* Places in `buffers` and `expected`. */
enum { VRAM, PALETTE, OAM, REGISTERS };

static struct ashlarkin_byte read8(uint32_t address, const size_t lens[6])
{
    remember_lent();
    const struct ashlarkin_byte byte = ashlarkin_read8(address, lens[0] ? vram : NULL, lens[0],
        lens[1] ? palette : NULL, lens[1], lens[2] ? oam : NULL, lens[2]);
    check_lent("a read changes no byte");
    return byte;
}

static uint32_t store8(uint32_t address, uint8_t value, const size_t lens[6])
{
    remember_lent();
    return ashlarkin_store8(address, value, lens[3] ? registers : NULL, lens[3], lens[0] ? vram : NULL, lens[0],
        lens[1] ? palette : NULL, lens[1], lens[2] ? oam : NULL, lens[2]);
}

static uint32_t store16(uint32_t address, uint16_t value, const size_t lens[6])
{
    remember_lent();
    return ashlarkin_store16(address, value, lens[0] ? vram : NULL, lens[0], lens[1] ? palette : NULL, lens[1],
        lens[2] ? oam : NULL, lens[2]);
}

/* Other bytes than 0 everywhere, and the mode with every bit above it. */
static void fresh_bus(uint8_t mode)
{
    for (int i = 0; i < 5; i++)
        memset(buffers[i], CANARY, expected[i] + SPARE);
    registers[0] = 0xf8 | mode;
}

static void refused8(uint32_t number, uint32_t address, const size_t lens[6])
{
    check(store8(address, 0x12, lens) == number, "a byte store gives its number", number);
    check_lent("a refused byte store changes no byte");
}

static void refused16(uint32_t number, uint32_t address, const size_t lens[6])
{
    check(store16(address, 0x1234, lens) == number, "a halfword store gives its number", number);
    check_lent("a refused halfword store changes no byte");
}

static void refused_read_and_stores(uint32_t number, uint32_t address, const size_t lens[6])
{
    const struct ashlarkin_byte byte = read8(address, lens);
    check(byte.number == number && byte.value == 0, "a read is refused, its value 0", number);
    refused8(number, address, lens);
    refused16(number, address, lens);
}

/* Whichever page it is, and before 9 and 11. */
static void bus_lengths(void)
{
    const uint32_t addresses[5] = {0x05000000, 0x06000000, 0x07000000, 0x08000000, 0x06000001};
    const size_t none[6] = {0};
    fresh_bus(0);
    for (int k = 0; k < 5; k++) {
        refused_read_and_stores(ASHLARKIN_LENGTH, addresses[k], none);
        for (int i = VRAM; i <= REGISTERS; i++) {
            const size_t wrong[6] = {0, 1, expected[i] / 2, expected[i] - 1, expected[i] + 1, expected[i] + SPARE};
            for (int j = 0; j < 6; j++) {
                size_t lens[6];
                memcpy(lens, expected, sizeof lens);
                lens[i] = wrong[j];
                if (i == REGISTERS) /* lent to byte stores alone */
                    refused8(ASHLARKIN_LENGTH, addresses[k], lens);
                else
                    refused_read_and_stores(ASHLARKIN_LENGTH, addresses[k], lens);
            }
        }
    }
}

static void bus_addresses(void)
{
    const uint32_t pages[7] = {0x00, 0x04, 0x08, 0x15, 0x85, 0xf6, 0xff};
    const uint32_t odd[5] = {0x06000001, 0x06010001, 0x06018001, 0x0601ffff, 0x06ffffff};
    fresh_bus(0);
    for (int k = 0; k < 7; k++) {
        refused_read_and_stores(ASHLARKIN_PAGE, pages[k] << 24, expected);
        refused_read_and_stores(ASHLARKIN_PAGE, pages[k] << 24 | 0xffffff, expected); /* 9 before 11 */
    }
    for (int k = 0; k < 5; k++)
        refused16(ASHLARKIN_ODD_ADDRESS, odd[k], expected);
}

/* A store that was done: these two bytes changed, and no other. */
static void stored(uint32_t number, int which, size_t offset, uint32_t halfword)
{
    check(number == ASHLARKIN_DRAWN, "a store answers 0", offset);
    lent_before[which][offset] = (uint8_t)halfword;
    lent_before[which][offset + 1] = (uint8_t)(halfword >> 8);
    check_lent("a store changes its two bytes and no other");
}

static void ignored(uint32_t number, size_t offset)
{
    check(number == ASHLARKIN_DRAWN, "a byte store that changes nothing answers 0", offset);
    check_lent("an ignored byte store changes no byte");
}

static void stored_halfwords(void)
{
    fresh_bus(0);
    stored(store16(0x05000000, 0x1234, expected), PALETTE, 0, 0x1234);
    stored(store16(0x05000003, 0x5678, expected), PALETTE, 2, 0x5678);
    stored(store16(0x05000400, 0x9abc, expected), PALETTE, 0, 0x9abc);
    stored(store16(0x05ffffff, 0xdef0, expected), PALETTE, 0x3fe, 0xdef0);
    stored(store16(0x07000000, 0x1234, expected), OAM, 0, 0x1234);
    stored(store16(0x07000401, 0x5678, expected), OAM, 0, 0x5678);
    stored(store16(0x07ffffff, 0x9abc, expected), OAM, 0x3fe, 0x9abc);
    stored(store16(0x06000000, 0x1234, expected), VRAM, 0, 0x1234);
    stored(store16(0x06020000, 0x5678, expected), VRAM, 0, 0x5678);
    stored(store16(0x06010000, 0x9abc, expected), VRAM, 0x10000, 0x9abc);
    stored(store16(0x06018000, 0xdef0, expected), VRAM, 0x10000, 0xdef0);
    stored(store16(0x06017ffe, 0x1234, expected), VRAM, 0x17ffe, 0x1234);
    stored(store16(0x06fffffe, 0x5678, expected), VRAM, 0x17ffe, 0x5678);
}

static void stored_bytes(void)
{
    fresh_bus(0);
    stored(store8(0x05000000, 0x12, expected), PALETTE, 0, 0x1212);
    stored(store8(0x05000401, 0x34, expected), PALETTE, 0, 0x3434);
    stored(store8(0x05ffffff, 0x56, expected), PALETTE, 0x3fe, 0x5656);
    stored(store8(0x06000000, 0x12, expected), VRAM, 0, 0x1212);
    stored(store8(0x06020001, 0x34, expected), VRAM, 0, 0x3434);
    ignored(store8(0x06018000, 0x12, expected), 0x10000);
    ignored(store8(0x06ffffff, 0x12, expected), 0x17fff);
    ignored(store8(0x07000000, 0x12, expected), 0);
    ignored(store8(0x07000401, 0x12, expected), 1);
    for (uint8_t mode = 0; mode < 8; mode++) {
        const uint32_t tiles = mode < 3 ? 0x10000 : 0x14000;
        fresh_bus(mode);
        stored(store8(0x06000000 + tiles - 1, 0x12, expected), VRAM, tiles - 2, 0x1212);
        ignored(store8(0x06000000 + tiles, 0x12, expected), tiles);
        ignored(store8(0x06000001 + tiles, 0x12, expected), tiles + 1);
    }
    fresh_bus(3);
    stored(store8(0x06018000, 0x12, expected), VRAM, 0x10000, 0x1212);
    stored(store8(0x0601bfff, 0x34, expected), VRAM, 0x13ffe, 0x3434);
    ignored(store8(0x0601c000, 0x12, expected), 0x14000);
}

static void check_read(uint32_t address, int which, size_t offset)
{
    const struct ashlarkin_byte byte = read8(address, expected);
    check(byte.number == ASHLARKIN_DRAWN && byte.value == buffers[which][offset], "a read byte", address);
}

static void read_bytes(void)
{
    for (int i = 0; i < 5; i++)
        for (size_t j = 0; j < expected[i]; j++)
            buffers[i][j] = (uint8_t)(31 * (size_t)i + 7 * j + j / 256);
    for (uint32_t offset = 0; offset < 8; offset++) {
        const uint32_t at = 0x91 * offset; /* odd and even */
        check_read(0x05000000 + at, PALETTE, at);
        check_read(0x05000400 + at, PALETTE, at);
        check_read(0x07000000 + at, OAM, at);
        check_read(0x07fffc00 + at, OAM, at);
        check_read(0x06000000 + at, VRAM, at);
        check_read(0x06020000 + at, VRAM, at);
        check_read(0x06010000 + at, VRAM, 0x10000 + at);
        check_read(0x06018000 + at, VRAM, 0x10000 + at);
        check_read(0x06ffffff - at, VRAM, 0x17fff - at);
    }
    /* All buffers may be the same memory, since none is written. */
    const struct ashlarkin_byte byte = ashlarkin_read8(0x07000007, vram, ASHLARKIN_VRAM_LEN, vram,
        ASHLARKIN_PALETTE_LEN, vram, ASHLARKIN_OAM_LEN);
    check(byte.number == ASHLARKIN_DRAWN && byte.value == vram[7], "one memory for all", 7);
}

int main(void)
{
    wrong_lengths();
    other_refusals();
    done();
    records();
    unexplained_in_order();
    unexplained_one_by_one();
    explained_blank();
    explained();
    bus_lengths();
    bus_addresses();
    stored_halfwords();
    stored_bytes();
    read_bytes();
    printf("refusals from C: %d checks\n", tried);
    return 0;
}
