/* The oracle's C functions, called from C: a blank line, a refusal, a reset, a step, an event, a store. */
#include <assert.h>
#include <stdio.h>
#include <string.h>

#include "../../include/oracle.h"

static uint8_t vram[131072], palette[1024], oam[1024], registers[86], entries[960], output[960];

static uint32_t draw(uint32_t line)
{
    return ashlarkin_oracle_draw(0, line, 0, 0, 0, 0, vram, sizeof vram, palette, sizeof palette, oam, sizeof oam,
        registers, sizeof registers, entries, sizeof entries, output, sizeof output);
}

int main(void)
{
    assert(ashlarkin_oracle_reset(entries, sizeof entries) == 0);
    assert(entries[0] == 0x00 && entries[1] == 0x80 && entries[2] == 4 && entries[3] == 0);
    assert(ashlarkin_oracle_reset(entries, 959) == 2);

    palette[0] = 0x1f; /* a red backdrop */
    assert(draw(159) == 0);
    assert(output[0] == 0 && output[1] == 0 && output[2] == 0xf8 && output[3] == 0);
    registers[0] = 0x80; /* forced blank */
    assert(draw(0) == 0);
    assert(output[956] == 0xf8 && output[957] == 0xf8 && output[958] == 0xf8 && output[959] == 0);
    assert(draw(160) == 3);

    int32_t references[4] = {1, 2, 3, (1 << 28) - 1};
    assert(ashlarkin_oracle_step(10, 20, 30, 0, (uint8_t *)references, sizeof references) == 0);
    assert(references[0] == 11 && references[1] == 22 && references[2] == 33 && references[3] == (1 << 28) - 1);
    assert(ashlarkin_oracle_step(10, 20, 30, 1, (uint8_t *)references, sizeof references) == 6);
    assert(references[0] == 11);

    struct ashlarkin_oracle_clock clock = {.event = 3, .line = 227};
    const int16_t steps[4] = {0};
    const int32_t frame[4] = {0};
    assert(ashlarkin_oracle_event(&clock, steps, frame) == 0);
    assert(clock.event == 0 && clock.line == 0 && clock.drawn == 0 && clock.wait == 1006);

    const struct ashlarkin_oracle_bus bus = {0, vram, palette, oam};
    assert(ashlarkin_oracle_write_8(&bus, 0x05000002, 0x5a) == 0);
    assert(palette[2] == 0x5a && palette[3] == 0x5a && ashlarkin_oracle_read_8(&bus, 0x05000403) == 0x5a);
    assert(ashlarkin_oracle_write_16(&bus, 0x06000000, 0xbeef) == 0 && vram[0] == 0xef && vram[1] == 0xbe);
    puts("the oracle's C functions: ok");
    return 0;
}
