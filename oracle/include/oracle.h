/* The oracle for C: the gpu module of rustboyadvance-ng, unmodified, behind document 01's interface.
   Each function gives document 01's number, or ASHLARKIN_ORACLE_PANICKED where the Rust panicked. */
#ifndef ASHLARKIN_ORACLE_H
#define ASHLARKIN_ORACLE_H

#include <stddef.h>
#include <stdint.h>

#define ASHLARKIN_ORACLE_PANICKED 0xffffffffu

uint32_t ashlarkin_oracle_draw(uint32_t reading, uint32_t line, int32_t x2, int32_t y2, int32_t x3, int32_t y3,
    const uint8_t *vram, size_t vram_len, const uint8_t *palette, size_t palette_len,
    const uint8_t *oam, size_t oam_len, const uint8_t *registers, size_t registers_len,
    uint8_t *entries, size_t entries_len, uint8_t *output, size_t output_len);
uint32_t ashlarkin_oracle_reset(uint8_t *entries, size_t len);
uint32_t ashlarkin_oracle_step(int16_t pb2, int16_t pd2, int16_t pb3, int16_t pd3, uint8_t *references, size_t len);

/* One of the Rust's four events, 0 HDraw, 1 HBlank, 2 VBlankHDraw, 3 VBlankHBlank. In: event, line, running.
   Out: the same after the event, the cycles to the next, the line drawn (-1: none), whether the rows were cleared. */
struct ashlarkin_oracle_clock {
    uint32_t event, line;
    int32_t running[4];
    uint32_t wait;
    int32_t drawn;
    uint32_t cleared;
};
uint32_t ashlarkin_oracle_event(struct ashlarkin_oracle_clock *clock, const int16_t steps[4], const int32_t registers[4]);

/* The Rust's BusIO on pages 5, 6 and 7: a read gives the byte, a store 0. */
struct ashlarkin_oracle_bus {
    uint32_t mode;
    uint8_t *vram, *palette, *oam;
};
uint32_t ashlarkin_oracle_read_8(const struct ashlarkin_oracle_bus *bus, uint32_t addr);
uint32_t ashlarkin_oracle_write_8(const struct ashlarkin_oracle_bus *bus, uint32_t addr, uint8_t value);
uint32_t ashlarkin_oracle_write_16(const struct ashlarkin_oracle_bus *bus, uint32_t addr, uint16_t value);

#endif
