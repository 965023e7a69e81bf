/* Draws the frame of a capture and writes it as a PPM picture to standard output.

       gcc -std=c11 -Iinclude include/example.c host/target/proved/libashlarkin.a -o example
       ./example CAPTURE R|H > frame.ppm

   CAPTURE is a folder with vram.bin, palette.bin, oam.bin and registers.bin of 131072, 1024, 1024 and 86 bytes. */
#include <stdio.h>
#include <stdlib.h>
#include <string.h>

#include "ashlarkin.h"

enum { WIDTH = 240, HEIGHT = 160 };

static uint8_t vram[ASHLARKIN_VRAM_LEN], palette[ASHLARKIN_PALETTE_LEN], oam[ASHLARKIN_OAM_LEN];
static uint8_t registers[ASHLARKIN_REGISTERS_LEN], entries[ASHLARKIN_ENTRIES_LEN], output[ASHLARKIN_OUTPUT_LEN];

/* Reads a file of exactly this length, or says what is wrong and ends. */
static void read_file(const char *folder, const char *name, uint8_t *bytes, size_t len)
{
    char path[4096];
    if (snprintf(path, sizeof path, "%s/%s", folder, name) >= (int)sizeof path) {
        fprintf(stderr, "%s: a path of more than %zu bytes\n", name, sizeof path - 1);
        exit(1);
    }
    FILE *file = fopen(path, "rb");
    if (!file || fread(bytes, 1, len, file) != len || fgetc(file) != EOF) {
        fprintf(stderr, "%s: expected a file of %zu bytes\n", path, len);
        exit(1);
    }
    fclose(file);
}

static uint32_t half(size_t offset)
{
    return registers[offset] | (uint32_t)registers[offset + 1] << 8;
}

/* A register's matrix number: 16 bits, signed. */
static int16_t matrix(size_t offset)
{
    return (int16_t)half(offset);
}

/* A reference register: 28 bits, signed. */
static int32_t reference(size_t offset)
{
    uint32_t word = (half(offset) | half(offset + 2) << 16) & 0x0fffffff;
    return (int32_t)(word ^ 0x08000000) - 0x08000000;
}

static void store(uint8_t *bytes, int32_t value)
{
    for (int i = 0; i < 4; i++)
        bytes[i] = (uint8_t)((uint32_t)value >> 8 * i);
}

static int32_t load(const uint8_t *bytes)
{
    return (int32_t)(bytes[0] | (uint32_t)bytes[1] << 8 | (uint32_t)bytes[2] << 16 | (uint32_t)bytes[3] << 24);
}

static void check(uint32_t number, uint32_t line)
{
    if (number != ASHLARKIN_DRAWN) {
        fprintf(stderr, "line %u: refusal %u\n", (unsigned)line, (unsigned)number);
        exit(1);
    }
}

int main(int argc, char **argv)
{
    if (argc != 3 || (strcmp(argv[2], "R") && strcmp(argv[2], "H"))) {
        fprintf(stderr, "usage: example CAPTURE R|H > frame.ppm\n");
        return 2;
    }
    uint32_t reading = argv[2][0] == 'H' ? ASHLARKIN_READING_H : ASHLARKIN_READING_R;
    read_file(argv[1], "vram.bin", vram, sizeof vram);
    read_file(argv[1], "palette.bin", palette, sizeof palette);
    read_file(argv[1], "oam.bin", oam, sizeof oam);
    read_file(argv[1], "registers.bin", registers, sizeof registers);

    static uint8_t pixels[HEIGHT * WIDTH * 3];
    uint8_t *pixel = pixels;
    uint8_t references[ASHLARKIN_REFERENCES_LEN];
    const size_t starts[4] = {0x28, 0x2c, 0x38, 0x3c};
    for (int i = 0; i < 4; i++)
        store(references + 4 * i, reference(starts[i]));

    for (uint32_t line = 0; line < HEIGHT; line++) {
        check(ashlarkin_reset(entries, sizeof entries), line);
        check(ashlarkin_draw(reading, line, load(references), load(references + 4), load(references + 8),
                  load(references + 12), vram, sizeof vram, palette, sizeof palette, oam, sizeof oam, registers,
                  sizeof registers, entries, sizeof entries, output, sizeof output),
            line);
        for (int column = 0; column < WIDTH; column++) {
            *pixel++ = output[4 * column + 2]; /* red */
            *pixel++ = output[4 * column + 1]; /* green */
            *pixel++ = output[4 * column];     /* blue */
        }
        /* The emulator's Rust has no step after line 0. The step after the last line is of no use. */
        if ((line > 0 || reading == ASHLARKIN_READING_H) && line + 1 < HEIGHT)
            check(ashlarkin_step(matrix(0x22), matrix(0x26), matrix(0x32), matrix(0x36), references, sizeof references),
                line);
    }

    printf("P6\n%d %d\n255\n", WIDTH, HEIGHT);
    if (fwrite(pixels, 1, sizeof pixels, stdout) != sizeof pixels || fflush(stdout) != 0) {
        fprintf(stderr, "standard output: can't be written\n");
        return 1;
    }
    return 0;
}
