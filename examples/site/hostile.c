/*
 * Calls the library with bad numbers, bad lengths and bad words, and holds each answer to the paper. Every trace ends where
 * memory ends and cannot be written, so that a read past its end, or a write, ends the program by a signal.
 */
#define _GNU_SOURCE
#include "fcram.h"

#include <stdbool.h>
#include <stdio.h>
#include <stdlib.h>
#include <string.h>
#include <sys/mman.h>

/* The numbers of a sheet, in the order of the library's calls. */
enum { GRADE, CL, BL, ORGANISATION, PERIOD, RBD, RWD, WRD, RSC, REFC, WIRING, NUMBERS };

struct sheet {
    uint32_t number[NUMBERS];
};

static const struct sheet sheet_e = {{37, 4, 4, 16, 5000, 2, 3, 1, 7, 18, 8}};

/* The least and the greatest value of each number; the period's own for grade 37 and CL 4, REFC's for CL 3 and 5. */
static const uint32_t range[NUMBERS][2] = {
    {37, 50}, {3, 5}, {2, 4}, {8, 16}, {4500, 8500}, {2, 7}, {1, 7}, {1, 7}, {2, 15}, {15, 63}, {4, 8},
};

static const uint32_t DESL = 0xC0000;
/* PD low and CS high. */
static const uint32_t LOW = 0x40000;
static const size_t LONGEST = 16777216;

static unsigned long calls;

/* ---- What the paper says ---- */

static bool in_range(const struct sheet *sheet, int number) {
    uint32_t value = sheet->number[number];
    return value >= range[number][0] && value <= range[number][1];
}

/* The least period; the grade and CL are in the table. */
static uint32_t least_period(uint32_t grade, uint32_t cl) {
    static const uint32_t of_37[] = {5500, 4500, 3750}, of_50[] = {6000, 5500, 5000};
    return (grade == 37 ? of_37 : of_50)[cl - 3];
}

/* The refusal for so many bytes on a sheet; 0 for none. */
static uint32_t refusal(const struct sheet *sheet, size_t length) {
    const uint32_t *n = sheet->number;
    if ((n[GRADE] != 37 && n[GRADE] != 50) || !in_range(sheet, CL) || (n[BL] != 2 && n[BL] != 4) ||
        (n[ORGANISATION] != 16 && n[ORGANISATION] != 8))
        return 20;
    if (n[WIRING] != 4 && n[WIRING] != 8)
        return 34;
    if (n[PERIOD] < least_period(n[GRADE], n[CL]) || n[PERIOD] > 8500)
        return 21;
    for (int number = RBD; number <= REFC; number++)
        if (!in_range(sheet, number))
            return 22;
    if (n[CL] == 4 && n[REFC] < 18)
        return 33;
    if (length % 4 != 0)
        return 29;
    return length / 4 > LONGEST ? 24 : 0;
}

/* Whether the answer, no refusal being due, is accepted or a breach that so many words can have. */
static bool is_verdict(uint32_t answer, size_t words) {
    uint32_t clock = answer / 64, rule = answer % 64;
    if (answer == 0)
        return true;
    return clock < words && rule >= 1 && rule <= (clock == 0 ? 2 : 13);
}

/* ---- Calls ---- */

static void fail(const struct sheet *sheet, size_t length, uint32_t answer, const char *wanted) {
    printf("hostile: FAILED on the sheet");
    for (int number = 0; number < NUMBERS; number++)
        printf(" %u", sheet->number[number]);
    printf(" and %zu bytes: %u, wanted %s\n", length, answer, wanted);
    exit(1);
}

/* Calls the library, and on eight banks without the wiring too, for the same answer: the refusal that is due, or else a verdict. */
static uint32_t call(const struct sheet *sheet, const uint8_t *trace, size_t length) {
    const uint32_t *n = sheet->number;
    uint32_t answer =
        fcram_check_wired(n[0], n[1], n[2], n[3], n[4], n[5], n[6], n[7], n[8], n[9], n[WIRING], trace, length);
    uint32_t refused = refusal(sheet, length);
    calls++;
    if (n[WIRING] == 8) {
        uint32_t of_eight = fcram_check(n[0], n[1], n[2], n[3], n[4], n[5], n[6], n[7], n[8], n[9], trace, length);
        calls++;
        if (of_eight != answer)
            fail(sheet, length, of_eight, "the answer of the call with the wiring");
    }
    if (refused != 0 && answer != refused)
        fail(sheet, length, answer, "the refusal that is due");
    if (refused == 0 && !is_verdict(answer, length / 4))
        fail(sheet, length, answer, "0 or a breach");
    return answer;
}

/* Calls the library where the answer is known. */
static void expect(const struct sheet *sheet, const uint8_t *trace, size_t length, uint32_t wanted) {
    char text[32];
    snprintf(text, sizeof text, "%u", wanted);
    uint32_t answer = call(sheet, trace, length);
    if (answer != wanted)
        fail(sheet, length, answer, text);
}

/* ---- Memory ---- */

/* A multiple of every page size, and the part of it that traces go into. */
enum { ROOM = 1 << 16, FILLED = 1 << 10 };

static void *map(size_t length, int access) {
    void *memory = mmap(NULL, length, access, MAP_PRIVATE | MAP_ANONYMOUS | MAP_NORESERVE, -1, 0);
    if (memory == MAP_FAILED) {
        perror("hostile: mmap");
        exit(1);
    }
    return memory;
}

static void protect(void *memory, size_t length, int access) {
    if (mprotect(memory, length, access) != 0) {
        perror("hostile: mprotect");
        exit(1);
    }
}

/* Copies a trace so that it ends some bytes before memory does, and can only be read. */
static const uint8_t *place(const uint8_t *bytes, size_t length, size_t before_end) {
    static uint8_t *room;
    if (room == NULL) {
        room = map(2 * ROOM, PROT_READ | PROT_WRITE);
        protect(room + ROOM, ROOM, PROT_NONE);
    }
    protect(room, ROOM, PROT_READ | PROT_WRITE);
    memset(room + ROOM - FILLED, 0xFF, FILLED);
    uint8_t *start = room + ROOM - before_end - length;
    if (length > 0)
        memcpy(start, bytes, length);
    protect(room, ROOM, PROT_READ);
    return start;
}

static void put(uint8_t *bytes, uint32_t word) {
    for (int i = 0; i < 4; i++)
        bytes[i] = (uint8_t)(word >> 8 * i);
}

/* ---- Cases ---- */

enum { VALUES = 14, SHORT = 72 };

/* Values at and around every edge of a number, and some whose low bits alone would be good. */
static void values_of(int number, uint32_t values[VALUES]) {
    uint32_t least = range[number][0], greatest = range[number][1], usual = sheet_e.number[number];
    const uint32_t all[VALUES] = {
        0,        least - 1, least, least + 1, greatest - 1, greatest, greatest + 1, usual + 256, usual + 65536, INT32_MAX,
        1u << 31, usual | 1u << 31, UINT32_MAX - 1, UINT32_MAX,
    };
    memcpy(values, all, sizeof all);
}

/* A sheet on the last bytes of DESL words, as many as a few lengths say. */
static void sheet_on_lengths(const struct sheet *sheet, const uint8_t *end) {
    static const size_t lengths[] = {0, 1, 4, 7, 8};
    for (size_t i = 0; i < sizeof lengths / sizeof *lengths; i++)
        expect(sheet, end - lengths[i], lengths[i], refusal(sheet, lengths[i]));
}

/* Every value of every number, and of every two numbers. */
static void sheets(void) {
    uint8_t idle[8];
    put(idle, DESL);
    put(idle + 4, DESL);
    const uint8_t *end = place(idle, sizeof idle, 0) + sizeof idle;
    for (int a = 0; a < NUMBERS; a++)
        for (int b = a; b < NUMBERS; b++)
            for (int i = 0; i < VALUES * VALUES; i++) {
                struct sheet sheet = sheet_e;
                uint32_t of_a[VALUES], of_b[VALUES];
                values_of(a, of_a);
                values_of(b, of_b);
                sheet.number[a] = of_a[i / VALUES];
                sheet.number[b] = of_b[i % VALUES];
                sheet_on_lengths(&sheet, end);
            }
}

/* Each grade and CL with the period on either edge of its range. */
static void periods(void) {
    static const uint32_t grades[] = {37, 50};
    for (int i = 0; i < 6; i++) {
        struct sheet sheet = sheet_e;
        uint32_t grade = grades[i / 3], cl = 3 + (uint32_t)i % 3, least = least_period(grade, cl);
        sheet.number[GRADE] = grade;
        sheet.number[CL] = cl;
        const uint32_t tried[][2] = {{least - 1, 21}, {least, 0}, {8500, 0}, {8501, 21}};
        for (int j = 0; j < 4; j++) {
            sheet.number[PERIOD] = tried[j][0];
            expect(&sheet, NULL, 0, tried[j][1]);
        }
    }
}

/* REFC at and around its edges, each value with the answers at CL 3, 4 and 5. */
static void refresh_counts(void) {
    static const uint32_t tried[][4] = {
        {14, 22, 22, 22}, {15, 0, 33, 0}, {17, 0, 33, 0}, {18, 0, 0, 0}, {19, 0, 0, 0}, {63, 0, 0, 0}, {64, 22, 22, 22},
    };
    for (size_t i = 0; i < sizeof tried / sizeof *tried; i++)
        for (uint32_t cl = 3; cl <= 5; cl++) {
            struct sheet sheet = sheet_e;
            sheet.number[CL] = cl;
            sheet.number[PERIOD] = 6000;
            sheet.number[REFC] = tried[i][0];
            expect(&sheet, NULL, 0, tried[i][cl - 2]);
        }
}

/* Wirings at, around and far from the two there are; beside each a number that is good, or refused by 20, 21, 22 or 33. */
static void wirings(void) {
    static const uint32_t bad[] = {0, 1, 2, 3, 5, 6, 7, 9, 12, 16, 32, 260, 264, 65540, 1u << 31 | 8, UINT32_MAX};
    static const uint32_t beside[][3] = {{GRADE, 37, 0}, {BL, 3, 20}, {PERIOD, 4499, 21}, {RBD, 8, 22}, {REFC, 17, 33}};
    for (size_t i = 0; i < sizeof beside / sizeof *beside; i++) {
        struct sheet sheet = sheet_e;
        uint32_t number = beside[i][2];
        sheet.number[beside[i][0]] = beside[i][1];
        for (uint32_t wiring = 4; wiring <= 8; wiring += 4) {
            sheet.number[WIRING] = wiring;
            expect(&sheet, NULL, 0, number);
        }
        for (size_t j = 0; j < sizeof bad / sizeof *bad; j++) {
            sheet.number[WIRING] = bad[j];
            expect(&sheet, NULL, 0, number == 20 ? 20 : 34);
        }
    }
}

/* Every number of a sheet the same. */
static void uniform_sheets(void) {
    static const uint32_t values[] = {0, 1, 4, 16, 37, 1u << 31, UINT32_MAX};
    for (size_t i = 0; i < sizeof values / sizeof *values; i++) {
        struct sheet sheet;
        for (int number = 0; number < NUMBERS; number++)
            sheet.number[number] = values[i];
        expect(&sheet, NULL, 0, 20);
    }
}

/* Every short length at every alignment, and no bytes at no address. */
static void short_lengths(void) {
    uint8_t idle[SHORT];
    for (size_t at = 0; at < SHORT; at += 4)
        put(idle + at, DESL);
    for (size_t length = 0; length <= SHORT; length++)
        for (size_t before_end = 0; before_end < 8; before_end++)
            expect(&sheet_e, place(idle, length, before_end), length, length % 4 == 0 ? 0 : 29);
    expect(&sheet_e, NULL, 0, 0);
    expect(&sheet_e, (const uint8_t *)1, 0, 0);
    expect(&sheet_e, (const uint8_t *)UINTPTR_MAX, 0, 0);
}

/* Lengths that are too long, some of which have only zeros in their low 32 bits. The memory reads as zeros: PD goes low with CS low. */
static void long_lengths(void) {
    const size_t most = 4 * LONGEST, four_gib = (size_t)1 << 32;
    const size_t room = 4 * four_gib + 8;
    const uint8_t *zeros = map(room, PROT_READ);
    const size_t lengths[][2] = {
        {most - 4, 2},      {most - 1, 29},     {most, 2},          {most + 1, 29},         {most + 4, 24},
        {four_gib - 4, 24}, {four_gib, 24},     {four_gib + 1, 29}, {four_gib + 4, 24},     {2 * four_gib, 24},
        {4 * four_gib, 24}, {4 * four_gib + 3, 29}, {4 * four_gib + 4, 24}, {4 * four_gib + 8, 24},
    };
    for (size_t i = 0; i < sizeof lengths / sizeof *lengths; i++) {
        expect(&sheet_e, zeros, lengths[i][0], (uint32_t)lengths[i][1]);
        struct sheet four = sheet_e;
        four.number[WIRING] = 4;
        expect(&four, zeros, lengths[i][0], (uint32_t)lengths[i][1]);
        struct sheet bad = sheet_e;
        bad.number[REFC] = 17;
        expect(&bad, zeros, lengths[i][0], 33);
        bad.number[REFC] = 0;
        expect(&bad, zeros, lengths[i][0], 22);
        bad.number[WIRING] = 5;
        expect(&bad, zeros, lengths[i][0], 34);
    }
    munmap((void *)zeros, room);
}

/* Each bit of a DESL word turned over, at the first word and at a later one, and once more right after a word with PD low. */
static void single_bits(void) {
    for (int bit = 0; bit < 32; bit++) {
        uint8_t words[8];
        uint32_t word = DESL ^ 1u << bit, rule = bit > 19 ? 1 : 0;
        put(words, word);
        expect(&sheet_e, place(words, 4, 0), 4, rule);
        put(words, DESL);
        put(words + 4, word);
        expect(&sheet_e, place(words, 8, 0), 8, rule == 0 ? 0 : 64 + rule);
        put(words, LOW);
        expect(&sheet_e, place(words, 8, 0), 8, rule == 1 ? 64 + 1 : bit == 18 ? 64 + 13 : 0);
    }
}

/*
 * Two words for each setting of PD and CS, the other pins low: PD may go low if CS is high, stays so whatever CS is, and comes up with CS
 * high. Where the first opens a pair, CS low closes a refresh, and CS high a write whose lanes are reserved.
 */
static void low_words(void) {
    static const uint32_t wanted[4][4] = {
        /* second: PD and CS low, PD low, CS low, both high */
        {2, 2, 2, 2},
        {0, 0, 64 + 13, 0},
        {64 + 2, 64 + 2, 0, 64 + 5},
        {64 + 2, 0, 0, 0},
    };
    for (uint32_t first = 0; first < 4; first++)
        for (uint32_t second = 0; second < 4; second++) {
            uint8_t words[8];
            put(words, first << 18);
            put(words + 4, second << 18);
            expect(&sheet_e, place(words, 8, 0), 8, wanted[first][second]);
        }
}

/* Two reads after a start-up that differ in BA2 alone: RC is 5, and with four banks they are of one bank. */
static void two_reads(void) {
    static const uint32_t start_up[][2] = {
        {0, 0xA0000}, {1, 0x84000}, {7, 0xA0000}, {8, 0x80042}, {14, 0x80000}, {15, 0x80000}, {32, 0x80000}, {33, 0x80000},
    };
    uint8_t bytes[4 * 208];
    for (uint32_t second = 205; second <= 206; second++) {
        struct sheet sheet = sheet_e;
        size_t length = 4 * (second + 2);
        for (size_t at = 0; at < length; at += 4)
            put(bytes + at, DESL);
        for (size_t i = 0; i < sizeof start_up / sizeof *start_up; i++)
            put(bytes + 4 * start_up[i][0], start_up[i][1]);
        put(bytes + 4 * 201, 0xA0000);
        put(bytes + 4 * second, 0xB0000);
        expect(&sheet, place(bytes, length, 0), length, 0);
        sheet.number[WIRING] = 4;
        expect(&sheet, place(bytes, length, 0), length, second == 205 ? 206 * 64 + 7 : 0);
    }
}

/* A step of a generator (xorshift) with a fixed seed. */
static uint32_t random_word(void) {
    static uint64_t state = 0x5EED;
    state ^= state << 13;
    state ^= state >> 7;
    state ^= state << 17;
    return (uint32_t)(state >> 16);
}

/* A word of noise: over all bits; over the pins, PD high; mostly DESL; or over the pins, mostly PD low. */
static uint32_t noise(uint32_t sort) {
    switch (sort) {
    case 0: return random_word();
    case 1: return 0x80000 | (random_word() & 0xFFFFF);
    case 2: return random_word() % 8 == 0 ? 0x80000 | (random_word() & 0xFFFFF) : DESL;
    default: return random_word() % 8 == 0 ? DESL : LOW | (random_word() & 0x3FFFF);
    }
}

/* Traces of noise on sheets of good numbers. */
static void noisy_traces(void) {
    uint8_t bytes[4 * 64];
    for (int round = 0; round < 20000; round++) {
        struct sheet sheet = sheet_e;
        sheet.number[BL] = random_word() % 2 ? 2 : 4;
        sheet.number[ORGANISATION] = random_word() % 2 ? 8 : 16;
        sheet.number[WIRING] = random_word() % 2 ? 8 : 4;
        size_t words = random_word() % 65;
        uint32_t sort = random_word() % 4;
        for (size_t i = 0; i < words; i++)
            put(bytes + 4 * i, noise(sort));
        call(&sheet, place(bytes, 4 * words, random_word() % 8), 4 * words);
    }
}

int main(void) {
    sheets();
    periods();
    refresh_counts();
    wirings();
    uniform_sheets();
    short_lengths();
    long_lengths();
    single_bits();
    low_words();
    two_reads();
    noisy_traces();
    printf("hostile: %lu calls answered as the paper has it\n", calls);
    return 0;
}
