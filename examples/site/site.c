/*
 * An exam site in small: reads a trace from a file, has it checked by the library, and prints the verdict in words.
 *
 * The exit status is 0 for accepted, 1 for a breach or a refusal, 2 where there is no verdict.
 */
#include "fcram.h"

#include <errno.h>
#include <getopt.h>
#include <stdbool.h>
#include <stdio.h>
#include <stdlib.h>
#include <string.h>

/* The numbers of a sheet, in the order of the library's calls. */
enum { GRADE, CL, BL, ORGANISATION, PERIOD, RBD, RWD, WRD, RSC, REFC, WIRING, NUMBERS };

/* A trace of 512 MiB or more, eight times as many bytes as are checked, is not read to its end and has no verdict. */
static const size_t TOO_LARGE = (size_t)1 << 29;

/* Sheet E, the institute's own. */
static uint32_t sheet[NUMBERS] = {37, 4, 4, 16, 5000, 2, 3, 1, 7, 18, 8};

/* Whether the wiring was given, so that the call which takes it is made. */
static bool wired;

static const struct option options[] = {
    {"grade", required_argument, NULL, GRADE},
    {"cl", required_argument, NULL, CL},
    {"bl", required_argument, NULL, BL},
    {"organisation", required_argument, NULL, ORGANISATION},
    {"period", required_argument, NULL, PERIOD},
    {"rbd", required_argument, NULL, RBD},
    {"rwd", required_argument, NULL, RWD},
    {"wrd", required_argument, NULL, WRD},
    {"rsc", required_argument, NULL, RSC},
    {"refc", required_argument, NULL, REFC},
    {"wiring", required_argument, NULL, WIRING},
    {NULL, 0, NULL, 0},
};

static const char usage[] =
    "usage: site [OPTIONS] TRACE\n"
    "TRACE is a file of little-endian 32-bit words, one a clock; - is standard input.\n"
    "The sheet, with the institute's own numbers where none is given:\n"
    "  --grade 37          --cl 4   --bl 4   --organisation 16\n"
    "  --period 5000       in picoseconds\n"
    "  --rbd 2   --rwd 3   --wrd 1   --rsc 7   --refc 18\n"
    "  --wiring 8          the number of banks, 8 or 4\n";

static const char *const rules[] = {
    [1] = "a bit above 19 is set",
    [2] = "PD goes low where it may not",
    [3] = "a refresh is overdue",
    [4] = "MRS fields are wrong",
    [5] = "a lane of a write is reserved",
    [6] = "a read or write before the memory is ready",
    [7] = "the same bank again too soon",
    [8] = "two reads or writes too close together",
    [9] = "too soon after a mode pair",
    [10] = "too soon after a refresh",
    [11] = "a mode or refresh too soon after a read or write",
    [12] = "nine refreshes too close together",
    [13] = "CS is low in a wake-up word",
};

/* What a refusal means; NULL for a number that is none. */
static const char *refusal(uint32_t number) {
    switch (number) {
    case 20: return "grade, CL, BL or organisation is none of those there are";
    case 21: return "the clock period is outside its range";
    case 22: return "a count of clocks is outside its range";
    case 24: return "more than 16,777,216 words";
    case 29: return "the length is no multiple of four bytes";
    case 33: return "CL 4 needs a REFC of at least 18";
    case 34: return "the wiring is neither of eight banks nor of four";
    default: return NULL;
    }
}

/* Reads a decimal number of up to 32 bits. */
static bool number_of(const char *text, uint32_t *number) {
    size_t digits = strspn(text, "0123456789");
    if (digits == 0 || digits > 10 || text[digits] != '\0')
        return false;
    unsigned long long value = strtoull(text, NULL, 10);
    *number = (uint32_t)value;
    return value <= UINT32_MAX;
}

/* Takes the sheet from the options and gives the trace's name; NULL if the arguments are wrong. */
static const char *arguments(int argc, char **argv) {
    int option;
    while ((option = getopt_long(argc, argv, "", options, NULL)) != -1) {
        if (option >= NUMBERS)
            return NULL;
        if (!number_of(optarg, &sheet[option]))
            return NULL;
        wired |= option == WIRING;
    }
    return optind == argc - 1 ? argv[optind] : NULL;
}

/* The bytes with more room; NULL, and nothing kept, if there is none. */
static uint8_t *grown(uint8_t *bytes, size_t room) {
    uint8_t *larger = realloc(bytes, room);
    if (larger == NULL)
        free(bytes);
    return larger;
}

/* Reads a stream to its end, or to where reading fails, into memory that the caller frees; NULL if it does not fit. */
static uint8_t *read_all(FILE *file, size_t *length) {
    size_t room = 1 << 16;
    uint8_t *bytes = malloc(room);
    *length = 0;
    while (bytes != NULL) {
        *length += fread(bytes + *length, 1, room - *length, file);
        if (*length < room)
            return bytes;
        if (room == TOO_LARGE) {
            free(bytes);
            errno = EFBIG;
            return NULL;
        }
        room *= 2;
        bytes = grown(bytes, room);
    }
    return NULL;
}

/* The library's answer for a trace on the sheet. */
static uint32_t check(const uint8_t *trace, size_t length) {
    if (wired)
        return fcram_check_wired(sheet[GRADE], sheet[CL], sheet[BL], sheet[ORGANISATION], sheet[PERIOD], sheet[RBD],
                                 sheet[RWD], sheet[WRD], sheet[RSC], sheet[REFC], sheet[WIRING], trace, length);
    return fcram_check(sheet[GRADE], sheet[CL], sheet[BL], sheet[ORGANISATION], sheet[PERIOD], sheet[RBD], sheet[RWD],
                       sheet[WRD], sheet[RSC], sheet[REFC], trace, length);
}

/* Prints the library's answer in words and gives the exit status. */
static int verdict(uint32_t answer) {
    uint32_t clock = answer / 64, rule = answer % 64;
    if (answer == 0) {
        puts("accepted");
        return 0;
    }
    if (refusal(answer) != NULL) {
        printf("refused %u: %s\n", answer, refusal(answer));
        return 1;
    }
    if (rule >= 1 && rule < sizeof rules / sizeof *rules) {
        printf("breach at clock %u: rule %u, %s\n", clock, rule, rules[rule]);
        return 1;
    }
    fprintf(stderr, "site: an answer without a meaning, %u\n", answer);
    return 2;
}

/* Checks the trace in a file and gives the exit status. */
static int mark(const char *name, FILE *file) {
    size_t length;
    uint8_t *trace = read_all(file, &length);
    if (trace == NULL || ferror(file)) {
        perror(name);
        free(trace);
        return 2;
    }
    int status = verdict(check(trace, length));
    free(trace);
    return status;
}

int main(int argc, char **argv) {
    const char *name = arguments(argc, argv);
    if (name == NULL) {
        fputs(usage, stderr);
        return 2;
    }
    FILE *file = strcmp(name, "-") == 0 ? stdin : fopen(name, "rb");
    if (file == NULL) {
        perror(name);
        return 2;
    }
    int status = mark(name, file);
    fclose(file);
    if (fflush(stdout) != 0) {
        perror("site");
        return 2;
    }
    return status;
}
