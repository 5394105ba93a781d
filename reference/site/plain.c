/*
 * A plain one-pass checker in C, which the archive's check is timed against: it looks at every word, and keeps
 * the clock of the newest event of each kind. Beside it, the words added up: a check that reads every word can
 * hardly be faster than that.
 */
#include <stdbool.h>
#include <stddef.h>
#include <stdint.h>
#include <string.h>

#define BA0 (1u << 14)
#define FN (1u << 17)
#define CS (1u << 18)
#define PD (1u << 19)

/* The pins that every MRS has low: BA2, BA1, A13 to A7. */
#define MODE_LOW 0x1bf80u

/* VW0 and VW1 of the lower lane on BA2 and A13, of the upper one on A12 and A11. */
#define LOWER 0x12000u
#define UPPER 0x1800u

/* The clock of what never was: longer ago than any spacing. */
#define NEVER (-1000000)

/* What a word meets: one of these, or the first word of an open pair, which is a larger number. The second is
 * PD low in the word before, the third that the second wake-up word is due. */
enum { NOTHING, ASLEEP, WAKE_UP };

/* What the rules ask for on a sheet. Spacings are from first word to first word; of two, one is that after a
 * read and one that after a write. */
struct figures {
    uint32_t bank_pins;         /* the bank pins in use, shifted down */
    uint32_t upper;             /* the pins of the upper lane or, where there is none, of the lower */
    uint32_t regular;           /* A0 to A2 and A4 to A6 of a regular mode */
    bool lanes_reserved;        /* whether a lane can be reserved */
    int32_t rc, rsc, refc, d, w;
    int32_t access_after[2][2]; /* rule 8, for a read and for a write */
    int32_t mode_after[2];      /* rule 11 */
    int32_t low_after[2];       /* rule 2 */
};

/* What is kept of the words before a clock. */
struct past {
    int32_t deadline;           /* the last clock that rule 3 allows */
    int32_t ready;              /* the first clock that rule 6 allows */
    int32_t first_extended;     /* the word of the first extended mode */
    bool regular;
    int32_t mode, refresh;      /* the first words of the newest */
    int32_t access[2];          /* of the newest read and write */
    int32_t bank[8];            /* of the newest read or write of each bank */
    int32_t refs;               /* how many REF words there are, and the last eight of them in a ring */
    int32_t ref_word[8];
};

static int32_t larger(int32_t a, int32_t b)
{
    return a > b ? a : b;
}

/* The figures of a sheet's eleven numbers. */
static struct figures figures_of(const uint32_t sheet[11])
{
    int32_t cl = sheet[1], bl = sheet[2], period = sheet[4], rbd = sheet[5], rwd = sheet[6], wrd = sheet[7];
    int32_t rc = cl == 5 ? 6 : 5, wl = cl - 1;
    struct figures f = {
        .bank_pins = sheet[10] == 4 ? 3 : 7,
        .upper = sheet[3] == 16 ? UPPER : LOWER,
        .regular = sheet[1] << 4 | (bl == 2 ? 1 : 2),
        .lanes_reserved = bl == 4,
        .rc = rc,
        .rsc = sheet[8],
        .refc = sheet[9],
        .d = 3900000 / period,
        .w = 3200000 / period + 1,
        .access_after = { { rbd, larger(rbd, 1 + wrd) }, { larger(rbd, 1 + rwd), rbd } },
        .mode_after = { larger(rc, 1 + cl + bl / 2), larger(rc, 1 + wl + bl / 2) },
        .low_after = { larger(rc, 1 + cl + bl / 2), larger(rc, 1 + wl + 2) },
    };
    return f;
}

/* The past of clock 0. */
static struct past none(void)
{
    struct past past = {
        .deadline = INT32_MAX,
        .ready = INT32_MAX,
        .first_extended = NEVER,
        .mode = NEVER,
        .refresh = NEVER,
        .access = { NEVER, NEVER },
    };
    for (int i = 0; i < 8; i++)
        past.bank[i] = NEVER;
    return past;
}

/* Whether a read or a write stands less than its spacing before a clock. */
static inline bool within(const struct past *p, int32_t clock, const int32_t after[2])
{
    return clock - p->access[0] < after[0] || clock - p->access[1] < after[1];
}

/* The breach of a read or write whose first word is at u, or 0. */
static inline uint32_t access(const struct figures *f, struct past *p, int32_t u, uint32_t first, bool write)
{
    int32_t *bank = &p->bank[first >> 14 & f->bank_pins];
    if (u < p->ready)
        return 6;
    if (u - *bank < f->rc)
        return 7;
    if (within(p, u, f->access_after[write]))
        return 8;
    if (u - p->mode < f->rsc)
        return 9;
    if (u - p->refresh < f->refc)
        return 10;
    *bank = u;
    p->access[write] = u;
    return 0;
}

/* The breach of a write: that of its lanes, or of any access. */
static inline uint32_t write(const struct figures *f, struct past *p, int32_t u, uint32_t first, uint32_t lal)
{
    if (f->lanes_reserved && ((lal & LOWER) == 0 || (lal & f->upper) == 0))
        return 5;
    return access(f, p, u, first, true);
}

/* Rule 6, once all that it asks for stands. */
static void make_ready(struct past *p)
{
    if (p->refs >= 2 && p->regular && p->first_extended != NEVER)
        p->ready = p->first_extended + 200;
}

/* The breach of a mode; rare, so kept out of the loop, as the refresh is. */
static __attribute__((noinline)) uint32_t mode(const struct figures *f, struct past *p, int32_t u, uint32_t mrs)
{
    bool extended = mrs & BA0;
    bool fits = extended ? (mrs & 1) == 0 : (mrs & 0x77) == f->regular;
    if (!fits || (mrs & MODE_LOW) != 0)
        return 4;
    if (u - p->mode < f->rsc)
        return 9;
    if (u - p->refresh < f->refc)
        return 10;
    if (within(p, u, f->mode_after))
        return 11;
    p->mode = u;
    if (!extended)
        p->regular = true;
    else if (p->first_extended == NEVER)
        p->first_extended = u + 1;
    make_ready(p);
    return 0;
}

/* The breach of a refresh. What rule 3 allows changes here alone. */
static __attribute__((noinline)) uint32_t refresh(const struct figures *f, struct past *p, int32_t u)
{
    const int32_t rc_after[2] = { f->rc, f->rc };
    int32_t *eighth = &p->ref_word[p->refs % 8];
    if (u - p->mode < f->rsc)
        return 9;
    if (u - p->refresh < f->refc)
        return 10;
    if (within(p, u, rc_after))
        return 11;
    if (p->refs >= 8 && u + 1 - *eighth < f->w)
        return 12;
    *eighth = u + 1;
    p->refs++;
    p->refresh = u;
    int32_t m = p->refs < 8 ? p->refs : 8;
    p->deadline = p->ref_word[(p->refs - m) % 8] + m * f->d;
    make_ready(p);
    return 0;
}

/* The breach of a word that closes a pair. */
static inline uint32_t closing(const struct figures *f, struct past *p, int32_t k, uint32_t first, uint32_t word)
{
    if (word & CS)
        return first & FN ? access(f, p, k - 1, first, false) : write(f, p, k - 1, first, word);
    return first & FN ? mode(f, p, k - 1, word) : refresh(f, p, k - 1);
}

/* Whether PD may go low at a clock. */
static inline bool may_go_low(const struct figures *f, const struct past *p, int32_t k, uint32_t word)
{
    if (!(word & CS) || k - p->mode < f->rsc || k - p->refresh < f->refc)
        return false;
    return !within(p, k, f->low_after);
}

/* The breach of a word with PD low or with a bit above it. */
static inline uint32_t low(const struct figures *f, const struct past *p, uint32_t *met, int32_t k, uint32_t word)
{
    if (word >> 20)
        return 1;
    if (*met != ASLEEP && (*met != NOTHING || !may_go_low(f, p, k, word)))
        return 2;
    *met = ASLEEP;
    return k > p->deadline ? 3 : 0;
}

/* The lowest breach of the word at clock k, or 0, and what the next one meets. */
static inline uint32_t step(const struct figures *f, struct past *p, uint32_t *met, int32_t k, uint32_t word)
{
    uint32_t first = *met;
    if (word >> 19 != 1)
        return low(f, p, met, k, word);
    if (k > p->deadline)
        return 3;
    if (first == NOTHING) {
        if (!(word & CS))
            *met = word;
        return 0;
    }
    *met = first == ASLEEP ? WAKE_UP : NOTHING;
    if (first > WAKE_UP)
        return closing(f, p, k, first, word);
    return word & CS ? 0 : 13;
}

/* A word of a trace, little-endian as the machine is. */
static inline uint32_t word_at(const unsigned char *bytes, size_t k)
{
    uint32_t word;
    memcpy(&word, bytes + 4 * k, sizeof word);
    return word;
}

/* The exam site's number for a trace of so many words, at most 16,777,216, on an accepted sheet. */
uint32_t plain_check(const uint32_t sheet[11], const unsigned char *bytes, size_t count)
{
    const struct figures figures = figures_of(sheet);
    struct past past = none();
    uint32_t met = NOTHING;
    for (size_t k = 0; k < count; k++) {
        uint32_t breach = step(&figures, &past, &met, (int32_t)k, word_at(bytes, k));
        if (breach)
            return (uint32_t)k * 64 + breach;
    }
    return 0;
}

/* The sum of all words, with nothing carried past 32 bits. */
uint32_t plain_sum(const unsigned char *bytes, size_t count)
{
    uint32_t sum = 0;
    for (size_t k = 0; k < count; k++)
        sum += word_at(bytes, k);
    return sum;
}
