/* Pulleybale: bars on frames, for the firmware of a bar display. C99.
 *
 * Link target/staticlib/libstand.a, which tools/link makes for x86-64. It needs C's memset and nothing
 * else. No call keeps anything, allocates, or calls back.
 *
 * Every call answers 0, or the number by which it refuses. A refusal changes nothing that is lent.
 *
 *      1 not a beat          a denominator of 0, or a beat that is not in lowest terms
 *      3 uneven              meter words that are not three a point, tempo lists of different lengths
 *      4 too long            over 65,536 map points or bar lines
 *      8 no room             more cues than the list holds
 *     10 out of reach        position + frames above 2^64 - 1
 *     11 lines descend       a bar line is less than the one before
 *     12 unsound clock       words out of range, a position past the length, a bad loop or pickup
 *
 * What the types cannot say, the caller owes: a pointer is not NULL, also where its list is empty;
 * a list is as long as its length says; and nothing that a call writes overlaps anything else that
 * is lent to it.
 *
 * Maps. A meter map is words, three a point: bar, numerator, denominator. A tempo map is three
 * lists of one length: the numerators and denominators of its beats, and the bits of its tempos in
 * beats a minute. A beat is a quarter note throughout. A map may be empty: then the clock's own meter
 * or tempo is in force. The clock's own meter is beats/4: 6 is 6/4, not 6/8. A tempo below 1, or a
 * NaN, counts as 1, the clock's own and a map point's alike.
 *
 * Frames are rounded to the nearest, halves away from zero; below 0 they are 0, and they stop at
 * 2^64 - 1.
 *
 * Scores that fit. No call refuses a meter map for what its points say. Its bars are where they
 * should be where the score fits: the meter map has at most 256 points, the first at bar 0, each bar
 * above the one before, numerators of 1 or more, denominators 1, 2, 4 .. 64; the pickup is none or
 * at least 0; and no sum or product overflows on the way to any bar up to 2^31. For the last it is
 * enough that numerators and beats a bar are at most 4,096 and a pickup is at most 2^45 with a
 * denominator of at most 64. */
#ifndef PULLEYBALE_H
#define PULLEYBALE_H

#include <stddef.h>
#include <stdint.h>
#include <string.h>

#ifdef __cplusplus
extern "C" {
#endif

enum { PULLEYBALE_STOPPED = 0, PULLEYBALE_PLAYING = 1, PULLEYBALE_PAUSED = 2 };
enum { PULLEYBALE_WRAPPED = 1, PULLEYBALE_FINISHED = 2 };

/* A clock: eleven words of 64 bits, in the caller's own memory. It may be changed between calls;
 * a call refuses by 12 what is no sound clock.
 *
 * With a loop, a clock that plays goes on from loop_start where it comes to loop_end: loop_end itself
 * does not sound. A position at or past loop_end, as a caller may set, is folded into the loop by the
 * next call that lets frames go by, also by 0 frames. */
typedef struct pulleybale_clock {
    uint64_t rate;       /* frames a second, at most 2^32 - 1 */
    uint64_t bpm;        /* the bits of the tempo, a 32-bit float: pulleybale_bits(120.0f) */
    uint64_t beats;      /* beats a bar, at most 2^32 - 1; 0 counts as 1 */
    uint64_t length;     /* in frames */
    uint64_t position;   /* in frames, at most the length */
    uint64_t state;      /* PULLEYBALE_STOPPED, _PLAYING or _PAUSED */
    uint64_t loop;       /* 0 off, 1 on */
    uint64_t loop_start; /* looked at where the loop is on: start < end <= length */
    uint64_t loop_end;
    int64_t pickup_num; /* how long bar 0 lasts, in quarter beats; 0/0: as long as its meter says */
    uint64_t pickup_den;
} pulleybale_clock;

/* The bits of a tempo. */
static inline uint32_t pulleybale_bits(float bpm)
{
    uint32_t bits;
    memcpy(&bits, &bpm, sizeof bits);
    return bits;
}

/* A clock that is stopped at frame 0, without loop or pickup. */
static inline pulleybale_clock pulleybale_clock_of(uint32_t rate, float bpm, uint32_t beats, uint64_t length)
{
    pulleybale_clock clock;
    memset(&clock, 0, sizeof clock);
    clock.rate = rate;
    clock.bpm = pulleybale_bits(bpm);
    clock.beats = beats;
    clock.length = length;
    return clock;
}

/* How many bars have gone by at the beat num/den, into *bars: the first bar that starts at or after
 * it, where the score fits; 4294967295 where bar 2^31 still starts before it. `beats` is the meter
 * where no point is in force; a pickup of 0/0 is none. Refuses by 3, 4, 1. */
uint32_t pulleybale_count(const uint32_t *meter, size_t meter_len, uint32_t beats,
                          int64_t pickup_num, uint32_t pickup_den,
                          int64_t num, uint32_t den, uint32_t *bars);

/* The beat at which a bar starts, into *num and *den. A sum that overflows on the way, as it may
 * where the score does not fit, counts as 9223372036854775807/1, and so the answer may be this:
 * no refusal tells it. Refuses by 3, 4, 1. */
uint32_t pulleybale_start(const uint32_t *meter, size_t meter_len, uint32_t beats,
                          int64_t pickup_num, uint32_t pickup_den,
                          uint32_t bar, int64_t *num, uint32_t *den);

/* The frame on which a bar starts, into *frame. Refuses by 12, 3, 4, 1. */
uint32_t pulleybale_frame(const pulleybale_clock *clock, const uint32_t *meter, size_t meter_len,
                          const int64_t *nums, size_t nums_len, const uint32_t *dens, size_t dens_len,
                          const uint32_t *tempos, size_t tempos_len, uint32_t bar, uint64_t *frame);

/* The frames of the bars from 0 on: fills all of `lines`, entry k with the frame of bar k. No line
 * is less than the one before where the score fits and the tempo map has at most 1,024 points, their
 * tempos finite and above 0, their beats rising from 0 with numerators of at most 2^53. Other lines
 * may descend, and then pulleybale_cues refuses them by 11. Refuses by 12, 3, 4, 1. */
uint32_t pulleybale_fill_lines(const pulleybale_clock *clock, const uint32_t *meter, size_t meter_len,
                               const int64_t *nums, size_t nums_len, const uint32_t *dens, size_t dens_len,
                               const uint32_t *tempos, size_t tempos_len, uint64_t *lines, size_t lines_len);

/* Lets so many frames go by. Of the clock only position and state are written; *report is 0,
 * PULLEYBALE_WRAPPED or PULLEYBALE_FINISHED. A clock that does not play stays. Position + frames above
 * 2^64 - 1 is not refused, but counts as 2^64 - 1. Refuses by 12. */
uint32_t pulleybale_advance(pulleybale_clock *clock, uint64_t frames, uint32_t *report);

/* The same, but position + frames above 2^64 - 1 is refused; and writes the bar lines that sound on
 * the way, in playing order: for each two words, its frame counted from the beginning of these frames,
 * and its place in `lines`. *count is how many. `cues_len` is in words; words behind the last cue stay.
 * A run may be cut into blocks of any sizes, one call after the other: where none refuses, the cues are
 * the same (a block's are counted from its own beginning), the clock ends with the same words, and the
 * run's *report has a bit just where some block's has it. A block needs room for its own cues alone.
 * Refuses by 12, 4, 11, and where the clock plays by 10, 8. */
uint32_t pulleybale_cues(pulleybale_clock *clock, const uint64_t *lines, size_t lines_len, uint64_t frames,
                         uint64_t *cues, size_t cues_len, uint64_t *count, uint32_t *report);

#ifdef __cplusplus
}
#endif

#endif
