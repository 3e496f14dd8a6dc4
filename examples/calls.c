/* Each of the six calls on edges of document 01: what it answers, and by which number it refuses.
 * tools/link builds and runs it; a claim that does not hold is shown. */
#include "pulleybale.h"

#include <stdio.h>

static int held, failed;

static void claim(int holds, const char *text, int line)
{
    if (holds) {
        held++;
    } else {
        failed++;
        fprintf(stderr, "calls.c:%d: %s\n", line, text);
    }
}

#define CLAIM(text) claim(text, #text, __LINE__)

/* lists that are lent empty */
static const uint32_t none[1];
static const int64_t nums[1];

/* The score of examples/cue14.txt: 48000 frames a second, 120 beats a minute, 4 beats a bar, and a
 * pickup of 1 beat. */
static pulleybale_clock cue14(void)
{
    pulleybale_clock clock = pulleybale_clock_of(48000, 120.0f, 4, 696000);
    clock.pickup_num = 1;
    clock.pickup_den = 1;
    return clock;
}

/* A clock that plays 1000 frames with a loop of frames 100 to 300. */
static pulleybale_clock looped(uint64_t position)
{
    pulleybale_clock clock = pulleybale_clock_of(48000, 120.0f, 4, 1000);
    clock.position = position;
    clock.state = PULLEYBALE_PLAYING;
    clock.loop = 1;
    clock.loop_start = 100;
    clock.loop_end = 300;
    return clock;
}

static int same(pulleybale_clock a, pulleybale_clock b)
{
    return memcmp(&a, &b, sizeof a) == 0;
}

static void count(void)
{
    uint32_t bars = 0;

    /* cue14: its bars start at the beats 0, 1, 5, 9, 13 */
    CLAIM(pulleybale_count(none, 0, 4, 1, 1, 9, 1, &bars) == 0 && bars == 3);
    CLAIM(pulleybale_count(none, 0, 4, 1, 1, 28, 3, &bars) == 0 && bars == 4);
    /* a pickup of 0 beats: bars 0 and 1 start at beat 0 */
    CLAIM(pulleybale_count(none, 0, 4, 0, 1, 1, 2, &bars) == 0 && bars == 2);
    /* bar 2^31 is the last that is looked at */
    CLAIM(pulleybale_count(none, 0, 4, 0, 0, 8589934592, 1, &bars) == 0 && bars == 2147483648);
    CLAIM(pulleybale_count(none, 0, 4, 0, 0, 8589934593, 1, &bars) == 0 && bars == 4294967295);

    /* refused, with the word as it was: 6/8 is not in lowest terms, two words are no meter point */
    bars = 7;
    CLAIM(pulleybale_count(none, 0, 4, 0, 0, 6, 8, &bars) == 1 && bars == 7);
    CLAIM(pulleybale_count((uint32_t[]){0, 4}, 2, 4, 0, 0, 1, 1, &bars) == 3 && bars == 7);
}

static void start(void)
{
    static const uint32_t meter[] = {0, 5, 64};
    const uint32_t small = 1073741824; /* 2^30 */
    int64_t num = 0;
    uint32_t den = 0;

    CLAIM(pulleybale_start(none, 0, 4, 1, 1, 4, &num, &den) == 0 && num == 13 && den == 1);
    /* bars of 5/16 quarter beats behind a pickup of 1/2^30: this score does not fit. The start of
     * bar 2 would have the denominator 2^34 before it is reduced; that of bar 17 stays in 32 bits */
    CLAIM(pulleybale_start(meter, 3, 4, 1, small, 2, &num, &den) == 0 && num == INT64_MAX && den == 1);
    CLAIM(pulleybale_start(meter, 3, 4, 1, small, 17, &num, &den) == 0 && num == 5368709121 && den == small);

    CLAIM(pulleybale_start(none, 0, 4, 2, 2, 4, &num, &den) == 1 && num == 5368709121 && den == small);
}

/* a tempo map: 120 beats a minute, and 60 from beat 5 on */
static const int64_t at_nums[] = {0, 5};
static const uint32_t at_dens[] = {1, 1};

static void frame(void)
{
    const uint32_t tempos[] = {pulleybale_bits(120.0f), pulleybale_bits(60.0f)};
    pulleybale_clock clock = cue14();
    uint64_t at = 0;

    CLAIM(pulleybale_frame(&clock, none, 0, nums, 0, none, 0, none, 0, 3, &at) == 0 && at == 216000);
    CLAIM(pulleybale_frame(&clock, none, 0, at_nums, 2, at_dens, 2, tempos, 2, 3, &at) == 0 && at == 312000);

    CLAIM(pulleybale_frame(&clock, none, 0, at_nums, 2, at_dens, 1, tempos, 2, 4, &at) == 3 && at == 312000);
    clock.position = clock.length + 1;
    CLAIM(pulleybale_frame(&clock, none, 0, nums, 0, none, 0, none, 0, 4, &at) == 12 && at == 312000);
}

static void fill_lines(void)
{
    const uint32_t tempos[] = {pulleybale_bits(120.0f), pulleybale_bits(60.0f)};
    pulleybale_clock clock = cue14();
    uint64_t lines[4] = {0};

    CLAIM(pulleybale_fill_lines(&clock, none, 0, at_nums, 2, at_dens, 2, tempos, 2, lines, 4) == 0);
    CLAIM(lines[0] == 0 && lines[1] == 24000 && lines[2] == 120000 && lines[3] == 312000);
    CLAIM(pulleybale_fill_lines(&clock, none, 0, nums, 0, none, 0, none, 0, lines, 4) == 0);
    CLAIM(lines[0] == 0 && lines[1] == 24000 && lines[2] == 120000 && lines[3] == 216000);

    clock.pickup_den = 0;
    lines[0] = 5;
    CLAIM(pulleybale_fill_lines(&clock, none, 0, nums, 0, none, 0, none, 0, lines, 4) == 12);
    CLAIM(lines[0] == 5 && lines[1] == 24000 && lines[2] == 120000 && lines[3] == 216000);
}

static void advance(void)
{
    pulleybale_clock clock = looped(350);
    uint32_t report = 0;

    /* past the loop's end it wraps, also by 0 frames */
    CLAIM(pulleybale_advance(&clock, 0, &report) == 0 && report == PULLEYBALE_WRAPPED);
    CLAIM(same(clock, looped(150)));
    /* a sum past 2^64 - 1 counts as 2^64 - 1, which is 115 frames into a lap */
    CLAIM(pulleybale_advance(&clock, UINT64_MAX, &report) == 0 && report == PULLEYBALE_WRAPPED);
    CLAIM(same(clock, looped(215)));
    /* without a loop it stops at the length */
    clock.loop = 0;
    CLAIM(pulleybale_advance(&clock, 2000, &report) == 0 && report == PULLEYBALE_FINISHED);
    CLAIM(clock.position == 1000 && clock.state == PULLEYBALE_STOPPED);
    /* and what does not play stays */
    CLAIM(pulleybale_advance(&clock, 2000, &report) == 0 && report == 0 && clock.position == 1000);

    report = 9;
    clock = looped(1001);
    CLAIM(pulleybale_advance(&clock, 0, &report) == 12 && report == 9);
    CLAIM(same(clock, looped(1001)));
    /* words that are no clock: no such state, a loop neither off nor on, a rate that is too large */
    clock = looped(250);
    clock.state = 3;
    CLAIM(pulleybale_advance(&clock, 0, &report) == 12 && report == 9 && clock.state == 3);
    clock = looped(250);
    clock.loop = 2;
    CLAIM(pulleybale_advance(&clock, 0, &report) == 12 && report == 9);
    clock = looped(250);
    clock.rate = (uint64_t)1 << 32;
    CLAIM(pulleybale_advance(&clock, 0, &report) == 12 && report == 9);
}

static void cues(void)
{
    static const uint64_t lines[] = {0, 100, 200, 300}, fall[] = {0, 200, 100};
    static const uint64_t many[65537];
    pulleybale_clock clock = looped(250);
    uint64_t cues[8] = {0}, count = 0;
    uint32_t report = 0;

    /* 50 frames to the loop's end, one lap, and 50 frames of the next: (50, 1) (150, 2) (250, 1) */
    CLAIM(pulleybale_cues(&clock, lines, 4, 300, cues, 8, &count, &report) == 0);
    CLAIM(count == 3 && report == PULLEYBALE_WRAPPED && same(clock, looped(150)));
    CLAIM(cues[0] == 50 && cues[1] == 1 && cues[2] == 150 && cues[3] == 2 && cues[4] == 250 && cues[5] == 1);
    CLAIM(cues[6] == 0 && cues[7] == 0);

    /* refused, with nothing changed: room for two cues, a run past 2^64 - 1, lines that descend, too many */
    clock = looped(250);
    cues[0] = 5;
    CLAIM(pulleybale_cues(&clock, lines, 4, 300, cues, 5, &count, &report) == 8);
    CLAIM(pulleybale_cues(&clock, lines, 4, UINT64_MAX - 249, cues, 8, &count, &report) == 10);
    CLAIM(pulleybale_cues(&clock, fall, 3, 300, cues, 8, &count, &report) == 11);
    CLAIM(pulleybale_cues(&clock, many, 65537, 300, cues, 8, &count, &report) == 4);
    CLAIM(cues[0] == 5 && count == 3 && report == PULLEYBALE_WRAPPED && same(clock, looped(250)));

    /* 65,536 lines are not too many; all are at frame 0, which the loop does not reach */
    CLAIM(pulleybale_cues(&clock, many, 65536, 300, cues, 8, &count, &report) == 0 && count == 0);
    CLAIM(report == PULLEYBALE_WRAPPED && same(clock, looped(150)));

    /* a clock that does not play has no cues, however long the run is */
    clock.state = PULLEYBALE_PAUSED;
    CLAIM(pulleybale_cues(&clock, lines, 4, UINT64_MAX, cues, 0, &count, &report) == 0 && count == 0 && report == 0);
}

int main(void)
{
    count();
    start();
    frame();
    fill_lines();
    advance();
    cues();
    printf("%d claims hold, %d fail\n", held, failed);
    return failed == 0 ? 0 : 1;
}
