/* Bar lights of a looped cue, played in blocks of 64 and of 512 frames and as one run: the same
 * lights on the same frames, the same clock at the end, and the same report. tools/link builds and
 * runs it. */
#include "pulleybale.h"

#include <stdio.h>
#include <stdlib.h>

enum { BARS = 8, ROOM = 64, RUN = 768000 };

typedef struct light {
    uint64_t frame;
    uint64_t bar;
} light;

/* A run that was played: its lights, the clock at the end, and what some block reported. */
typedef struct run {
    light lights[ROOM];
    size_t lit;
    pulleybale_clock clock;
    uint32_t report;
} run;

static void must(const char *call, uint32_t number)
{
    if (number != 0) {
        fprintf(stderr, "%s: refused %u\n", call, (unsigned)number);
        exit(1);
    }
}

/* RUN frames, `block` at a time, from the clock's position on. */
static run play(pulleybale_clock clock, const uint64_t *lines, uint64_t block)
{
    uint64_t cues[2 * ROOM];
    uint64_t count, gone = 0;
    uint32_t report;
    run played;
    played.clock = clock;
    played.lit = 0;
    played.report = 0;
    while (gone < RUN) {
        uint64_t frames = RUN - gone < block ? RUN - gone : block;
        must("cues", pulleybale_cues(&played.clock, lines, BARS, frames, cues, 2 * (ROOM - played.lit), &count, &report));
        for (uint64_t k = 0; k < count; k++, played.lit++) {
            played.lights[played.lit].frame = gone + cues[2 * k];
            played.lights[played.lit].bar = cues[2 * k + 1];
        }
        played.report |= report;
        gone += frames;
    }
    return played;
}

static int same_lights(const run *a, const run *b)
{
    return a->lit == b->lit && memcmp(a->lights, b->lights, a->lit * sizeof a->lights[0]) == 0;
}

static int same_end(const run *a, const run *b)
{
    return memcmp(&a->clock, &b->clock, sizeof a->clock) == 0 && a->report == b->report;
}

int main(void)
{
    /* no meter points and no tempo points: the clock's own four beats and 120 a minute */
    static const uint32_t none[1];
    static const int64_t nums[1];
    static const uint64_t blocks[] = {64, 512};
    uint64_t lines[BARS];
    int alike = 1;

    pulleybale_clock clock = pulleybale_clock_of(48000, 120.0f, 4, 696000);
    clock.pickup_num = 1;
    clock.pickup_den = 1;
    must("fill_lines", pulleybale_fill_lines(&clock, none, 0, nums, 0, none, 0, none, 0, lines, BARS));

    /* from bar 2 on, three bars over and over */
    clock.state = PULLEYBALE_PLAYING;
    clock.loop = 1;
    clock.loop_start = lines[2];
    clock.loop_end = lines[5];

    run whole = play(clock, lines, RUN);
    printf("frame bar\n");
    for (size_t k = 0; k < whole.lit; k++)
        printf("%llu %llu\n", (unsigned long long)whole.lights[k].frame, (unsigned long long)whole.lights[k].bar);
    for (size_t k = 0; k < sizeof blocks / sizeof blocks[0]; k++) {
        run cut = play(clock, lines, blocks[k]);
        int lights = same_lights(&whole, &cut), end = same_end(&whole, &cut);
        printf("blocks of %llu: %s, %s\n", (unsigned long long)blocks[k], lights ? "the same lights" : "OTHER LIGHTS",
               end ? "the same clock and report" : "ANOTHER CLOCK OR REPORT");
        alike = alike && lights && end;
    }
    return alike ? 0 : 1;
}
