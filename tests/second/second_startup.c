/* second_startup.c: the group `startup`: sdsl_start, sdsl_step and sdsl_run_codes. */
#include "harness.h"

#ifdef SECOND_STARTUP

#include "bylist.h"
#include "reference.h"

#include <stdio.h>
#include <stdlib.h>

static struct tally starts = {"sdsl_start", 0, 0};
static struct tally steps = {"sdsl_step", 0, 0};
static struct tally runs = {"sdsl_run_codes", 0, 0};
static struct tally lists = {"runs, by the list", 0, 0};
static struct tally named = {"cases that are named", 0, 0};

#define PHASES 14
#define LIST_CODES 50000

/* How often the lists met each code in each phase of each end, and how attempts ended in them. */
static uint64_t met[2][PHASES][9];
static uint64_t attempts_opened, attempts_in_data_mode, attempts_run_out;

/* ---- One comparison each ---- */

static bool same_state(struct sdsl_supervisor one, struct sdsl_supervisor other)
{
    return one.end == other.end && one.phase == other.phase && one.ticks == other.ticks && one.attempt == other.attempt
           && one.silence == other.silence && one.converged == other.converged && one.seen == other.seen;
}

static struct comparison compare(struct sdsl_stepped lib, struct sdsl_stepped ref)
{
    struct comparison comparison = {NULL};
    want(&comparison, lib.answer == ref.answer, "answers differ");
    want(&comparison, lib.phase == ref.phase, "phases differ");
    want(&comparison, lib.attempt == ref.attempt, "the answered attempt ticks differ");
    want(&comparison, same_state(lib.state, ref.state), "states differ");
    return comparison;
}

/* A state in short form: end, phase, ticks, attempt, silence, the two marks. */
#define STATE_FORM "{%u %u %u %u %u %u %u}"
#define STATE_ARGUMENTS(s) (s).end, (s).phase, (s).ticks, (s).attempt, (s).silence, (s).converged, (s).seen

static void try_start(uint32_t end, uint32_t silence)
{
    struct sdsl_stepped lib = sdsl_start(end, silence);
    struct sdsl_stepped ref = ref_start(end, silence);
    settle(compare(lib, ref), &starts, "end %u silence %u: library %u " STATE_FORM ", reference %u " STATE_FORM, end, silence, lib.answer,
           STATE_ARGUMENTS(lib.state), ref.answer, STATE_ARGUMENTS(ref.state));
}

static struct sdsl_stepped try_step(struct sdsl_supervisor state, uint32_t code)
{
    struct sdsl_stepped lib = sdsl_step(state, code);
    struct sdsl_stepped ref = ref_step(state, code);
    struct comparison comparison = compare(lib, ref);
    want(&comparison, lib.answer == 0 || same_state(lib.state, state), "a refused step changed the state");
    settle(comparison, &steps, STATE_FORM " code %u: library %u phase %u attempt %u " STATE_FORM ", reference %u phase %u attempt %u "
           STATE_FORM, STATE_ARGUMENTS(state), code, lib.answer, lib.phase, lib.attempt, STATE_ARGUMENTS(lib.state), ref.answer,
           ref.phase, ref.attempt, STATE_ARGUMENTS(ref.state));
    return lib;
}

static struct sdsl_run try_run(struct sdsl_supervisor state, const uint8_t *octets, size_t len)
{
    struct pair codes = lend(octets, len);
    struct sdsl_run lib = sdsl_run_codes(state, codes.lib, codes.len);
    struct sdsl_run ref = ref_run_codes(state, codes.ref, codes.len);
    struct comparison comparison = {NULL};
    want(&comparison, lib.answer == ref.answer, "answers differ");
    want(&comparison, lib.attempts == ref.attempts && lib.opened_at == ref.opened_at, "openings differ");
    want(&comparison, lib.outcome == ref.outcome && lib.ended_at == ref.ended_at, "endings differ");
    want(&comparison, same_state(lib.state, ref.state), "states differ");
    want(&comparison, lib.answer == 0 || same_state(lib.state, state), "a refused run changed the state");
    want_kept(&comparison, &codes, "the codes changed");
    settle(comparison, &runs, STATE_FORM " %zu codes: library %u opened %llu at %llu ended %u at %llu " STATE_FORM
           ", reference %u opened %llu at %llu ended %u at %llu " STATE_FORM, STATE_ARGUMENTS(state), len, lib.answer,
           (unsigned long long)lib.attempts, (unsigned long long)lib.opened_at, lib.outcome, (unsigned long long)lib.ended_at,
           STATE_ARGUMENTS(lib.state), ref.answer, (unsigned long long)ref.attempts, (unsigned long long)ref.opened_at, ref.outcome,
           (unsigned long long)ref.ended_at, STATE_ARGUMENTS(ref.state));
    give_back(&codes);
    return lib;
}

/* The silence that a start with 0 has. */
#define DEFAULT_SILENCE 5000

/* From a fresh start: also against what the list itself says, which is told a silence and never 0. */
static void try_fresh_run(uint32_t end, uint32_t silence, const uint8_t *octets, size_t len)
{
    struct sdsl_run lib = try_run(sdsl_start(end, silence).state, octets, len);
    struct by_list list = run_by_list(end, silence == 0 ? DEFAULT_SILENCE : silence, octets, len);
    struct comparison comparison = {NULL};
    want(&comparison, lib.answer == 0, "refused");
    want(&comparison, lib.attempts == list.attempts && lib.opened_at == list.opened_at, "openings differ");
    want(&comparison, lib.outcome == list.outcome && lib.ended_at == list.ended_at, "endings differ");
    settle(comparison, &lists, "end %u silence %u %zu codes: library %u opened %llu at %llu ended %u at %llu, the list opened %llu"
           " at %llu ended %u at %llu", end, silence, len, lib.answer, (unsigned long long)lib.attempts, (unsigned long long)lib.opened_at,
           lib.outcome, (unsigned long long)lib.ended_at, (unsigned long long)list.attempts, (unsigned long long)list.opened_at,
           list.outcome, (unsigned long long)list.ended_at);
}

/* ---- Starts ---- */

static const uint32_t ends[] = {0, 1, 2, 3, 255, 256, 257, 65536, 2147483648, 2147483649, 4294967295};

static void all_starts(void)
{
    static const uint32_t silences[] = {0, 1, 2, 255, 256, 1998, 1999, 2000, 2001, 4999, 5000, 5001, 59999, 60000, 60001, 65535, 65536,
                                        67536, 70536, 125536, 2147483648, 2147485648, 2147488648, 4294967295};
    for (size_t e = 0; e < ITEMS(ends); e++) {
        for (size_t s = 0; s < ITEMS(silences); s++) {
            try_start(ends[e], silences[s]);
            /* A refused start gives a state that every step refuses. */
            struct sdsl_stepped started = sdsl_start(ends[e], silences[s]);
            for (uint32_t code = 0; code <= 9; code++) {
                try_step(started.state, code);
            }
        }
    }
    for (uint32_t silence = 0; silence <= 61000; silence++) {
        try_start(silence % 2, silence);
    }
    for (size_t i = 0; i < scaled(10000); i++) {
        try_start((uint32_t)below(3), random32());
        try_start(random32(), (uint32_t)below(62000));
    }
}

/* ---- Steps from any state ---- */

static const uint32_t tick_edges[] = {0, 1, 298, 299, 300, 301, 498, 499, 500, 501, 998, 999, 1000, 1001, 1498, 1499, 1500, 1998, 1999,
                                      2000, 4998, 4999, 5000, 5001, 14998, 14999, 15000, 59998, 59999, 60000};
static const uint32_t attempt_edges[] = {0, 1, 14997, 14998, 14999, 15000};
static const uint32_t silence_edges[] = {2000, 5000, 60000};
static const uint32_t marks[] = {0, 1, 2147483648};

/* Every phase with every code, at every edge. Among them are all states that are refused for one number. */
static void steps_at_edges(void)
{
    struct sdsl_supervisor s;
    for (s.end = 0; s.end < 2; s.end++) {
        for (s.phase = 0; s.phase <= PHASES; s.phase++) {
            for (size_t t = 0; t < ITEMS(tick_edges); t++) {
                s.ticks = tick_edges[t];
                for (size_t a = 0; a < ITEMS(attempt_edges); a++) {
                    s.attempt = attempt_edges[a];
                    for (size_t m = 0; m < ITEMS(marks) * ITEMS(marks) * ITEMS(silence_edges); m++) {
                        s.silence = silence_edges[m / 9];
                        s.converged = marks[m % 9 / 3];
                        s.seen = marks[m % 3];
                        for (uint32_t code = 0; code <= 9; code++) {
                            try_step(s, code);
                        }
                    }
                }
            }
        }
    }
}

/* A state in its ranges, with chance contents: near the edges in half of the cases. */
static struct sdsl_supervisor any_state(void)
{
    static const uint32_t ntu_phases[] = {SDSL_READY, SDSL_GAP, SDSL_CR, SDSL_QUIET, SDSL_SR, SDSL_TR, SDSL_SETTLING, SDSL_VALID,
                                          SDSL_EXCEPTION};
    static const uint32_t ltu_phases[] = {SDSL_READY, SDSL_AWAIT, SDSL_HEARING, SDSL_QUIET, SDSL_SC, SDSL_TC, SDSL_FC, SDSL_SETTLING,
                                          SDSL_VALID, SDSL_EXCEPTION};
    struct sdsl_supervisor s;
    s.end = (uint32_t)below(2);
    s.phase = s.end == SDSL_NTU ? ntu_phases[below(ITEMS(ntu_phases))] : ltu_phases[below(ITEMS(ltu_phases))];
    s.ticks = below(2) == 0 ? tick_edges[below(ITEMS(tick_edges) - 1)] : (uint32_t)below(60000);
    s.attempt = below(2) == 0 ? attempt_edges[below(ITEMS(attempt_edges) - 1)] : (uint32_t)below(15000);
    s.silence = below(2) == 0 ? silence_edges[below(ITEMS(silence_edges))] : (uint32_t)between(2000, 60000);
    s.converged = below(2) == 0 ? 0 : (below(2) == 0 ? 1 : random32());
    s.seen = below(2) == 0 ? 0 : (below(2) == 0 ? 1 : random32());
    return s;
}

/* Every set of faults at once, by steps and by runs. */
static void step_faults(void)
{
    enum { END = 1, CODE = 2, PHASE = 4, TICKS = 8, ATTEMPT = 16, SILENCE = 32, SETS = 64 };
    static const uint32_t bad_codes[] = {9, 10, 255, 256, 257, 264, 65536, 2147483648, 2147483656, 4294967295};
    static const uint32_t ntu_strange[] = {9, 10, 11, 12, 13, 14, 255, 256, 258, 2147483648, 4294967295};
    static const uint32_t ltu_strange[] = {1, 2, 4, 5, 14, 15, 255, 256, 265, 2147483657, 4294967295};
    static const uint32_t bad_ticks[] = {60000, 60001, 65536, 2147483648, 4294967295};
    static const uint32_t bad_attempts[] = {15000, 15001, 65536, 2147483648, 4294967295};
    static const uint32_t bad_silences[] = {0, 1, 1999, 60001, 65536, 67536, 2147483648, 4294967295};
    for (unsigned set = 0; set < SETS; set++) {
        for (unsigned turn = 0; turn < 200; turn++) {
            struct sdsl_supervisor s = any_state();
            uint32_t code = (uint32_t)below(9);
            if (set & PHASE) {
                s.phase = s.end == SDSL_NTU ? ntu_strange[below(ITEMS(ntu_strange))] : ltu_strange[below(ITEMS(ltu_strange))];
            }
            if (set & END) {
                s.end = ends[2 + below(ITEMS(ends) - 2)];
            }
            if (set & CODE) {
                code = bad_codes[below(ITEMS(bad_codes))];
            }
            if (set & TICKS) {
                s.ticks = bad_ticks[below(ITEMS(bad_ticks))];
            }
            if (set & ATTEMPT) {
                s.attempt = bad_attempts[below(ITEMS(bad_attempts))];
            }
            if (set & SILENCE) {
                s.silence = bad_silences[below(ITEMS(bad_silences))];
            }
            try_step(s, code);
            uint8_t codes[8];
            random_octets(codes, sizeof codes);
            codes[below(sizeof codes)] = (uint8_t)code;
            try_run(s, codes, (size_t)below(sizeof codes + 1));
        }
    }
}

static void steps_from_any_state(void)
{
    for (size_t i = 0; i < scaled(100000); i++) {
        try_step(any_state(), (uint32_t)below(9));
        try_step(any_state(), SDSL_TICK);
    }
}

/* ---- Lists ---- */

/* What a list is like. Each number is the rarity of something: it comes once in so many codes. */
struct plan {
    uint32_t end;
    uint32_t silence;
    uint64_t patience;  /* the report that the phase awaits */
    uint64_t calm;      /* an abnormal report */
    uint64_t noise;     /* any report, or a number over 8 */
    uint32_t trouble;   /* in this phase an abnormal report comes soon */
    uint32_t stuck;     /* in this phase what it awaits never comes, so that attempts run out */
};

static struct plan make_plan(size_t number)
{
    static const uint32_t stuck_phases[2][4] = {{SDSL_HEARING, SDSL_SC, SDSL_TC, SDSL_FC}, {SDSL_SR, SDSL_TR, SDSL_SR, SDSL_TR}};
    static const uint64_t patiences[] = {20, 200, 1000, 3000, 20000};
    static const uint64_t calms[] = {1000, 8000, 100000, 100000};
    static const uint64_t noises[] = {5, 50, 1000};
    struct plan plan;
    plan.end = (uint32_t)(number % 2);
    plan.silence = below(4) == 0 ? (uint32_t)between(2000, 20000) : (uint32_t)between(2000, 2500);
    plan.patience = patiences[below(ITEMS(patiences))];
    plan.calm = calms[below(ITEMS(calms))];
    plan.noise = noises[below(ITEMS(noises))];
    plan.trouble = (uint32_t)(number / 2 % PHASES); /* none where it is a phase of the other end */
    plan.stuck = below(2) == 0 ? stuck_phases[plan.end][below(4)] : PHASES;
    return plan;
}

static uint8_t awaited(uint32_t phase)
{
    switch (phase) {
    case SDSL_READY:
        return SDSL_PRE_ACTIVATION_ENDED;
    case SDSL_AWAIT:
        return SDSL_CR_BEGINS;
    case SDSL_HEARING:
        return SDSL_CR_ENDED;
    case SDSL_SR:
        return below(2) == 0 ? SDSL_CONVERGED : SDSL_TC_SEEN;
    case SDSL_SC:
        return SDSL_CONVERGED;
    case SDSL_TC:
        return SDSL_TR_SEEN;
    case SDSL_TR:
    case SDSL_FC:
        return SDSL_SECOND_FC_OVER;
    default:
        return (uint8_t)between(1, 7);
    }
}

static uint8_t next_code(const struct plan *plan, uint32_t phase)
{
    bool waits = phase == SDSL_READY || phase == SDSL_AWAIT;
    bool done = phase == SDSL_SETTLING || phase == SDSL_VALID;
    uint8_t code = SDSL_TICK;
    if (below(plan->calm) == 0 || (done && below(1500) == 0) || (phase == plan->trouble && below(200) == 0)) {
        return SDSL_ABNORMAL;
    }
    if (below(waits && plan->patience > 300 ? 300 : plan->patience) == 0) {
        code = awaited(phase);
    } else if (below(plan->noise) == 0) {
        /* no 8 among these, which would end every attempt */
        code = (uint8_t)(below(3) == 0 ? between(9, 255) : between(1, 7));
    }
    /* Of the two that S_r awaits, 5 does not come. */
    bool held_back = phase == plan->stuck && (phase == SDSL_SR ? code == SDSL_TC_SEEN : code == awaited(phase));
    return held_back ? SDSL_TICK : code;
}

/* A list by a plan, and each of its steps compared, from a fresh start: the library goes on with its own state. */
static void make_list(const struct plan *plan, uint8_t *codes, size_t len)
{
    struct sdsl_supervisor lib = sdsl_start(plan->end, plan->silence).state;
    struct sdsl_supervisor ref = ref_start(plan->end, plan->silence).state;
    for (size_t i = 0; i < len; i++) {
        codes[i] = next_code(plan, ref.phase);
        lib = try_step(lib, codes[i]).state;
        struct sdsl_supervisor before = ref;
        ref = ref_step(ref, codes[i]).state;
        if (codes[i] > 8) {
            continue;
        }
        met[plan->end][before.phase][codes[i]]++;
        if (before.phase != ref.phase) {
            attempts_opened += ref.phase == SDSL_CR || ref.phase == SDSL_HEARING;
            attempts_in_data_mode += ref.phase == SDSL_SETTLING;
            attempts_run_out += ref.phase == SDSL_EXCEPTION && codes[i] == SDSL_TICK;
        }
    }
}

static void try_list(const struct plan *plan, uint8_t *codes)
{
    make_list(plan, codes, LIST_CODES);
    try_fresh_run(plan->end, plan->silence, codes, LIST_CODES);
    for (unsigned part = 0; part < 4; part++) {
        try_fresh_run(plan->end, plan->silence, codes, (size_t)below(LIST_CODES));
    }
    /* The end of the list from any state. */
    size_t from = (size_t)below(LIST_CODES);
    try_run(any_state(), codes + from, LIST_CODES - from);
}

static void long_lists(void)
{
    uint8_t *codes = malloc(LIST_CODES);
    if (codes == NULL) {
        abort();
    }
    for (size_t i = 0; i < scaled(56); i++) {
        struct plan plan = make_plan(i);
        try_list(&plan, codes);
    }
    for (size_t i = 0; i < scaled(28); i++) { /* started with 0; an 8 comes soon in each phase of each end */
        struct plan plan = make_plan(i);
        plan.silence = 0;
        try_list(&plan, codes);
    }
    free(codes);
}

/* Short lists: all codes alike from a fresh start, and from any state. */
static void short_lists(void)
{
    uint8_t codes[60];
    for (size_t i = 0; i < scaled(20000); i++) {
        size_t len = (size_t)below(sizeof codes + 1);
        for (size_t k = 0; k < len; k++) {
            codes[k] = (uint8_t)(below(3) == 0 ? 0 : below(10));
        }
        try_run(any_state(), codes, len);
        try_fresh_run((uint32_t)below(2), (uint32_t)between(2000, 60000), codes, len);
    }
}

/* ---- Cases that SCOPE names, with literal results, on either side ---- */

struct side {
    const char *name;
    struct sdsl_stepped (*start)(uint32_t end, uint32_t silence);
    struct sdsl_stepped (*step)(struct sdsl_supervisor state, uint32_t code);
    struct sdsl_run (*run)(struct sdsl_supervisor state, const uint8_t *codes, size_t codes_len);
};

static void name(bool good, const char *what, const struct side *side)
{
    struct comparison comparison = {good ? NULL : "not as in the paper"};
    settle(comparison, &named, "%s, by the %s", what, side->name);
}

/* A list in the making. */
struct script {
    uint8_t codes[76000];
    size_t len;
};

static void say(struct script *script, uint8_t code)
{
    script->codes[script->len] = code;
    script->len++;
}

static void wait(struct script *script, size_t ticks)
{
    for (size_t i = 0; i < ticks; i++) {
        say(script, SDSL_TICK);
    }
}

/* The script from a fresh start, step by step. */
static struct sdsl_stepped played(const struct side *side, uint32_t end, uint32_t silence, const struct script *script)
{
    struct sdsl_stepped at = side->start(end, silence);
    for (size_t i = 0; i < script->len; i++) {
        at = side->step(at.state, script->codes[i]);
    }
    return at;
}

/* The silence of every case but those of the silence itself. */
#define SILENCE 2000

/* After the script the phase is this, and the attempt has these ticks. */
static void expect_with(const struct side *side, uint32_t end, uint32_t silence, const struct script *script, uint32_t phase,
                        uint32_t attempt, const char *what)
{
    struct sdsl_stepped at = played(side, end, silence, script);
    name(at.answer == 0 && at.phase == phase && at.attempt == attempt && at.state.phase == phase, what, side);
}

static void expect(const struct side *side, uint32_t end, const struct script *script, uint32_t phase, uint32_t attempt, const char *what)
{
    expect_with(side, end, SILENCE, script, phase, attempt, what);
}

static void expect_run(const struct side *side, uint32_t end, const struct script *script, uint64_t opened_at, uint32_t outcome,
                       uint64_t ended_at, const char *what)
{
    struct sdsl_run run = side->run(side->start(end, SILENCE).state, script->codes, script->len);
    name(run.answer == 0 && run.attempts == 1 && run.opened_at == opened_at && run.outcome == outcome && run.ended_at == ended_at, what,
         side);
}

/* A code so many times, and then the phase and the attempt's ticks. */
struct line {
    uint8_t code;
    size_t times;
    uint32_t phase;
    uint32_t attempt;
    const char *what;
};

static void walk(const struct side *side, uint32_t end, struct script *script, const struct line *lines, size_t count)
{
    for (size_t i = 0; i < count; i++) {
        for (size_t n = 0; n < lines[i].times; n++) {
            say(script, lines[i].code);
        }
        expect(side, end, script, lines[i].phase, lines[i].attempt, lines[i].what);
    }
}

#define WALK(side, end, script, lines) walk(side, end, script, lines, ITEMS(lines))

/* An attempt brought to its tick 14,999, where 7 is awaited: 7 there is data mode, and after one tick more it comes too late. */
static void last_tick(const struct side *side, uint32_t end, struct script *script, uint64_t opened_at)
{
    static const struct line in_time[] = {{7, 1, SDSL_SETTLING, 0, "7 after tick 14,999"}};
    static const struct line too_late[] = {{SDSL_TICK, 1, SDSL_EXCEPTION, 0, "tick 15,000"},
                                           {7, 1, SDSL_EXCEPTION, 0, "7 after tick 15,000"}};
    size_t at_14999 = script->len;
    WALK(side, end, script, in_time);
    expect_run(side, end, script, opened_at, SDSL_IN_DATA_MODE, at_14999, "run, 7 after tick 14,999");
    script->len = at_14999;
    WALK(side, end, script, too_late);
    expect_run(side, end, script, opened_at, SDSL_IN_EXCEPTION, at_14999, "run, 7 after tick 15,000");
}

static void ntu_cases(const struct side *side)
{
    static const struct line to_14999[] = {
        {SDSL_TICK, 0, SDSL_READY, 0, "NTU starts ready"},
        {1, 1, SDSL_GAP, 0, "NTU 1 starts Gap"},
        {SDSL_TICK, 299, SDSL_GAP, 0, "NTU Gap at 299"},
        {SDSL_TICK, 1, SDSL_CR, 0, "NTU C_r at 300"},
        {SDSL_TICK, 999, SDSL_CR, 999, "NTU C_r at 999"},
        {SDSL_TICK, 1, SDSL_QUIET, 1000, "NTU Quiet at 1,000"},
        {4, 1, SDSL_QUIET, 1000, "NTU 4 in Quiet"},
        {5, 1, SDSL_QUIET, 1000, "NTU 5 in Quiet"},
        {SDSL_TICK, 1499, SDSL_QUIET, 2499, "NTU Quiet at 2,499"},
        {SDSL_TICK, 1, SDSL_SR, 2500, "NTU S_r at 2,500"},
        {5, 1, SDSL_SR, 2500, "NTU S_r with 5 alone"},
        {SDSL_TICK, 10, SDSL_SR, 2510, "NTU an early 4 is not remembered"},
        {4, 1, SDSL_TR, 2510, "NTU T_r after 4 and 5"},
        {SDSL_TICK, 12489, SDSL_TR, 14999, "NTU tick 14,999"},
    };
    static const struct line to_valid[] = {
        {7, 1, SDSL_SETTLING, 0, "NTU Settling"},
        {SDSL_TICK, 999, SDSL_SETTLING, 0, "NTU Settling at 999"},
        {SDSL_TICK, 1, SDSL_VALID, 0, "NTU Valid at 1,000"},
    };
    static const struct line silence[] = {
        {8, 1, SDSL_EXCEPTION, 0, "NTU 8 in Valid"},
        {SDSL_TICK, 1999, SDSL_EXCEPTION, 0, "NTU silence at 1,999"},
        {8, 1, SDSL_EXCEPTION, 0, "NTU 8 in the silence"},
        {SDSL_TICK, 1999, SDSL_EXCEPTION, 0, "NTU 8 starts the silence again"},
        {SDSL_TICK, 1, SDSL_READY, 0, "NTU ready 2,000 after the second 8"},
    };
    static const struct line silence_of_an_attempt[] = {
        {SDSL_TICK, 1999, SDSL_EXCEPTION, 0, "NTU silence at 1,999 after tick 15,000"},
        {SDSL_TICK, 1, SDSL_READY, 0, "NTU ready 2,000 after tick 15,000"},
    };
    static struct script s;
    s.len = 0;
    WALK(side, SDSL_NTU, &s, to_14999);
    size_t at_14999 = s.len;
    last_tick(side, SDSL_NTU, &s, 300);
    WALK(side, SDSL_NTU, &s, silence_of_an_attempt);
    s.len = at_14999;
    WALK(side, SDSL_NTU, &s, to_valid);
    WALK(side, SDSL_NTU, &s, silence);
}

static void ltu_cases(const struct side *side)
{
    static const struct line to_14999[] = {
        {1, 1, SDSL_AWAIT, 0, "LTU 1 starts Await"},
        {SDSL_TICK, 20000, SDSL_AWAIT, 0, "LTU Await has no limit"},
        {2, 1, SDSL_HEARING, 0, "LTU 2 starts Hearing"},
        {SDSL_TICK, 1000, SDSL_HEARING, 1000, "LTU Hearing waits for 3"},
        {3, 1, SDSL_QUIET, 1000, "LTU 3 starts Quiet"},
        {4, 1, SDSL_QUIET, 1000, "LTU 4 in Quiet"},
        {SDSL_TICK, 500, SDSL_SC, 1500, "LTU S_c after 500"},
        {SDSL_TICK, 5000, SDSL_SC, 6500, "LTU an early 4 is not remembered"},
        {4, 1, SDSL_TC, 6500, "LTU T_c with 4 after 5,000"},
        {7, 1, SDSL_TC, 6500, "LTU 7 before 6 changes nothing"},
        {6, 1, SDSL_FC, 6500, "LTU 6 starts F_c"},
        {SDSL_TICK, 8499, SDSL_FC, 14999, "LTU tick 14,999"},
    };
    static struct script s;
    s.len = 0;
    WALK(side, SDSL_LTU, &s, to_14999);
    last_tick(side, SDSL_LTU, &s, 20001);

    /* The 15,000th tick in place of the one that ends Quiet, or S_c. */
    for (size_t hearing = 9498; hearing <= 9501; hearing++) {
        s.len = 0;
        say(&s, 1);
        say(&s, 2);
        wait(&s, hearing);
        say(&s, 3);
        wait(&s, 500);
        say(&s, 4);
        wait(&s, 4999);
        expect(side, SDSL_LTU, &s, hearing + 5499 < 15000 ? SDSL_SC : SDSL_EXCEPTION, hearing + 5499 < 15000 ? (uint32_t)hearing + 5499 : 0,
               "LTU one tick before S_c ends");
        wait(&s, 1);
        expect(side, SDSL_LTU, &s, hearing + 5500 < 15000 ? SDSL_TC : SDSL_EXCEPTION, hearing + 5500 < 15000 ? (uint32_t)hearing + 5500 : 0,
               "LTU the tick that ends S_c");
    }
    for (size_t hearing = 14499; hearing <= 14501; hearing++) {
        s.len = 0;
        say(&s, 1);
        say(&s, 2);
        wait(&s, hearing);
        say(&s, 3);
        wait(&s, 500);
        expect(side, SDSL_LTU, &s, hearing + 500 < 15000 ? SDSL_SC : SDSL_EXCEPTION, hearing + 500 < 15000 ? 14999 : 0,
               "LTU the tick that ends Quiet");
    }
}

/* A script that opens an attempt. */
static void open_attempt(struct script *script, uint32_t end)
{
    script->len = 0;
    say(script, 1);
    if (end == SDSL_LTU) {
        say(script, 2);
    } else {
        wait(script, 300);
    }
}

/* Code 9 in mid-attempt; a state handed in amid an attempt. */
static void other_cases(const struct side *side)
{
    static struct script s;
    for (uint32_t end = 0; end < 2; end++) {
        open_attempt(&s, end);
        size_t opened_at = s.len - 1;
        wait(&s, 100);
        struct sdsl_stepped before = played(side, end, SILENCE, &s);
        struct sdsl_stepped nine = side->step(before.state, 9);
        name(nine.answer == 2 && nine.phase == 0 && nine.attempt == 0 && same_state(nine.state, before.state), "code 9 in mid-attempt", side);
        say(&s, 9);
        say(&s, 255);
        wait(&s, 100);
        expect(side, end, &s, end == SDSL_LTU ? SDSL_HEARING : SDSL_CR, 200, "the attempt goes on after code 9");
        expect_run(side, end, &s, opened_at, SDSL_STILL_OPEN, 0, "the run goes on after code 9");

        struct sdsl_run run = side->run(before.state, (const uint8_t *)"\10", 1);
        name(run.answer == 0 && run.attempts == 0 && run.outcome == SDSL_NONE_OPENED && run.ended_at == 0 &&
             run.state.phase == SDSL_EXCEPTION, "an attempt that opened before the list", side);
    }
}

/* The silence from the code 8, or the 15,000th tick, with which the script ends: silent one tick before its end, and then ready. */
static void rests(const struct side *side, uint32_t end, uint32_t silence, struct script *script, uint32_t ticks, const char *what)
{
    size_t begins = script->len;
    expect_with(side, end, silence, script, SDSL_EXCEPTION, 0, what);
    wait(script, ticks - 1);
    expect_with(side, end, silence, script, SDSL_EXCEPTION, 0, what);
    wait(script, 1);
    expect_with(side, end, silence, script, SDSL_READY, 0, what);
    /* A report 1 behind the last tick but one is not heard; with it the card would not be ready then. */
    script->len = begins;
    wait(script, ticks - 1);
    say(script, 1);
    wait(script, 1);
    expect_with(side, end, silence, script, SDSL_READY, 0, what);
    script->len = begins;
}

/* What a start makes of its silence: what 0 stands for, what is taken and kept, and how long it lasts. */
static void silence_cases(const struct side *side)
{
    static const struct {
        uint32_t asked, answer, kept;
        const char *what;
    } starts_with[] = {
        {0, 0, 5000, "silence 0"},          {1, 4, 0, "silence 1"},           {1999, 4, 0, "silence 1,999"},
        {2000, 0, 2000, "silence 2,000"},   {2001, 0, 2001, "silence 2,001"}, {4999, 0, 4999, "silence 4,999"},
        {5000, 0, 5000, "silence 5,000"},   {5001, 0, 5001, "silence 5,001"}, {59999, 0, 59999, "silence 59,999"},
        {60000, 0, 60000, "silence 60,000"}, {60001, 4, 0, "silence 60,001"},
    };
    static const struct {
        uint32_t asked, ticks;
        const char *after_8, *after_an_attempt;
    } lasts[] = {
        {0, 5000, "the default silence after an 8", "the default silence after tick 15,000"},
        {2000, 2000, "2,000 asked for, after an 8", "2,000 asked for, after tick 15,000"},
        {5000, 5000, "5,000 asked for, after an 8", "5,000 asked for, after tick 15,000"},
        {60000, 60000, "the longest silence after an 8", "the longest silence after tick 15,000"},
    };
    static struct script s;
    for (uint32_t end = 0; end < 2; end++) {
        for (size_t i = 0; i < ITEMS(starts_with); i++) {
            struct sdsl_stepped at = side->start(end, starts_with[i].asked);
            name(at.answer == starts_with[i].answer && at.state.silence == starts_with[i].kept, starts_with[i].what, side);
        }
        for (size_t i = 0; i < ITEMS(lasts); i++) {
            s.len = 0;
            say(&s, 8);
            rests(side, end, lasts[i].asked, &s, lasts[i].ticks, lasts[i].after_8);
            open_attempt(&s, end);
            wait(&s, 15000);
            rests(side, end, lasts[i].asked, &s, lasts[i].ticks, lasts[i].after_an_attempt);
        }
    }
}

/* ---- The group ---- */

static void print_coverage(void)
{
    unsigned phases = 0;
    unsigned abnormal = 0;
    unsigned pairs = 0;
    for (size_t end = 0; end < 2; end++) {
        for (size_t phase = 0; phase < PHASES; phase++) {
            bool visited = false;
            for (size_t code = 0; code <= 8; code++) {
                visited = visited || met[end][phase][code] > 0;
                pairs += met[end][phase][code] > 0;
            }
            phases += visited;
            abnormal += met[end][phase][SDSL_ABNORMAL] > 0;
        }
    }
    printf("  the lists opened %llu attempts: %llu in data mode, %llu run out; %u of 19 phases visited, abnormal reports in %u,"
           " %u of 171 phases with codes\n", (unsigned long long)attempts_opened, (unsigned long long)attempts_in_data_mode,
           (unsigned long long)attempts_run_out, phases, abnormal, pairs);
}

void second_startup(void)
{
    static const struct side library = {"library", sdsl_start, sdsl_step, sdsl_run_codes};
    static const struct side reference = {"reference", ref_start, ref_step, ref_run_codes};
    const struct side *both[] = {&library, &reference};
    for (size_t i = 0; i < 2; i++) {
        ntu_cases(both[i]);
        ltu_cases(both[i]);
        other_cases(both[i]);
        silence_cases(both[i]);
    }
    all_starts();
    steps_at_edges();
    step_faults();
    steps_from_any_state();
    short_lists();
    long_lists();
    const struct tally tallies[] = {starts, steps, runs, lists, named};
    print_group("startup", tallies, ITEMS(tallies));
    print_coverage();
}

#endif
