/*
 * bylist.h: a third opinion on a run of codes, from a fresh start only. It finds openings and endings in the list as SCOPE's
 * section on demand 3 states them, by the places of reports and ticks, without running any steps.
 */
#ifndef BYLIST_H
#define BYLIST_H

#include <stddef.h>
#include <stdint.h>

struct by_list {
    uint64_t attempts;
    uint64_t opened_at;
    uint32_t outcome;
    uint64_t ended_at;
};

struct by_list run_by_list(uint32_t end, uint32_t silence, const uint8_t *codes, size_t len);

#endif
