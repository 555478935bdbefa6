/* How much stack the calls of include/tabashfar.h use: each is made on a stack of its own that is filled with a pattern, and what is left of
 * the pattern below it was not used. The sheets, one of each version, are those with the deepest calls: filings that find their place and filings
 * that are refused; from 3 to 3 no path is clear.
 *
 *     stack [MOST]     ends with 1 where a call uses more than MOST bytes; 10,240 where none is given
 */
#define _XOPEN_SOURCE 700
#include "../include/tabashfar.h"

#include <stdio.h>
#include <stdlib.h>
#include <string.h>
#include <ucontext.h>

enum { STACK = 1 << 20, PATTERN = 0xA5, ACTIONS = 60 };

static uint8_t stack[STACK];
static uint8_t sheet[8 + 11 * ACTIONS];
static size_t width, length; /* the bytes of an action, and of the sheet */
static uint8_t memory[24 + 48 * ACTIONS];
static uint16_t fields[TABASHFAR_FIELDS];
static const uint16_t pairs[6] = {1, 4095, 4095, 1, 3, 3};
static uint64_t answers[3];
static ucontext_t here, there;

/* n = 12: filings of falling number, so that each moves all others; every fifth action withdraws one, every seventh routes. In version 2 every
 * second notice is busy, and every second route counts the broken ones only. */
static void make_sheet(int version) {
    width = version == 1 ? 10 : 11;
    length = 8 + width * ACTIONS;
    memcpy(sheet, "FSH\0\1\14\0", 7);
    sheet[4] = (uint8_t)version;
    sheet[7] = ACTIONS;
    for (int k = 0; k < ACTIONS; k++) {
        uint8_t *row = sheet + 8 + width * k;
        memset(row, 0, width);
        row[0] = k % 5 == 4 ? 2 : k % 7 == 6 ? 3 : 1;
        row[2] = row[0] == 1 ? (uint8_t)(200 - k) : row[0] == 2 ? (uint8_t)(201 - k) : 0;
        if (row[0] == 1) {
            row[3] = (uint8_t)(1 + k % 3);
            row[4] = (uint8_t)(k % 12);
            row[6] = (uint8_t)(k % 3 == 2 ? 3 : k);
            row[8] = k % 3 == 2 ? 7 : 0;
            row[9] = k % 3 == 1 ? 0 : 7;
        }
        if (row[0] == 3) {
            row[6] = (uint8_t)k;
            row[7] = 15;
        }
        if (version == 2 && row[0] != 2) row[10] = (uint8_t)(k % 2);
    }
}

#define CALLS(CALL) \
    CALL(nothing, (void)0) \
    CALL(tag_to_steps, tabashfar_tag_to_steps(12, 1, 8, memory, 12)) \
    CALL(steps_to_tag, tabashfar_steps_to_tag(12, 1, memory, 12)) \
    CALL(normal_form, tabashfar_normal_form(12, 1, 40)) \
    CALL(open, tabashfar_open(12, memory, sizeof memory)) \
    CALL(file_links, tabashfar_file_links(sheet, length, 1, 0, 2, 1, 1, memory, sizeof memory)) \
    CALL(file_switch, tabashfar_file_switch(sheet, length, 1, 4, 2, 1, memory, sizeof memory)) \
    CALL(file_pattern, tabashfar_file_pattern(sheet, length, 1, 0, 1, 3, 7, 1, memory, sizeof memory)) \
    CALL(withdraw, tabashfar_withdraw(sheet, length, 200, memory, sizeof memory)) \
    CALL(write, tabashfar_write(sheet, length, memory, sizeof memory)) \
    CALL(link, tabashfar_link(sheet, length, 0, 1, 2)) \
    CALL(listing, tabashfar_listing(sheet, length, memory, sizeof memory)) \
    CALL(route, tabashfar_route(sheet, length, 1, 4095, 0)) \
    CALL(route_without_path, tabashfar_route(sheet, length, 3, 3, 0)) \
    CALL(route_over_broken, tabashfar_route(sheet, length, 3, 3, 1)) \
    CALL(routes, tabashfar_routes(sheet, length, 0, pairs, 6, answers, 3)) \
    CALL(routes_over_broken, tabashfar_routes(sheet, length, 1, pairs, 6, answers, 3)) \
    CALL(walk, tabashfar_walk(sheet, length, 1, 0)) \
    CALL(walk_stopped, tabashfar_walk(sheet, length, 3, 3)) \
    CALL(header, tabashfar_header(sheet, length)) \
    CALL(has_action, tabashfar_has_action(sheet, length, 1)) \
    CALL(action_part, tabashfar_action_part(sheet, length, 1)) \
    CALL(read_action, tabashfar_read_action(sheet + 8, width)) \
    CALL(action_fields, tabashfar_action_fields(sheet + 8, width, fields, TABASHFAR_FIELDS)) \
    CALL(run, tabashfar_run(sheet, length, memory, sizeof memory))

#define AS_FUNCTION(name, call) \
    static void call_##name(void) { (void)call; }
CALLS(AS_FUNCTION)

#define AS_ROW(name, call) {#name, call_##name},
static const struct {
    const char *name;
    void (*call)(void);
} calls[] = {CALLS(AS_ROW)};

/* the bytes of the stack that one call has changed */
static size_t used(void (*call)(void)) {
    memset(stack, PATTERN, STACK);
    getcontext(&there);
    there.uc_stack.ss_sp = stack;
    there.uc_stack.ss_size = STACK;
    there.uc_link = &here;
    makecontext(&there, call, 0);
    swapcontext(&here, &there);
    size_t left = 0;
    while (left < STACK && stack[left] == PATTERN) left++;
    return STACK - left;
}

/* the call that uses most, over the sheet of this version */
static size_t deepest(int version, size_t *which) {
    make_sheet(version);
    if (tabashfar_number(tabashfar_route(sheet, length, 3, 3, 0)) != 11) {
        fprintf(stderr, "stack.c: a path from 3 to 3 is clear\n");
        exit(1);
    }
    for (size_t k = 0; k < sizeof calls / sizeof *calls; k++) used(calls[k].call); /* names are bound at the first call */
    const size_t none = used(calls[0].call);
    size_t most = 0;
    for (size_t k = 1; k < sizeof calls / sizeof *calls; k++) {
        const size_t bytes = used(calls[k].call) - none;
        if (bytes > most) most = bytes, *which = k;
    }
    return most;
}

int main(int argc, char **argv) {
    const size_t allowed = argc > 1 ? strtoul(argv[1], NULL, 10) : 10240;
    int more = 0;
    for (int version = 1; version <= 2; version++) {
        size_t which = 0;
        const size_t bytes = deepest(version, &which);
        printf("stack: at most %zu bytes, by %s over a sheet of version %d\n", bytes, calls[which].name, version);
        more |= bytes > allowed;
    }
    return more;
}
