/* Calls every function of include/tabashfar.h from C, on the worked example's fabric of three stages. */
#include "../include/tabashfar.h"

#include <stdio.h>
#include <string.h>

/* n = 3, one action: file 7, links, stage 0, switch 1, minus */
static const uint8_t sheet[] = {'F', 'S', 'H', 0, 1, 3, 0, 1, 1, 0, 7, 1, 0, 0, 1, 0, 0, 4};

/* the same book with the switch notice 8: column 1, switch 2 */
static const uint8_t filed[] = {'F', 'S', 'H', 0, 1, 3, 0, 2, 1, 0, 7, 1, 0, 0, 1, 0, 0, 4, 1, 0, 8, 2, 1, 0, 2, 0, 0, 0};

/* the same two notices, 7 broken and 8 busy: version 2 */
static const uint8_t busy[] = {'F', 'S', 'H', 0, 2, 3, 0, 2, 1, 0, 7, 1, 0, 0, 1, 0, 0, 4, 0, 1, 0, 8, 2, 1, 0, 2, 0, 0, 0, 1};

static int wrong = 0;

static void is(const char *what, uint64_t answer, unsigned number, uint64_t value) {
    if (tabashfar_number(answer) != number || tabashfar_value(answer) != value) {
        fprintf(stderr, "face.c: %s answers %u with %llu, not %u with %llu\n", what, tabashfar_number(answer),
                (unsigned long long)tabashfar_value(answer), number, (unsigned long long)value);
        wrong = 1;
    }
}

/* whether the memory begins with these bytes */
static void holds(const char *what, const uint8_t *memory, const void *bytes, size_t length) {
    if (memcmp(memory, bytes, length) != 0) {
        fprintf(stderr, "face.c: %s wrote something else\n", what);
        wrong = 1;
    }
}

/* 11, the stage and the notice */
static void stopped(const char *what, uint64_t answer, unsigned stage, unsigned notice) {
    is(what, answer, 11, stage + 256 * (uint64_t)notice);
    if (tabashfar_stage(answer) != stage || tabashfar_notice(answer) != notice) {
        fprintf(stderr, "face.c: %s names stage %u and notice %u, not %u and %u\n", what, tabashfar_stage(answer),
                tabashfar_notice(answer), stage, notice);
        wrong = 1;
    }
}

/* the notices that are named where both links out of switch 1 toward 0 are stopped, and the destination at the last stage */
static void stopping(void) {
    uint8_t memory[TABASHFAR_BOOK] = {0};
    const uint16_t pairs[4] = {1, 0, 3, 3};
    uint64_t answers[2] = {0};
    stopped("route, no clear path", tabashfar_route(filed, sizeof filed, 1, 0, TABASHFAR_ALL), 0, 7);
    is("routes, no clear path", tabashfar_routes(filed, sizeof filed, TABASHFAR_ALL, pairs, 4, answers, 2), 0, 0);
    stopped("routes, no clear path, the first", answers[0], 0, 7);
    is("routes, no clear path, the second", answers[1], 0, 3);
    stopped("walk", tabashfar_walk(filed, sizeof filed, 1, 8), 0, 8);
    is("file_switch, the last number", tabashfar_file_switch(filed, sizeof filed, 65535, 3, 3, 0, memory, sizeof memory), 0, 38);
    stopped("route, the last stage", tabashfar_route(memory, 38, 3, 3, TABASHFAR_BROKEN_ONLY), 2, 65535);
}

/* a busy notice: it comes in and goes out, and counts for some routes; classes and choices that are none */
static void classes(void) {
    uint8_t memory[TABASHFAR_BOOK] = {0};
    uint16_t fields[TABASHFAR_FIELDS] = {0};
    const uint16_t pairs[4] = {1, 0, 1, 8};
    uint64_t answers[2] = {0};
    const size_t len = sizeof sheet, more = sizeof busy, room = sizeof memory;
    is("file_switch, busy", tabashfar_file_switch(sheet, len, 8, 1, 2, TABASHFAR_BUSY, memory, room), 0, more);
    holds("file_switch, busy", memory, busy, more);
    is("file_links, busy", tabashfar_file_links(sheet, len, 9, 0, 2, 1, TABASHFAR_BUSY, memory, room), 0, more);
    is("file_pattern, busy", tabashfar_file_pattern(sheet, len, 9, 0, 1, 3, 7, TABASHFAR_BUSY, memory, room), 0, more);
    is("file_links, class 2", tabashfar_file_links(sheet, len, 9, 0, 2, 1, 2, memory, room), 5, 0);
    is("file_switch, class 2", tabashfar_file_switch(sheet, len, 9, 1, 2, 2, memory, room), 5, 0);
    is("file_pattern, class 2", tabashfar_file_pattern(sheet, len, 9, 0, 1, 3, 7, 2, memory, room), 5, 0);
    is("withdraw, the busy one", tabashfar_withdraw(busy, more, 8, memory, room), 0, len);
    holds("withdraw, the busy one", memory, sheet, len);
    stopped("route, all count", tabashfar_route(busy, more, 1, 0, TABASHFAR_ALL), 0, 7);
    is("route, broken only", tabashfar_route(busy, more, 1, 0, TABASHFAR_BROKEN_ONLY), 0, 8);
    is("route, choice 2", tabashfar_route(busy, more, 1, 0, 2), 5, 0);
    is("routes, broken only", tabashfar_routes(busy, more, TABASHFAR_BROKEN_ONLY, pairs, 4, answers, 2), 0, 0);
    is("routes, broken only, the first", answers[0], 0, 8);
    is("routes, choice 2", tabashfar_routes(busy, more, 2, pairs, 4, answers, 2), 0, 0);
    is("routes, choice 2, the first", answers[0], 5, 0);
    is("routes, choice 2, the second", answers[1], 10, 0);
    is("link, busy", tabashfar_link(busy, more, 0, 1, 1), 0, 8);
    stopped("walk, busy", tabashfar_walk(busy, more, 1, 8), 0, 8);
    is("listing, busy", tabashfar_listing(busy, more, memory, 22), 0, 2);
    holds("listing, busy", memory, busy + 8, 22);
    is("listing, a byte short", tabashfar_listing(busy, more, memory, 21), 13, 0);
    is("header, version 2", tabashfar_header(busy, more), 0, 3 + 256 * 2 + ((uint64_t)2 << 24));
    is("action_fields, busy", tabashfar_action_fields(busy + 19, 11, fields, TABASHFAR_FIELDS), 0, 1);
    if (fields[TABASHFAR_NUMBER] != 8 || fields[TABASHFAR_CLASS] != TABASHFAR_BUSY || tabashfar_action_part(busy, more, 1) != 11 + 256 * 19) {
        fprintf(stderr, "face.c: action_fields or action_part reads notice 8 otherwise\n");
        wrong = 1;
    }
}

/* what hands a book back: each once accepted, the filings and the opening refused too */
static void changes(void) {
    uint8_t memory[TABASHFAR_BOOK] = {0};
    const size_t len = sizeof sheet, room = sizeof memory;
    is("open", tabashfar_open(3, memory, 8), 0, 8);
    holds("open", memory, "FSH\0\1\3\0\0", 8);
    is("open, 13 stages", tabashfar_open(13, memory, 8), 1, 0);
    is("file_links", tabashfar_file_links(filed, sizeof filed, 9, 0, 2, 1, 0, memory, room), 0, 38);
    is("file_links, a number that stands", tabashfar_file_links(sheet, len, 7, 0, 2, 1, 0, memory, room), 7, 0);
    is("file_pattern", tabashfar_file_pattern(sheet, len, 9, 0, 1, 3, 7, 0, memory, room), 0, 28);
    is("file_pattern, too wide", tabashfar_file_pattern(sheet, len, 9, 0, 1, 1, 7, 0, memory, room), 6, 0);
    is("file_switch", tabashfar_file_switch(sheet, len, 8, 1, 2, 0, memory, room), 0, 28);
    is("file_switch, outside the fabric", tabashfar_file_switch(sheet, len, 8, 4, 2, 0, memory, room), 4, 0);
    is("file_switch, a byte short", tabashfar_file_switch(sheet, len, 8, 1, 2, 0, memory, 27), 13, 0);
    holds("file_switch", memory, filed, sizeof filed);
    is("withdraw", tabashfar_withdraw(filed, sizeof filed, 8, memory, room), 0, len);
    holds("withdraw", memory, sheet, len);
    is("withdraw, a number that does not stand", tabashfar_withdraw(sheet, len, 9, memory, room), 9, 0);
    is("write", tabashfar_write(filed, sizeof filed, memory, room), 0, sizeof filed);
    holds("write", memory, filed, sizeof filed);
}

int main(void) {
    uint8_t memory[72] = {0};
    uint16_t fields[TABASHFAR_FIELDS] = {0};
    const uint16_t pairs[4] = {1, 0, 1, 8};
    uint64_t answers[2] = {0};
    const size_t len = sizeof sheet;
    is("tag_to_steps", tabashfar_tag_to_steps(3, 1, 8, memory, 3), 0, 0);
    is("steps_to_tag", tabashfar_steps_to_tag(3, 1, memory, 3), 0, 8);
    is("normal_form", tabashfar_normal_form(3, 1, 40), 0, 8);
    changes();
    is("link", tabashfar_link(sheet, len, 0, 1, 2), 0, 7);
    is("link, clear", tabashfar_link(sheet, len, 0, 1, 0), 0, 0);
    is("listing", tabashfar_listing(sheet, len, memory, 11), 0, 1);
    is("route", tabashfar_route(sheet, len, 1, 0, TABASHFAR_ALL), 0, 8);
    is("routes", tabashfar_routes(sheet, len, TABASHFAR_ALL, pairs, 4, answers, 2), 0, 0);
    is("routes, the first", answers[0], 0, 8);
    is("routes, the second", answers[1], 10, 0);
    stopped("walk", tabashfar_walk(sheet, len, 1, 0), 0, 7);
    stopping();
    classes();
    is("header", tabashfar_header(sheet, len), 0, 3 + 256 * 1 + (1 << 24));
    is("has_action", tabashfar_has_action(sheet, len, 1), 13, 0);
    is("read_action", tabashfar_read_action(sheet + 8, 10), 0, 1);
    is("action_fields", tabashfar_action_fields(sheet + 8, 10, fields, TABASHFAR_FIELDS), 0, 1);
    is("run", tabashfar_run(sheet, len, memory, 72), 0, 20);
    holds("run", memory, "SHEET 3 1\nFILE 7 OK\n", 20);
    if (tabashfar_action_part(sheet, len, 0) != 10 + 256 * 8) {
        fprintf(stderr, "face.c: action_part does not say ten bytes at 8\n");
        wrong = 1;
    }
    if (fields[TABASHFAR_NUMBER] != 7 || fields[TABASHFAR_KIND] != 1 || fields[TABASHFAR_SWITCH] != 1 || fields[TABASHFAR_SET] != 4 ||
        fields[TABASHFAR_CLASS] != TABASHFAR_BROKEN) {
        fprintf(stderr, "face.c: action_fields wrote something else\n");
        wrong = 1;
    }
    return wrong;
}
