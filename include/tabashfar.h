/* Tabashfar for C: the entries of docs/RULES.md, over numbers and byte slices.
 *
 * A slice is two arguments, where its bytes start and how many there are. The bytes of a `const` slice are only read. Of lent memory
 * (`memory`, `answers`) exactly what is said at the function is written, and nothing where the call is refused. A slice may be empty; its pointer
 * must not be null even then, and is aligned as C asks of its type. Two slices of one call do not overlap. Nothing else is asked: every
 * function is defined for every value of its numbers and for all bytes of every length, keeps no state, allocates nothing, and returns.
 *
 * TO LINK: `(cd crates/face && rt lib)` writes crates/face/out/libface.a, for Linux on x86-64, position independent. Of the C library it needs
 * memcpy and memset alone. A call uses less than 10 KiB of stack, the C library's part not counted: trials/stack.c fills a stack with a
 * pattern, makes each call on it, over a sheet of 60 actions of either version, and looks how far the pattern is gone.
 *
 * AN ANSWER is one number. Its low byte is the table's number, 0 where the call was accepted; the bits from 8 on are the value that
 * comes with it, 0 where the line below names none:
 *
 *     tabashfar_number(answer)   0, or the table's number
 *     tabashfar_value(answer)    the value; at number 11 the stage in its low byte, and from its bit 8 on the number of a notice:
 *     tabashfar_stage(answer)    at number 11 the stage, otherwise without meaning
 *     tabashfar_notice(answer)   at number 11 the number of the notice, 1 to 65535, otherwise without meaning
 *
 * A BOOK is held by the host, as a sheet: the sheet's filings and withdrawals are made one after the other from an empty book of its size, the
 * accepted as well as the refused; its routes and layout faults are passed over. Any sheet will do. One whose header is refused gives
 * the header's number (14, 1 or 15), before the numbers that are named at a function.
 *
 * A NOTICE has a class: TABASHFAR_BROKEN, 0, or TABASHFAR_BUSY, 1, where its links are only reserved. A ROUTE has a choice: TABASHFAR_ALL, 0,
 * where all notices count, or TABASHFAR_BROKEN_ONLY, 1, where the broken ones alone do, for the path, for the stage and for the notice named. The
 * link test and the walk count all notices. At most 48 notices stand and no two have one number, over both classes together. A class or a choice
 * above 1 is refused with 5 where it is an argument. As a byte of an action it is a layout fault, 2, and so is any class but 0 on a withdrawal.
 *
 * A SHEET has version 1, with ten bytes an action, or version 2, with eleven, the class last: of a filing its notice's class, of a route
 * its choice, of a withdrawal 0. Wherever a sheet is handed over either will do. In one of version 1 every notice is broken, and every route is
 * over all. What a sheet prints shows neither its version nor a class.
 *
 * tabashfar_open, the three filings, tabashfar_withdraw and tabashfar_write hand a book back: they write its sheet at the front of the memory, a
 * header and one filing for each standing notice, by rising number, in version 2 where any busy notice stands and otherwise in version 1. The
 * bytes after it stay, and the value is its length. A busy notice that comes or goes can so change the length of every action. TABASHFAR_BOOK
 * bytes have room for the sheet of every book; where the memory is shorter than the sheet that would be written, 13 comes after the other numbers.
 * A change that is refused writes nothing, so the book is still the sheet that was handed over.
 *
 * THE LIFE OF A BOOK, with the notices of the worked example. Two slices of one call do not overlap, so a host has two memories: the book
 * lies in one, and the other is lent to the next change. After an accepted change they have swapped. A book is closed by doing nothing more.
 * trials/hosts compiles and runs this text:
 *
 *     #include <assert.h>
 *     #include "tabashfar.h"
 *
 *     static uint8_t memory[2][TABASHFAR_BOOK]; // the book is the sheet of `length` bytes in memory[at], and memory[!at] is lent
 *     static size_t at, length;
 *
 *     static unsigned changed(uint64_t answer) {
 *         if (tabashfar_number(answer) == 0) at = !at, length = tabashfar_value(answer);
 *         return tabashfar_number(answer);
 *     }
 *
 *     int main(void) {
 *         unsigned opened = changed(tabashfar_open(3, memory[!at], TABASHFAR_BOOK));
 *         unsigned filed = changed(tabashfar_file_links(memory[at], length, 7, 0, 1, 4, TABASHFAR_BROKEN, memory[!at], TABASHFAR_BOOK));
 *         unsigned also = changed(tabashfar_file_pattern(memory[at], length, 8, 0, 1, 3, 4, TABASHFAR_BROKEN, memory[!at], TABASHFAR_BOOK));
 *         unsigned twice = changed(tabashfar_file_switch(memory[at], length, 7, 1, 2, TABASHFAR_BROKEN, memory[!at], TABASHFAR_BOOK));
 *         uint64_t tag = tabashfar_route(memory[at], length, 1, 0, TABASHFAR_ALL);
 *         unsigned withdrawn = changed(tabashfar_withdraw(memory[at], length, 7, memory[!at], TABASHFAR_BOOK));
 *         uint64_t listed = tabashfar_listing(memory[at], length, memory[!at], TABASHFAR_BOOK);
 *         size_t broken = length; // 18 bytes: one filing, of version 1
 *         unsigned last = changed(tabashfar_file_switch(memory[at], length, 10, 1, 2, TABASHFAR_BUSY, memory[!at], TABASHFAR_BOOK));
 *         uint64_t none = tabashfar_route(memory[at], length, 1, 0, TABASHFAR_ALL);
 *         uint64_t around = tabashfar_route(memory[at], length, 1, 0, TABASHFAR_BROKEN_ONLY);
 *         assert(opened == 0 && filed == 0 && also == 0 && withdrawn == 0 && last == 0);
 *         assert(twice == 7); // 7 stood already: nothing was written
 *         assert(tabashfar_value(tag) == 8 && tabashfar_value(listed) == 1);
 *         assert(broken == 18 && length == 30); // 10 is busy: two filings, of version 2
 *         // no clear path: 8 and 10 stop the ways onward at stage 0, and 8 is the lowest
 *         assert(tabashfar_number(none) == 11 && tabashfar_stage(none) == 0 && tabashfar_notice(none) == 8);
 *         // 10 is only busy: where the broken notices alone count, the path is as clear as before
 *         assert(around == tag);
 *     }
 *
 * What lies in memory[at] is a sheet: it can be kept in a file, sent to another card, or run by the desk.
 */
#ifndef TABASHFAR_H
#define TABASHFAR_H

#include <stddef.h>
#include <stdint.h>

#ifdef __cplusplus
extern "C" {
#endif

static inline uint8_t tabashfar_number(uint64_t answer) { return (uint8_t)(answer & 255); }
static inline uint64_t tabashfar_value(uint64_t answer) { return answer >> 8; }
static inline uint8_t tabashfar_stage(uint64_t answer) { return (uint8_t)(answer >> 8 & 255); }
static inline uint16_t tabashfar_notice(uint64_t answer) { return (uint16_t)(answer >> 16 & 65535); }

/* Tags and steps. n is the number of stages, 1 to 12. */

/* Refuses 1, 10, 12, 13. Writes the n steps of the tag, a byte each, at the front of the memory. */
uint64_t tabashfar_tag_to_steps(uint8_t n, uint16_t source, uint32_t tag, uint8_t *memory, size_t memory_len);

/* Refuses 1, 10, 13, 12. Value: the normal tag of the n steps at the front of the memory. */
uint64_t tabashfar_steps_to_tag(uint8_t n, uint16_t source, const uint8_t *memory, size_t memory_len);

/* Refuses 1, 10, 12. Value: the normal form of the tag. */
uint64_t tabashfar_normal_form(uint8_t n, uint16_t source, uint32_t tag);

/* The book. */

/* The bytes that have room for the sheet of every book: a header and 48 filings, of version 2. */
enum { TABASHFAR_BOOK = 8 + 11 * 48 };

/* The class of a notice. */
enum { TABASHFAR_BROKEN = 0, TABASHFAR_BUSY = 1 };

/* The choice of a route: which notices count. */
enum { TABASHFAR_ALL = 0, TABASHFAR_BROKEN_ONLY = 1 };

/* Refuses 1, 13. Writes the sheet of an empty book. Value: its length, 8. */
uint64_t tabashfar_open(uint8_t n, uint8_t *memory, size_t memory_len);

/* A filing, of each target. Refuses 3, 4, 5, 6, 7, 8, 13; a class above 1 is 5, as a bad set, mask or value is.
 * Writes the sheet of the book with the notice. Value: its length. */
uint64_t tabashfar_file_links(const uint8_t *sheet, size_t sheet_len, uint16_t number, uint8_t stage, uint16_t sw, uint8_t set,
                              uint8_t class_, uint8_t *memory, size_t memory_len);
uint64_t tabashfar_file_switch(const uint8_t *sheet, size_t sheet_len, uint16_t number, uint8_t column, uint16_t sw, uint8_t class_,
                               uint8_t *memory, size_t memory_len);
uint64_t tabashfar_file_pattern(const uint8_t *sheet, size_t sheet_len, uint16_t number, uint8_t stage, uint16_t value, uint16_t mask,
                                uint8_t set, uint8_t class_, uint8_t *memory, size_t memory_len);

/* Refuses 3, 9, 13. Writes the sheet of the book without the notice. Value: its length. */
uint64_t tabashfar_withdraw(const uint8_t *sheet, size_t sheet_len, uint16_t number, uint8_t *memory, size_t memory_len);

/* Refuses 13. Writes the sheet of the book as it is, which is the same for every sheet that makes this book. Value: its length. */
uint64_t tabashfar_write(const uint8_t *sheet, size_t sheet_len, uint8_t *memory, size_t memory_len);

/* Refuses 4, 12. Value: 0 where the link is clear, otherwise the lowest number among the notices that stop it, the busy ones too. */
uint64_t tabashfar_link(const uint8_t *sheet, size_t sheet_len, uint8_t stage, uint16_t sw, uint8_t code);

/* Refuses 13. Writes the standing notices by rising number, eleven bytes each as filing actions of version 2, whatever their classes, at the
 * front of the memory. Value: how many there are. */
uint64_t tabashfar_listing(const uint8_t *sheet, size_t sheet_len, uint8_t *memory, size_t memory_len);

/* Routes and walks. */

/* Refuses 10, 5 where the choice is above 1, and 11 with the stage that no clear walk can cross and a notice: the lowest number that stops any
 * way onward toward the destination from a switch that a clear walk reaches at that stage. Value: the tag of the first clear path. A
 * link is clear where no notice that counts by the choice stops it, and the notice named is one that counts. */
uint64_t tabashfar_route(const uint8_t *sheet, size_t sheet_len, uint16_t source, uint16_t destination, uint8_t choice);

/* Routes for many pairs over one book, which is made once, with one choice for all. A pair is two numbers of `pairs`, a source and its
 * destination. Refuses 13 where pairs_len is odd or answers_len less than half of it. Otherwise 0, with one number a pair at the front of the
 * answers, in the order of the pairs: what tabashfar_route answers for it, a refusal too, so that with a choice above 1 every answer is 10 or 5.
 * The rest of the answers stays. pairs_len and answers_len count numbers and not bytes. */
uint64_t tabashfar_routes(const uint8_t *sheet, size_t sheet_len, uint8_t choice, const uint16_t *pairs, size_t pairs_len,
                          uint64_t *answers, size_t answers_len);

/* Refuses 10, 12, and 11 with the first stage whose link is stopped and a notice: the lowest number that stops this link, of
 * both classes. 0: the walk is clear. */
uint64_t tabashfar_walk(const uint8_t *sheet, size_t sheet_len, uint16_t source, uint32_t tag);

/* Sheets. */

/* Refuses 14, also where the version is neither 1 nor 2, then 1, 15. Value: n in its low byte, the action count from bit 8 on, the version from
 * bit 24 on. */
uint64_t tabashfar_header(const uint8_t *sheet, size_t sheet_len);

/* Refuses as the header does, then 13. 0: action k, counted from 0, is there. */
uint64_t tabashfar_has_action(const uint8_t *sheet, size_t sheet_len, size_t k);

/* Not an answer as above, and never a refusal: the low byte is how many bytes the part has, 10 or 11 by the sheet's version where action k is
 * there and 0 where it is not; the bits from 8 on are where in the sheet it starts. */
uint64_t tabashfar_action_part(const uint8_t *sheet, size_t sheet_len, size_t k);

/* Refuses 13 where the part has neither ten bytes nor eleven (the eleventh is the class), then 2, also where the class is above 1 or not zero on a
 * withdrawal. Value: 1 files, 2 withdraws, 3 routes. */
uint64_t tabashfar_read_action(const uint8_t *part, size_t part_len);

/* The fields of an action, in the order of docs/RULES.md, and the class: where each stands in the memory of tabashfar_action_fields. */
enum {
    TABASHFAR_ACTION, /* 1 files, 2 withdraws, 3 routes */
    TABASHFAR_NUMBER,
    TABASHFAR_KIND, /* 1 links, 2 switch, 3 pattern */
    TABASHFAR_STAGE, /* the column of kind 2 */
    TABASHFAR_SWITCH, /* the value of kind 3; the source of a route */
    TABASHFAR_MASK, /* the destination of a route */
    TABASHFAR_SET,
    TABASHFAR_CLASS, /* the choice of a route; 0 in a part of ten bytes */
    TABASHFAR_FIELDS /* how many there are: eight */
};

/* Refuses as tabashfar_read_action does, then 13 where there is room for fewer than eight fields. Writes the eight fields at the front of
 * the memory, the spare ones as 0. Value: as that of tabashfar_read_action. memory_len counts fields and not bytes. */
uint64_t tabashfar_action_fields(const uint8_t *part, size_t part_len, uint16_t *memory, size_t memory_len);

/* Runs a whole sheet, and writes every byte that it prints at the front of the memory. Refuses 13 where the memory is shorter than 24
 * bytes and 48 for each action (24 where the header is refused). Value: how many bytes it wrote. */
uint64_t tabashfar_run(const uint8_t *sheet, size_t sheet_len, uint8_t *memory, size_t memory_len);

#ifdef __cplusplus
}
#endif

#endif
