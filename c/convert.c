/* Converts the file of a small task into the file of its book, checks both, and tries a damaged file. It prints what comes out, and its
   status is 1 if anything is not as expected. */
#include "planning_c.h"

#include <stdio.h>
#include <string.h>

enum { PLACES = 64, TASK_SIZES = 6, TASK_ENTRIES = 18, BOOK_SIZES = 5, BOOK_ENTRIES = 9, OUTPUT_LENGTH = 100, FILLED = 0xa5 };
enum { TASK_LENGTH = 4 * TASK_SIZES + 5 * TASK_ENTRIES, BOOK_LENGTH = 4 * BOOK_SIZES + 5 * BOOK_ENTRIES };

static const uint32_t task_sizes[TASK_SIZES] = {2, 1, 2, 1, 1, TASK_ENTRIES};
static const uint8_t task_kinds[TASK_ENTRIES] = {14, 15, 15, 2, 10, 2, 10, 16, 17, 5, 2, 11, 4, 9, 2, 11, 2, 11};
static const uint32_t task_operands[TASK_ENTRIES] = {3, 1, 1, 1, 0, 0, 0, 1, 0, 2, 1, 0, 0, 0, 0, 1, 0, 0};

static const uint32_t book_sizes[BOOK_SIZES] = {4, 1, 1, 1, BOOK_ENTRIES};
static const uint8_t book_kinds[BOOK_ENTRIES] = {20, 21, 13, 18, 10, 4, 13, 5, 13};
static const uint32_t book_operands[BOOK_ENTRIES] = {0, 2, 0, 0, 0, 0, 0, 1, 0};

static int unexpected = 0;

/* Prints what came out, and whether it is what is expected. */
static void expect(const char *what, int holds) {
    printf("%s: %s\n", what, holds ? "as expected" : "NOT as expected");
    unexpected |= !holds;
}

/* Puts the numbers down, four bytes each, the least first, and tells where the next byte goes. */
static uint8_t *put_numbers(uint8_t *at, const uint32_t *numbers, size_t count) {
    for (size_t i = 0; i < count; i++) {
        for (unsigned shift = 0; shift < 32; shift += 8) {
            *at++ = (uint8_t)(numbers[i] >> shift);
        }
    }
    return at;
}

/* Puts a file down: its sizes, its kinds and its operands. */
static void put_file(uint8_t *file, const uint32_t *sizes, size_t size_count, const uint8_t *kinds, const uint32_t *operands, size_t entries) {
    uint8_t *at = put_numbers(file, sizes, size_count);
    memcpy(at, kinds, entries);
    put_numbers(at + entries, operands, entries);
}

/* Prints an outcome: its refusal's line, or the bytes written. */
static void print_outcome(const char *call, struct planning_outcome outcome) {
    uint8_t line[PLANNING_LINE_LENGTH];
    size_t length = planning_refusal_line(outcome, line, sizeof line);
    if (length == 0) {
        printf("%s: %llu bytes\n", call, (unsigned long long)outcome.length);
    } else {
        printf("%s: %.*s", call, (int)length, (const char *)line);
    }
}

/* Whether there was no refusal, and so many bytes were written. */
static int is_done(struct planning_outcome outcome, uint64_t length) {
    return outcome.number == 0 && outcome.layer == 0 && outcome.place == 0 && outcome.length == length;
}

/* Whether it is this refusal. */
static int is_refusal(struct planning_outcome outcome, uint32_t number, uint32_t layer, uint64_t place) {
    return outcome.number == number && outcome.layer == layer && outcome.place == place && outcome.length == 0;
}

/* Whether so many bytes still hold what the output was filled with. */
static int is_filled(const uint8_t *bytes, size_t length) {
    for (size_t i = 0; i < length; i++) {
        if (bytes[i] != FILLED) {
            return 0;
        }
    }
    return 1;
}

/* Converts the task, and compares its book, byte for byte. */
static void convert_task(const uint8_t *task, const uint8_t *book) {
    uint8_t output[OUTPUT_LENGTH];
    memset(output, FILLED, sizeof output);
    struct planning_outcome outcome = planning_convert(PLACES, task, TASK_LENGTH, output, sizeof output);
    print_outcome("convert", outcome);
    expect("the length of the book's file", is_done(outcome, BOOK_LENGTH));
    expect("the book's file", memcmp(output, book, BOOK_LENGTH) == 0);
    expect("the output past it", is_filled(output + BOOK_LENGTH, sizeof output - BOOK_LENGTH));
}

/* Converts the task with too few bytes for the output, with too few places, and with too many. */
static void convert_with_little_room(const uint8_t *task) {
    uint8_t output[OUTPUT_LENGTH];
    memset(output, FILLED, sizeof output);
    struct planning_outcome outcome = planning_convert(PLACES, task, TASK_LENGTH, output, BOOK_LENGTH - 1);
    print_outcome("convert into too few bytes", outcome);
    expect("its refusal", is_refusal(outcome, 14, PLANNING_LAYER_FILE, BOOK_LENGTH));
    outcome = planning_convert(TASK_ENTRIES - 1, task, TASK_LENGTH, output, sizeof output);
    print_outcome("convert with too few places", outcome);
    expect("its refusal", is_refusal(outcome, 10, PLANNING_LAYER_FILE, TASK_ENTRIES - 1));
    outcome = planning_convert(SIZE_MAX, task, TASK_LENGTH, output, sizeof output);
    print_outcome("convert with more places than there is memory", outcome);
    expect("its refusal", is_refusal(outcome, 61, PLANNING_LAYER_BOOK, 0));
    expect("the output", is_filled(output, sizeof output));
}

/* Checks both files, each as what it is and as the other. */
static void check_files(const uint8_t *task, const uint8_t *book) {
    struct planning_outcome outcome = planning_check_task(PLACES, task, TASK_LENGTH);
    print_outcome("check the task", outcome);
    expect("its outcome", is_done(outcome, 0));
    outcome = planning_check_book(PLACES, book, BOOK_LENGTH);
    print_outcome("check the book", outcome);
    expect("its outcome", is_done(outcome, 0));
    outcome = planning_check_task(PLACES, book, BOOK_LENGTH);
    print_outcome("check the book as a task", outcome);
    expect("its refusal", is_refusal(outcome, 9, PLANNING_LAYER_FILE, BOOK_LENGTH));
    outcome = planning_check_book(PLACES, task, TASK_LENGTH);
    print_outcome("check the task as a book", outcome);
    expect("its refusal", is_refusal(outcome, 9, PLANNING_LAYER_FILE, TASK_LENGTH));
}

/* Tries the task with another kind at its first entry, and the book with its last byte cut off. */
static void try_damaged(const uint8_t *task, const uint8_t *book) {
    uint8_t damaged[TASK_LENGTH], output[OUTPUT_LENGTH];
    memcpy(damaged, task, sizeof damaged);
    memset(output, FILLED, sizeof output);
    damaged[4 * TASK_SIZES] = 22;
    struct planning_outcome outcome = planning_check_task(PLACES, damaged, sizeof damaged);
    print_outcome("check a damaged task", outcome);
    expect("its refusal", is_refusal(outcome, 3, PLANNING_LAYER_TASK, 0));
    outcome = planning_convert(PLACES, damaged, sizeof damaged, output, sizeof output);
    print_outcome("convert a damaged task", outcome);
    expect("its refusal", is_refusal(outcome, 3, PLANNING_LAYER_TASK, 0));
    expect("the output", is_filled(output, sizeof output));
    outcome = planning_check_book(PLACES, book, BOOK_LENGTH - 1);
    print_outcome("check a book that is cut off", outcome);
    expect("its refusal", is_refusal(outcome, 9, PLANNING_LAYER_FILE, BOOK_LENGTH - 1));
}

/* Asks for lines that do not fit, and of outcomes that tell no refusal. */
static void try_lines(void) {
    struct planning_outcome longest = {61, PLANNING_LAYER_STORE, UINT64_MAX, 0}, unknown = {15, PLANNING_LAYER_TASK, 0, 0}, none = {0, 0, 0, 7};
    uint8_t line[PLANNING_LINE_LENGTH];
    memset(line, FILLED, sizeof line);
    expect("the line of no refusal", planning_refusal_line(none, line, sizeof line) == 0);
    expect("the line of no known refusal", planning_refusal_line(unknown, line, sizeof line) == 0);
    size_t length = planning_refusal_line(longest, line, 8);
    expect("a buffer too short for a line", length > 8 && is_filled(line, sizeof line));
    expect("the same line in a longer buffer", planning_refusal_line(longest, line, sizeof line) == length);
    print_outcome("the longest line", longest);
}

int main(void) {
    uint8_t task[TASK_LENGTH], book[BOOK_LENGTH];
    put_file(task, task_sizes, TASK_SIZES, task_kinds, task_operands, TASK_ENTRIES);
    put_file(book, book_sizes, BOOK_SIZES, book_kinds, book_operands, BOOK_ENTRIES);
    convert_task(task, book);
    convert_with_little_room(task);
    check_files(task, book);
    try_damaged(task, book);
    try_lines();
    return unexpected;
}
