/* The calls for C: from the file of a task to the file of its book, checking both files, and the line that tells a refusal.
   docs/FILES.md has the form of the files, docs/REFUSALS.md the refusals with their numbers, layers and places.

   Link libplanning_c.a, which is built by `rt lib` in crates/planning_c, and the kit's liblibc_c.a, through which it calls malloc and
   free: tools/c_program shows how. Every call returns, whatever the bytes are.

   What a caller has to see to: a pointer that goes with a length points to so many bytes, and is never null, even with length 0. The
   bytes of an input are read alone, and the output lies apart from the input. Threads may call at the same time with buffers of their
   own; no signal handler calls, and no forked child of a process with threads. */
#ifndef PLANNING_C_H
#define PLANNING_C_H

#include <stddef.h>
#include <stdint.h>

#ifdef __cplusplus
extern "C" {
#endif

/* The layers of refusals. */
enum {
    PLANNING_LAYER_TASK = 1,
    PLANNING_LAYER_BOOK = 2,
    PLANNING_LAYER_RUN = 3,
    PLANNING_LAYER_STORE = 4,
    PLANNING_LAYER_FILE = 5
};

/* No refusal has a longer line. */
enum { PLANNING_LINE_LENGTH = 40 };

/* What a call tells. If nothing was refused, all is 0 but the length. Else the length is 0. */
struct planning_outcome {
    uint32_t number; /* of the refusal; 0: there was none */
    uint32_t layer;  /* that refused; 0: there was no refusal */
    uint64_t place;  /* at which it was refused */
    uint64_t length; /* how many bytes were written */
};

/* Converts the file of a task into the file of its book, and writes that to the front of the output; past it the output keeps what it
   held. On a refusal the output keeps all that it held. Refusals: 9 and 10 of layer file, all that loading the task refuses, 12, 13 and
   11 of writing its book, and 14 of layer file, if the output is too short; its place then is the length needed.

   It allocates five arrays of so many places, 18 bytes a place, and frees them before it returns. The entries of the task (else 10), the
   literals of round one (else 12) and the entries of the book (else 11) must each fit into so many places. Want of memory is refusal 61
   of layer book. */
struct planning_outcome planning_convert(size_t places, const uint8_t *input, size_t input_length, uint8_t *output, size_t output_length);

/* Whether the file holds a task that loads. Refusals: 9 and 10 of layer file, and all that loading refuses. It allocates two arrays of so
   many places, 5 bytes a place, and frees them. The entries must fit into so many places (else 10). Want of memory is refusal 61. */
struct planning_outcome planning_check_task(size_t places, const uint8_t *input, size_t input_length);

/* The same of a book that opens. */
struct planning_outcome planning_check_book(size_t places, const uint8_t *input, size_t input_length);

/* Writes the line that tells the refusal, as `refused 5 task 17` and byte 10, to the front of the buffer, and tells its length. If the
   buffer is shorter, it keeps what it held, and the length is told all the same. An outcome that tells no refusal has no line: 0 is told,
   and the buffer keeps what it held. */
size_t planning_refusal_line(struct planning_outcome outcome, uint8_t *line, size_t line_length);

#ifdef __cplusplus
}
#endif

#endif
