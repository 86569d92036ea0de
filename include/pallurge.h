/* What the programs seat and rehearse print of an input, written into a buffer of the caller.
 *
 * Nothing checks a call from C against what is proved. The caller sees to it that
 * - input points to input_length bytes that may be read, and buffer to buffer_length bytes that may be read and written;
 * - neither is a null pointer, also where its length is 0, and no length is above PTRDIFF_MAX;
 * - the two do not overlap, and during the call nobody writes to either or reads the buffer;
 * - malloc, realloc and free of the program are one allocator, and no signal handler and no forked child of a process with threads makes a call;
 * - pallurge_seat has 3 MB of stack, and pallurge_rehearse 5 MB: of what was tried, inputs that are hardest to place took up to 2.5 and 4.2 MB.
 *
 * The functions share no state and keep no pointer, so calls on buffers of their own may be made from several threads at once.
 * What an input is and what is printed of it is said in docs/RULES.md.
 */
#ifndef PALLURGE_H
#define PALLURGE_H

#include <stddef.h>
#include <stdint.h>

/* The answer where memory is wanting; the buffer is then as it was. */
#define PALLURGE_NO_MEMORY INT64_MIN

#ifdef __cplusplus
extern "C" {
#endif

/* Places the jobs of an input one after the other, writes what seat prints of it into the first bytes of the buffer and answers how many they are, or leaves the whole buffer as it was and answers either PALLURGE_NO_MEMORY or, where the buffer is too short, another negative number: minus the length that is needed. */
int64_t pallurge_seat(const uint8_t *input, size_t input_length, uint8_t *buffer, size_t buffer_length);

/* Rehearses a belt cycle of a board with the jobs of an input, and writes and answers in the same way what rehearse prints of it. */
int64_t pallurge_rehearse(const uint8_t *input, size_t input_length, uint8_t *buffer, size_t buffer_length);

#ifdef __cplusplus
}
#endif

#endif
