/*
 * Claysaucer for C: the proved judge of a log, as one function.
 *
 * The function is in target/staticlib/libclaysaucer.a, which ./staticlib makes
 * for x86-64. It needs only the C library, allocates nothing, keeps nothing
 * between calls, and may be called from several threads at once.
 */
#ifndef CLAYSAUCER_H
#define CLAYSAUCER_H

#include <stddef.h>
#include <stdint.h>

#ifdef __cplusplus
extern "C" {
#endif

/*
 * Judges a log: `length` bytes from `log` on, a header and then records of
 * 8 bytes. Every log has an answer, also one that is no log at all.
 *
 * `log` must not be null, not even where `length` is 0, and nothing may write
 * the bytes during the call. They are only read.
 *
 * The answer packs four numbers, which the macros below take apart:
 * bits 0 to 7 the verdict, 8 to 15 the stop, 16 to 23 the last read, 24 to 31
 * zero, 32 to 63 the steps.
 */
uint64_t claysaucer_judge(const uint8_t *log, size_t length);

#ifdef __cplusplus
}
#endif

/* How many records were taken before the stop. */
#define CLAYSAUCER_STEPS(answer) ((uint32_t)((uint64_t)(answer) >> 32))

/* Why the run stopped: one of CLAYSAUCER_STOP_. */
#define CLAYSAUCER_STOP(answer) ((uint8_t)((uint64_t)(answer) >> 8))

/* What the heap is like then: one of CLAYSAUCER_VERDICT_. */
#define CLAYSAUCER_VERDICT(answer) ((uint8_t)(uint64_t)(answer))

/*
 * Where the last value read came from: one of CLAYSAUCER_READ_, or, if it was
 * the reader's own pending store, its place in the reader's buffer plus 1, so
 * 1 to 8. The oldest store has place 0.
 */
#define CLAYSAUCER_READ(answer) ((uint8_t)((uint64_t)(answer) >> 16))

/* A longer log stops with CLAYSAUCER_STOP_NOT_ADMITTED. */
#define CLAYSAUCER_LOG_LIMIT 65536

/*
 * The stops. 2 to 11 are the refusals of a record. Refusal 1, a malformed
 * state, is not among them: no log leads to one. Nor does a log lead to 11,
 * or to verdicts 1 to 3: proved.
 */
#define CLAYSAUCER_STOP_ENDED 0         /* no record is left */
#define CLAYSAUCER_STOP_NO_PROCESS 2    /* the process is above M */
#define CLAYSAUCER_STOP_NO_KIND 3       /* the kind is neither an own step nor a commit */
#define CLAYSAUCER_STOP_NOT_OFFERED 4   /* an argument is not offered, or not zero where it is not used */
#define CLAYSAUCER_STOP_NONE_PENDING 5  /* a commit with an empty buffer */
#define CLAYSAUCER_STOP_FLAG_DOWN 6     /* an answer to a handshake whose flag is down */
#define CLAYSAUCER_STOP_BLOCKED 7       /* the process is blocked, or the lock is held */
#define CLAYSAUCER_STOP_PENDING 8       /* a fence or an unlock with stores pending */
#define CLAYSAUCER_STOP_FULL 9          /* a write with 8 stores pending */
#define CLAYSAUCER_STOP_OCCUPIED 10     /* the allocation of an occupied cell */
#define CLAYSAUCER_STOP_FREE 11         /* a look, a field read or a commit on a free cell */
#define CLAYSAUCER_STOP_NOT_ADMITTED 12 /* the header is not one, or the log is too long */
#define CLAYSAUCER_STOP_WRONG_CHECK 13  /* a record's check is wrong */
#define CLAYSAUCER_STOP_FEW_LEFT 14     /* fewer than 8 bytes are left, and not none */

/* The verdicts. The least of 1 to 3 that applies is given. */
#define CLAYSAUCER_VERDICT_SOUND 0          /* none of the others */
#define CLAYSAUCER_VERDICT_LOOSE 1          /* held references lead to a free cell */
#define CLAYSAUCER_VERDICT_BLACK_TO_WHITE 2 /* a black cell has a field that names a white one */
#define CLAYSAUCER_VERDICT_HANDSHAKE 3      /* the handshake table is broken */
#define CLAYSAUCER_VERDICT_MALFORMED 4      /* there is no state: the stop is CLAYSAUCER_STOP_NOT_ADMITTED */

/* The last reads, besides 1 to 8 for the own buffer. A refused record has read nothing. */
#define CLAYSAUCER_READ_MEMORY 0    /* memory */
#define CLAYSAUCER_READ_NOTHING 255 /* no record that was taken reads memory */

#endif
