/* f77run in C and C++: FORTRAN 77 programs, run and checked in memory.
 *
 * A program runs in order, in the thread that calls: no thread is started.
 * Nothing is kept between calls, and no file is read or written. Several
 * threads may call at once, each with an output and a report of its own.
 * Every call returns.
 *
 * What the caller owes, and nothing checks:
 * - A pointer is never NULL, also where its size is 0.
 * - There are as many bytes at a pointer as its size says. The source stays
 *   as it is during a call; the output, the report and the verdict need not
 *   be initialised, and overlap with nothing.
 * - 1 MB of the stack is left.
 * - No call is made by a signal handler, or by the child of a fork in a
 *   process with several threads.
 *
 * Link with libf77run.a or libf77run.so. Memory comes from malloc, realloc
 * and free, and all of it is freed before a call returns.
 */
#ifndef F77RUN_H
#define F77RUN_H

#include <stddef.h>
#include <stdint.h>

#ifdef __cplusplus
extern "C" {
#endif

/* How a run or a check ended. */
enum f77run_ending {
  F77RUN_ENDED = 0,   /* END was reached; of a check: the source is accepted */
  F77RUN_STOPPED = 1, /* a STOP statement was executed */
  F77RUN_FAULT = 2,   /* a statement faulted */
  F77RUN_REFUSED = 3, /* the source breaks a rule; nothing was executed */
  F77RUN_MEMORY = 4,  /* out of memory */
  F77RUN_FULL = 5     /* the output has no room for the next byte */
};

/* A fault or a rule, and the line where it was met: F2 at line 7 is 'F', 2
 * and 7. `f77run --rule F2` explains it. All three are 0 where there is none.
 */
struct f77run_place {
  uint32_t letter; /* 'F' of a fault; 'C', 'G', 'N' or 'K' of a rule */
  uint32_t number; /* of a fault 1 to 8, of a rule 1 to 13 */
  uint32_t line;   /* 1 to 65535, the first line being 1 */
};

/* A STOP statement tells fewer characters than this. */
#define F77RUN_MESSAGE_ROOM 1320

struct f77run_report {
  uint32_t ending;           /* an enum f77run_ending: 0 to 5 */
  struct f77run_place place; /* of FAULT and REFUSED; else zeros */
  uint64_t turns;            /* statements executed: 0 to the limit; 0 after
                                REFUSED, MEMORY and FULL */
  size_t written;            /* bytes written: 0 to the output's size */
  size_t message_size;       /* characters of STOP's text: 0 to 1314 */
  /* This text, with no zero after it. What follows it is left as it was. */
  uint8_t message[F77RUN_MESSAGE_ROOM];
};

struct f77run_verdict {
  uint32_t ending;           /* ENDED, REFUSED or MEMORY: 0, 3 or 4 */
  struct f77run_place place; /* of REFUSED; else zeros */
};

/* Runs a source under a limit on turns, which is any number: a turn is one
 * execution of a statement, and the program f77run has 1000000000 if it isn't
 * told another number. After ENDED, STOPPED, FAULT and REFUSED the first
 * `written` bytes of the output are all that the program writes up to there.
 * After MEMORY and FULL they are a beginning of what it writes: after FULL as
 * much as the output has room for. What follows them is left as it was.
 */
void f77run_run(const uint8_t *source, size_t source_size, uint64_t turns,
                uint8_t *output, size_t output_size,
                struct f77run_report *report);

/* Says whether a source is accepted, and if it isn't, which rule it breaks
 * first, and where. Nothing of it is executed.
 */
void f77run_check(const uint8_t *source, size_t source_size,
                  struct f77run_verdict *verdict);

#ifdef __cplusplus
}
#endif

#endif
