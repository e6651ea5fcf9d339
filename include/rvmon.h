/*
 * rvmon in a simulator's own process: hand over each memory event, and hear at once whether RVWMO,
 * the RISC-V weak memory model, still allows all of them.
 *
 *     rvmon monitor = {0};
 *     rvmon_open(&monitor, RVMON_RVWMO);
 *     rvmon_event load = {.hart = 1, .seq = 2, .op = RVMON_LOAD, .word = 0, .read = 0};
 *     if (rvmon_offer(&monitor, &load) == RVMON_FORBIDDEN) ...
 *     rvmon_close(&monitor);
 *
 * Link librvmon.a, which tools/make-library proves and builds. It starts no thread, opens no file,
 * prints nothing, and takes its memory from malloc, realloc and free. docs/LIBRARY.md says more.
 *
 * The caller's part. No pointer is null. A monitor is all zero bytes before its first call. It is
 * not written, copied or moved between calls, and one call at a time uses it. Different monitors
 * may be used by different threads.
 */
#ifndef RVMON_H
#define RVMON_H

#include <stdbool.h>
#include <stddef.h>
#include <stdint.h>

#ifdef __cplusplus
extern "C" {
#endif

/* A monitor. Only the calls below read and write its fields. */
typedef struct rvmon {
  bool is_open;
  void *at;
} rvmon;

/* What a call says. Every reply above RVMON_FORBIDDEN leaves the monitor as it was. */
enum {
  RVMON_ACCEPTED = 0,             /* done; of an event: some order is lawful for all so far */
  RVMON_MALFORMED = 1,            /* the event has a fault, such as a wrong seq; the monitor stops */
  RVMON_FORBIDDEN = 2,            /* no order is lawful with the event; the monitor stops */
  RVMON_STOPPED = 3,              /* an earlier event was refused */
  RVMON_NO_MEMORY = 4,            /* memory was refused; the same call may be made again */
  RVMON_NOT_OPEN = 5,             /* no monitor is open */
  RVMON_ALREADY_OPEN = 6,         /* a monitor is open already */
  RVMON_UNKNOWN_MODEL = 7,        /* the number names no memory model */
  RVMON_UNKNOWN_OPERATION = 8,    /* the number names no operation, or no set of a fence */
  RVMON_TOO_MANY_DEPENDENCIES = 9, /* count is above 8 */
  RVMON_UNKNOWN_DEPENDENCY = 10,  /* the number names no kind of dependency */
  RVMON_UNKNOWN_FORM = 11,        /* the number names no form of a text */
  RVMON_TOO_SHORT = 12            /* the buffer has no room for the text; its length is told */
};

/* The memory models. */
enum { RVMON_RVWMO = 0, RVMON_ZTSO = 1 };

/* What an event does. */
enum {
  RVMON_LOAD = 0,
  RVMON_STORE = 1,
  RVMON_LR = 2,        /* a load-reserved */
  RVMON_SC = 3,        /* a store-conditional that stored */
  RVMON_SC_FAILED = 4, /* one that did not */
  RVMON_AMO = 5,
  RVMON_FENCE = 6,     /* with the sets pred and succ */
  RVMON_FENCE_TSO = 7,
  RVMON_BRANCH = 8,    /* a conditional branch or an indirect jump */
  RVMON_CARRIER = 9    /* stands for the events that it lists, where there are more than eight */
};

/* The sets of a fence. */
enum { RVMON_R = 1, RVMON_W = 2, RVMON_RW = 3 };

/* How an event depends on an earlier one: its address, the value that it stores, or a branch. */
enum { RVMON_ADDRESS = 0, RVMON_DATA = 1, RVMON_CONTROL = 2 };

/* A dependency on the event of the same hart that has this seq. */
typedef struct rvmon_dep {
  uint32_t seq;
  uint32_t kind;
} rvmon_dep;

/*
 * An event. What its operation does not use is carried and otherwise ignored.
 *
 * A word is an aligned piece of memory, by any number of the caller's. Versions of a word count the
 * stores to it in the order in which they take effect: 0 is the initial value, and each store has a
 * version of its own, from 1 on. A load says which version it returned.
 */
typedef struct rvmon_event {
  uint32_t seq;     /* how many events of the hart came before: 0, 1, 2 and so on, at most 4095 */
  uint32_t word;    /* the word that it accesses */
  uint32_t read;    /* the version that a load, an LR or an AMO returned */
  uint32_t wrote;   /* the version that a store, an SC or an AMO wrote */
  uint8_t hart;     /* 0 to 15 */
  uint8_t source;   /* whatever the caller likes, but one for all events of a hart */
  uint8_t op;       /* RVMON_LOAD .. */
  uint8_t pred;     /* the sets of a fence */
  uint8_t succ;
  uint8_t acquire;  /* not 0: the aq bit of an LR, an SC or an AMO */
  uint8_t release;  /* not 0: its rl bit */
  uint8_t count;    /* how many of deps count, 0 to 8 */
  rvmon_dep deps[8];
} rvmon_event;

/* Counts of the accepted events. */
typedef struct rvmon_count {
  size_t events;
  size_t operations; /* those that are memory operations */
  size_t waiting;    /* loads whose store has not come */
} rvmon_count;

/* The forms of a text: the report, the report as a line of JSON, and the report with an explanation
 * of a refusal. docs/TRACE.md has them. */
enum { RVMON_REPORT = 0, RVMON_JSON = 1, RVMON_EXPLAINED = 2 };

/* Opens a monitor under a memory model. RVMON_UNKNOWN_MODEL, RVMON_ALREADY_OPEN or RVMON_NO_MEMORY:
 * it is as it was. */
uint8_t rvmon_open(rvmon *monitor, uint8_t model);

/* Offers the next event. Events of one hart come in program order, those of several in any order; a
 * load may come before its store. RVMON_ACCEPTED, RVMON_MALFORMED and RVMON_FORBIDDEN judge it; each
 * other reply leaves the monitor as it was. */
uint8_t rvmon_offer(rvmon *monitor, const rvmon_event *event);

/* Counts the accepted events. RVMON_NOT_OPEN: *counts is as it was. */
uint8_t rvmon_counts(rvmon *monitor, rvmon_count *counts);

/* Writes the text of a form without a zero byte behind it, and its length to *size. With
 * RVMON_TOO_SHORT, *size is the room that it needs, and the buffer is as it was: so ask first with
 * room 0. With every other reply neither is written. */
uint8_t rvmon_text(rvmon *monitor, uint8_t form, uint8_t *buffer, size_t room, size_t *size);

/* Closes a monitor and gives its memory back. It may be opened again. */
void rvmon_close(rvmon *monitor);

/* What a reply says, in words. */
static inline const char *rvmon_words(uint8_t reply) {
  static const char *const words[] = {
      "accepted", "malformed", "forbidden", "stopped", "no memory", "not open", "already open",
      "unknown model", "unknown operation", "more than 8 dependencies", "unknown dependency",
      "unknown form", "the buffer is too short"};
  return reply < sizeof words / sizeof words[0] ? words[reply] : "unknown reply";
}

#ifdef __cplusplus
}
#endif
#endif
