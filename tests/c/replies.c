/* Each reply of each call, and that it changes nothing else. It ends with the line of the first check that fails. */
#include "rvmon.h"

#include <stdio.h>
#include <string.h>

#define CHECK(condition) do { if (!(condition)) { printf("line %d: %s\n", __LINE__, #condition); return 1; } } while (0)

static rvmon_event event_of(uint8_t hart, uint32_t seq, uint8_t op, uint32_t word, uint32_t read, uint32_t wrote) {
  rvmon_event event = {0};
  event.hart = event.source = hart;
  event.seq = seq;
  event.op = op;
  event.word = word;
  event.read = read;
  event.wrote = wrote;
  return event;
}

/* Whether the events so far are these many. */
static bool has(rvmon *monitor, size_t events, size_t operations, size_t waiting) {
  rvmon_count counts;
  return rvmon_counts(monitor, &counts) == RVMON_ACCEPTED && counts.events == events &&
         counts.operations == operations && counts.waiting == waiting;
}

int main(void) {
  rvmon monitor = {0};
  rvmon_count counts = {7, 8, 9};
  uint8_t text[64];
  size_t size = 5;
  memset(text, '#', sizeof text);

  /* Where none is open. */
  rvmon_event store = event_of(0, 0, RVMON_STORE, 3, 0, 1);
  CHECK(rvmon_offer(&monitor, &store) == RVMON_NOT_OPEN);
  CHECK(rvmon_counts(&monitor, &counts) == RVMON_NOT_OPEN);
  CHECK(counts.events == 7 && counts.operations == 8 && counts.waiting == 9);
  CHECK(rvmon_text(&monitor, RVMON_REPORT, text, sizeof text, &size) == RVMON_NOT_OPEN);
  CHECK(size == 5 && text[0] == '#');
  rvmon_close(&monitor);

  /* Opening. */
  CHECK(rvmon_open(&monitor, 2) == RVMON_UNKNOWN_MODEL && !monitor.is_open);
  CHECK(rvmon_open(&monitor, RVMON_ZTSO) == RVMON_ACCEPTED);
  CHECK(rvmon_open(&monitor, RVMON_RVWMO) == RVMON_ALREADY_OPEN);
  CHECK(has(&monitor, 0, 0, 0));

  /* Numbers that say no event. */
  rvmon_event odd = store;
  odd.op = 10;
  CHECK(rvmon_offer(&monitor, &odd) == RVMON_UNKNOWN_OPERATION);
  odd.op = RVMON_FENCE;
  odd.pred = RVMON_RW;
  CHECK(rvmon_offer(&monitor, &odd) == RVMON_UNKNOWN_OPERATION);
  odd = store;
  odd.count = 9;
  CHECK(rvmon_offer(&monitor, &odd) == RVMON_TOO_MANY_DEPENDENCIES);
  odd.count = 1;
  odd.deps[0].kind = 3;
  CHECK(rvmon_offer(&monitor, &odd) == RVMON_UNKNOWN_DEPENDENCY);
  CHECK(has(&monitor, 0, 0, 0));

  /* Events, and their counts. What does not count of deps is not looked at. */
  odd.count = 0;
  CHECK(rvmon_offer(&monitor, &odd) == RVMON_ACCEPTED);
  rvmon_event waiting = event_of(0, 1, RVMON_LOAD, 4, 2, 0);
  CHECK(rvmon_offer(&monitor, &waiting) == RVMON_ACCEPTED);
  rvmon_event branch = event_of(0, 2, RVMON_BRANCH, 0, 0, 0);
  branch.count = 1;
  branch.deps[0].seq = 1;
  branch.deps[0].kind = RVMON_CONTROL;
  CHECK(rvmon_offer(&monitor, &branch) == RVMON_ACCEPTED);
  CHECK(has(&monitor, 3, 2, 1));

  /* Texts. */
  const char *report = "allowed: 3 events, 2 operations, 1 waiting loads\n";
  CHECK(rvmon_text(&monitor, 3, text, sizeof text, &size) == RVMON_UNKNOWN_FORM);
  CHECK(size == 5 && text[0] == '#');
  CHECK(rvmon_text(&monitor, RVMON_REPORT, text, 0, &size) == RVMON_TOO_SHORT);
  CHECK(size == strlen(report) && text[0] == '#');
  CHECK(rvmon_text(&monitor, RVMON_REPORT, text, size - 1, &size) == RVMON_TOO_SHORT);
  CHECK(size == strlen(report) && text[0] == '#');
  CHECK(rvmon_text(&monitor, RVMON_REPORT, text, size, &size) == RVMON_ACCEPTED);
  CHECK(size == strlen(report) && memcmp(text, report, size) == 0 && text[size] == '#');

  /* A refusal stops it. */
  rvmon_event again = event_of(0, 0, RVMON_STORE, 3, 0, 2);
  CHECK(rvmon_offer(&monitor, &again) == RVMON_MALFORMED);
  rvmon_event next = event_of(0, 3, RVMON_STORE, 3, 0, 2);
  CHECK(rvmon_offer(&monitor, &next) == RVMON_STOPPED);
  CHECK(has(&monitor, 3, 2, 1));
  const char *json =
      "{\"after\":3,\"event\":\"h0:0\",\"fault\":2,\"outcome\":\"malformed\",\"text\":\"sequence, expected 3\"}\n";
  static uint8_t line[256];
  CHECK(rvmon_text(&monitor, RVMON_JSON, line, sizeof line, &size) == RVMON_ACCEPTED);
  CHECK(size == strlen(json) && memcmp(line, json, size) == 0);

  /* Closed and opened again; and under Ztso a load does not wait for the next one's store. */
  rvmon_close(&monitor);
  CHECK(!monitor.is_open);
  CHECK(rvmon_open(&monitor, RVMON_RVWMO) == RVMON_ACCEPTED && has(&monitor, 0, 0, 0));
  rvmon_close(&monitor);
  for (uint8_t model = RVMON_RVWMO; model <= RVMON_ZTSO; model++) {
    rvmon_event events[4] = {event_of(0, 0, RVMON_STORE, 0, 0, 1), event_of(0, 1, RVMON_STORE, 1, 0, 1),
                             event_of(1, 0, RVMON_LOAD, 1, 1, 0), event_of(1, 1, RVMON_LOAD, 0, 0, 0)};
    CHECK(rvmon_open(&monitor, model) == RVMON_ACCEPTED);
    for (int i = 0; i < 3; i++) CHECK(rvmon_offer(&monitor, &events[i]) == RVMON_ACCEPTED);
    CHECK(rvmon_offer(&monitor, &events[3]) == (model == RVMON_ZTSO ? RVMON_FORBIDDEN : RVMON_ACCEPTED));
    rvmon_close(&monitor);
  }
  CHECK(strcmp(rvmon_words(RVMON_TOO_SHORT), "the buffer is too short") == 0);
  CHECK(strcmp(rvmon_words(13), "unknown reply") == 0);
  puts("each reply is as it should be");
  return 0;
}
