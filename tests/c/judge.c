/* Judges a trace by the library:  judge FORM [N] <TRACE
 * It prints the text of the form (0 report, 1 JSON, 2 explanation) of what the events come to. Where N is given, the
 * Nth call for memory fails, and each call that says so is made again; the last line then tells how often one did. */
#include "rvmon.h"

#include <stdio.h>
#include <stdlib.h>
#include <string.h>

static long countdown = 0;

void *__real_malloc(size_t size);
void *__real_realloc(void *at, size_t size);

void *__wrap_malloc(size_t size) {
  return countdown > 0 && --countdown == 0 ? NULL : __real_malloc(size);
}

void *__wrap_realloc(void *at, size_t size) {
  return countdown > 0 && --countdown == 0 ? NULL : __real_realloc(at, size);
}

/* Takes the next field of a row. */
static char *next_field(char **rest) {
  char *field = *rest;
  char *end = strpbrk(field, ",\n");
  *rest = end ? end + 1 : field + strlen(field);
  if (end) *end = 0;
  return field;
}

static uint8_t set_of(const char *letters) {
  return strcmp(letters, "r") == 0 ? RVMON_R : strcmp(letters, "w") == 0 ? RVMON_W : RVMON_RW;
}

/* The event of a row. */
static rvmon_event event_of(char *row) {
  static const char *const names[] = {"L", "S", "LR", "SC", "SF", "AMO", "F", "FT", "BR", "I"};
  rvmon_event event = {0};
  event.hart = (uint8_t)strtoul(next_field(&row), NULL, 10);
  event.seq = (uint32_t)strtoul(next_field(&row), NULL, 10);
  const char *name = next_field(&row);
  while (strcmp(names[event.op], name) != 0) event.op++;
  event.word = (uint32_t)strtoul(next_field(&row), NULL, 10);
  event.read = (uint32_t)strtoul(next_field(&row), NULL, 10);
  event.wrote = (uint32_t)strtoul(next_field(&row), NULL, 10);
  char *annotation = next_field(&row);
  char *dash = strchr(annotation, '-');
  if (dash) {
    *dash = 0;
    event.pred = set_of(annotation);
    event.succ = set_of(dash + 1);
  } else {
    event.acquire = strchr(annotation, 'A') != NULL;
    event.release = strchr(annotation, 'R') != NULL;
  }
  for (char *part = strtok(next_field(&row), " "); part && event.count < 8; part = strtok(NULL, " ")) {
    rvmon_dep *dep = &event.deps[event.count++];
    dep->kind = part[0] == 'a' ? RVMON_ADDRESS : part[0] == 'd' ? RVMON_DATA : RVMON_CONTROL;
    dep->seq = (uint32_t)strtoul(part + 1, NULL, 10);
  }
  return event;
}

int main(int count, char **words) {
  uint8_t form = count > 1 ? (uint8_t)atoi(words[1]) : RVMON_REPORT;
  static char row[512];
  static uint8_t text[1 << 20];
  long refused = 0;
  size_t size = 0;
  uint8_t reply;
  rvmon monitor = {0};
  countdown = count > 2 ? atol(words[2]) : 0;
  while ((reply = rvmon_open(&monitor, RVMON_RVWMO)) == RVMON_NO_MEMORY) refused++;
  if (reply != RVMON_ACCEPTED || !fgets(row, sizeof row, stdin)) return 2;
  while (reply == RVMON_ACCEPTED && fgets(row, sizeof row, stdin)) {
    rvmon_event event = event_of(row);
    while ((reply = rvmon_offer(&monitor, &event)) == RVMON_NO_MEMORY) refused++;
  }
  uint8_t verdict = reply;
  while ((reply = rvmon_text(&monitor, form, text, sizeof text, &size)) == RVMON_NO_MEMORY) refused++;
  if (reply != RVMON_ACCEPTED) return 2;
  rvmon_close(&monitor);
  fwrite(text, 1, size, stdout);
  if (count > 2) printf("refused %ld\n", refused);
  return verdict == RVMON_FORBIDDEN ? 1 : verdict == RVMON_MALFORMED ? 2 : 0;
}
