/* What the model clocked64 costs a C program that was written for it alone: its cells in arrays, the expression of each
   walked as a tree, the histories kept, and the lines of Peljouk's histories written. No schedule, no events, no check,
   and nothing that another model could use. bench/floor/run times it. */
#include <stdint.h>
#include <stdio.h>
#include <stdlib.h>
#include <string.h>
#include <unistd.h>

enum { CELLS = 64, PERIOD = 10, STOP = 200000, PS = 1000 };

typedef struct { uint64_t time; int32_t value; uint32_t delta; } Entry;
typedef struct { Entry *entries; size_t count, room; } History;
typedef struct { int32_t current, requested; int has_request; History history; } Signal;
typedef enum { CONSTANT, STATE, INPUT, ADD, MULTIPLY, REMAINDER } Kind;
typedef struct Expr { Kind kind; int32_t number; const struct Expr *left, *right; } Expr;

static Signal signals[CELLS];
static int32_t states[CELLS];
static History clock_history;

static const Expr FIVE = {CONSTANT, 5}, ONE = {CONSTANT, 1}, MOST = {CONSTANT, 65521}, OWN = {STATE}, IN = {INPUT};
static const Expr PRODUCT = {MULTIPLY, 0, &OWN, &FIVE}, SUM = {ADD, 0, &PRODUCT, &IN}, NEXT = {ADD, 0, &SUM, &ONE};
static const Expr STEP = {REMAINDER, 0, &NEXT, &MOST};

static int32_t value_of(const Expr *e, int cell) {
  switch (e->kind) {
  case CONSTANT: return e->number;
  case STATE: return states[cell];
  case INPUT: return signals[cell].current;
  case ADD: return value_of(e->left, cell) + value_of(e->right, cell);
  case MULTIPLY: return value_of(e->left, cell) * value_of(e->right, cell);
  default: return value_of(e->left, cell) % value_of(e->right, cell);
  }
}

static void add(History *h, uint64_t time, uint32_t delta, int32_t value) {
  if (h->count == h->room) {
    h->room = h->room ? 2 * h->room : 32768;
    h->entries = realloc(h->entries, h->room * sizeof(Entry));
    if (!h->entries) exit(1);
  }
  h->entries[h->count++] = (Entry){time, value, delta};
}

static void simulate(void) {
  for (uint64_t now = 0, up = 1; now <= STOP; now += PERIOD / 2, up = !up) {
    add(&clock_history, now * PS, 0, up);
    if (!up) continue;
    for (int c = 0; c < CELLS; c++) {
      states[c] = value_of(&STEP, c);
      signals[(c + 1) % CELLS].requested = states[c];
      signals[(c + 1) % CELLS].has_request = 1;
    }
    for (int s = 0; s < CELLS; s++) {
      if (!signals[s].has_request) continue;
      signals[s].has_request = 0;
      if (signals[s].requested == signals[s].current) continue;
      signals[s].current = signals[s].requested;
      add(&signals[s].history, now * PS, 1, signals[s].current);
    }
  }
}

static char *digits(char *to, uint64_t n) {
  char text[20];
  int at = 20;
  do text[--at] = '0' + n % 10; while (n /= 10);
  memcpy(to, text + at, 20 - at);
  return to + 20 - at;
}

static char *line(char *to, const char *name, size_t length, const Entry *e) {
  static const uint64_t TICKS[] = {1000000000000, 1000000000, 1000000, 1000, 1};
  static const char UNITS[][4] = {"s ", "ms ", "us ", "ns ", "ps "};
  int unit = 0;
  while (e->time % TICKS[unit]) unit++;
  memcpy(to, name, length);
  to = digits(to + length, e->time / TICKS[unit]);
  *to++ = ' ';
  memcpy(to, UNITS[unit], 4);
  to = digits(to + strlen(UNITS[unit]), e->delta);
  memcpy(to, " = ", 3);
  to = digits(to + 3, e->value);
  *to++ = '\n';
  return to;
}

int main(void) {
  simulate();
  size_t count = clock_history.count;
  for (int s = 0; s < CELLS; s++) count += signals[s].history.count;
  char *text = malloc(64 * count), *end = text;
  if (!text) return 1;
  for (int s = -1; s < CELLS; s++) {
    const History *h = s < 0 ? &clock_history : &signals[s].history;
    char name[16];
    size_t length = s < 0 ? sprintf(name, "clk @ ") : sprintf(name, "s%d @ ", s);
    for (size_t i = 0; i < h->count; i++) end = line(end, name, length, &h->entries[i]);
  }
  for (char *at = text; at < end;) {
    ssize_t n = write(1, at, end - at);
    if (n <= 0) return 1;
    at += n;
  }
  return 0;
}
