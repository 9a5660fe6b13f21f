/* Calls the entry points under C names with rows missing and with calls that are refused, and compares all memory before and after. Prints what differs from what docs/QUESTIONS.md and
   docs/STORES.md say, and how much was tried. */
#include "czsc.h"
#include <stdio.h>
#include <stdlib.h>
#include <string.h>

#define ROOM 64
/* rows that are only read */
#define ROWS(n, p) ((const double (*)[n])(p))
#define TIMES(n, p) ((const int64_t (*)[n])(p))

struct memory {
  /* minimum, most, three store lengths, three counts, places of powers, places of ratios */
  size_t numbers[2][10];
  uint32_t counts[3][65];
  uint64_t events[2][3];
  uint64_t sums[2][4];
  int64_t rt[ROOM];
  int32_t ri[ROOM];
  double rp[ROOM][6];
  int64_t ut[ROOM];
  int32_t ui[ROOM];
  double up[ROOM][6];
  size_t uc[ROOM];
  int64_t ue[ROOM][101];
  int64_t st[ROOM];
  int32_t si[ROOM];
  double sp[ROOM][6];
  size_t sc[ROOM];
  int64_t se[ROOM][101];
  int64_t fs[ROOM][6];
  double fp[ROOM][18];
};

static struct memory now, old;
static size_t full[15];
static int tried, wrong;

static uint64_t fresh_with(struct memory *m, size_t minimum, size_t most, size_t power, size_t ratio, size_t ns, size_t cs, const size_t *len) {
  return czsc_fresh(minimum, most, power, ratio, m->numbers, ns, m->counts, cs, m->rt, len[0], m->ri, len[1], ROWS(6, m->rp), len[2], m->ut, len[3], m->ui, len[4], ROWS(6, m->up), len[5], m->uc, len[6], TIMES(101, m->ue), len[7], m->st, len[8], m->si, len[9], ROWS(6, m->sp), len[10], m->sc, len[11], TIMES(101, m->se), len[12], TIMES(6, m->fs), len[13], ROWS(18, m->fp), len[14]);
}

static uint64_t feed_with(struct memory *m, size_t ns, size_t cs, size_t es, const size_t *len, int64_t t, double high, double low, double vol) {
  return czsc_update_bar(m->numbers, ns, m->counts, cs, m->events, es, m->rt, len[0], m->ri, len[1], m->rp, len[2], m->ut, len[3], m->ui, len[4], m->up, len[5], m->uc, len[6], m->ue, len[7], m->st, len[8], m->si, len[9], m->sp, len[10], m->sc, len[11], m->se, len[12], m->fs, len[13], m->fp, len[14], t, 1, low, high, high, low, vol, 1.0);
}

static uint64_t all_with(struct memory *m, size_t minimum, size_t most, size_t power, size_t ratio, size_t ns, size_t cs, size_t ss, const size_t *len, const int64_t *bt, const int32_t *bi, double (*bp)[6], size_t n) {
  return czsc_feed_all(minimum, most, power, ratio, m->numbers, ns, m->counts, cs, m->sums, ss, m->rt, len[0], m->ri, len[1], m->rp, len[2], m->ut, len[3], m->ui, len[4], m->up, len[5], m->uc, len[6], m->ue, len[7], m->st, len[8], m->si, len[9], m->sp, len[10], m->sc, len[11], m->se, len[12], m->fs, len[13], m->fp, len[14], bt, n, bi, n, ROWS(6, bp), n);
}

/* The call answered `got`; `want` was expected, and no byte changed. */
static void refused(const char *what, uint64_t got, uint64_t want) {
  tried++;
  if (got != want) { wrong++; printf("%s: answered %llu, not %llu\n", what, (unsigned long long)got, (unsigned long long)want); }
  if (memcmp(&now, &old, sizeof now)) { wrong++; printf("%s: memory changed\n", what); memcpy(&now, &old, sizeof now); }
}

static void answered(const char *what, uint64_t got) {
  tried++;
  if (got) { wrong++; printf("%s: answered %llu\n", what, (unsigned long long)got); }
  /* the rows behind those that are named stay */
  if (memcmp(now.numbers[1], old.numbers[1], sizeof now.numbers[1]) || memcmp(now.counts[2], old.counts[2], sizeof now.counts[2])
      || memcmp(now.events[1], old.events[1], sizeof now.events[1]) || memcmp(now.sums[1], old.sums[1], sizeof now.sums[1])) {
    wrong++; printf("%s: a row behind those named changed\n", what);
  }
  memcpy(&old, &now, sizeof now);
}

/* Question 4 of a price that a store holds: refused with each value that is no price. Open and close stand in no order with the
   rest, so there each value that is a price is let through. */
static void held(const char *what, double *at, int free, int64_t t) {
  double no[] = {-0.0, 0x1p-21, -0x1p-21, 0x1.fffffffffffffp-21, -0x1.fffffffffffffp-21, 0x1.0000000000001p30, -0x1.0000000000001p30, strtod("nan", 0), strtod("inf", 0), strtod("-inf", 0)};
  double yes[] = {0.0, 0x1p-20, -0x1p-20, 0x1p30, -0x1p30, 5.0, -5.0};
  double kept = *at;
  for (size_t i = 0; i < sizeof no / sizeof *no; i++) {
    *at = no[i]; memcpy(&old, &now, sizeof now);
    refused(what, feed_with(&now, 2, 3, 2, full, t + 1, 30, 20, 1), 4);
  }
  for (size_t i = 0; free && i < sizeof yes / sizeof *yes; i++) {
    *at = yes[i]; memcpy(&old, &now, sizeof now);
    tried++;
    if (feed_with(&now, 2, 3, 2, full, t + 1, 30, 20, 1) == 4) { wrong++; printf("%s: %a is a price and was answered 4\n", what, yes[i]); }
    memcpy(&now, &old, sizeof now);
  }
  *at = kept; memcpy(&old, &now, sizeof now);
}

/* More than six places, whatever else the number is. */
static const size_t many[] = {7, 8, 64, 65, 0x100000000, 0x100000002, SIZE_MAX};
#define MANY (sizeof many / sizeof *many)

static void row_is(const char *what, const size_t *want) {
  tried++;
  if (memcmp(now.numbers[0], want, sizeof now.numbers[0])) {
    wrong++; printf("%s: the row of numbers is", what);
    for (int i = 0; i < 10; i++) printf(" %zu", now.numbers[0][i]);
    printf("\n");
  }
}

/* The row of numbers of a fresh analyzer with stores of ROOM bars. */
static void fresh_row(const char *what, size_t minimum, size_t most, size_t power, size_t ratio) {
  size_t want[10] = {minimum ? minimum : 6, most ? most : 50, ROOM, ROOM, ROOM, 0, 0, 0, power, ratio};
  row_is(what, want);
}

/* A fresh analyzer, alone or for three bars. */
static uint64_t either(int all, size_t minimum, size_t most, size_t power, size_t ratio, size_t rows, const size_t *len, const int64_t *bt, const int32_t *bi, double (*bp)[6]) {
  return all ? all_with(&now, minimum, most, power, ratio, rows, 3, 2, len, bt, bi, bp, 3) : fresh_with(&now, minimum, most, power, ratio, rows, 3, len);
}

/* Question 17: each pair with a number above 6, and its place behind 1 and 2 and before 3 and 14. */
static void places_refused(int all, const int64_t *bt, const int32_t *bi, double (*bp)[6]) {
  size_t len[15];
  for (size_t p = 0; p < 8; p++)
    for (size_t q = 0; q < 8; q++)
      if (p == 7 || q == 7) refused("a pair with a 7", either(all, 0, 0, p, q, 1, full, bt, bi, bp), 17);
  for (size_t i = 0; i < MANY; i++) {
    size_t pairs[3][2] = {{many[i], 4}, {2, many[i]}, {many[i], many[i]}};
    for (int k = 0; k < 3; k++) {
      size_t p = pairs[k][0], q = pairs[k][1];
      refused("more than six places", either(all, 0, 0, p, q, 1, full, bt, bi, bp), 17);
      refused("minimum 65 and more than six places", either(all, 65, 0, p, q, 1, full, bt, bi, bp), 1);
      refused("most 65 and more than six places", either(all, 0, 65, p, q, 1, full, bt, bi, bp), 2);
      refused("both 65 and more than six places", either(all, 65, 65, p, q, 1, full, bt, bi, bp), 1);
      refused("more than six places and no row of numbers", either(all, 0, 0, p, q, 0, full, bt, bi, bp), 17);
      for (int n = 0; n < 15; n++) {
        memcpy(len, full, sizeof len); len[n] = 15;
        refused("more than six places and a column of another length", either(all, 0, 0, p, q, 1, len, bt, bi, bp), 17);
      }
      for (int n = 0; n < 15; n++) len[n] = 15;
      refused("more than six places and stores of 15", either(all, 0, 0, p, q, 1, len, bt, bi, bp), 17);
      refused("more than six places, stores of 15, no row", either(all, 0, 0, p, q, 0, len, bt, bi, bp), 17);
    }
  }
  for (int n = 0; n < 15; n++) len[n] = 15;
  refused("six places and stores of 15", either(all, 0, 0, 6, 6, 1, len, bt, bi, bp), 3);
  refused("no places and stores of 15", either(all, 0, 0, 0, 0, 1, len, bt, bi, bp), 3);
  refused("six places and no row of numbers", either(all, 0, 0, 6, 6, 0, full, bt, bi, bp), 14);
}

/* Each pair from 0 to 6 is taken by a fresh analyzer and stands in its row: a 0 is 0. */
static void places_taken(void) {
  for (size_t p = 0; p < 7; p++)
    for (size_t q = 0; q < 7; q++) {
      answered("fresh with places", fresh_with(&now, p, q, p, q, 1, 2, full));
      fresh_row("fresh with places", p, q, p, q);
    }
}

/* Question 4 of the places that a stand holds: refused above 6 and nothing written; from 0 to 6 the bar is taken and they stay. */
static void places_held(int64_t t) {
  for (int e = 8; e < 10; e++) {
    size_t kept = now.numbers[0][e];
    for (size_t i = 0; i < MANY; i++) {
      now.numbers[0][e] = many[i]; memcpy(&old, &now, sizeof now);
      refused("a stand with more than six places", feed_with(&now, 2, 3, 2, full, t + 1, 30, 20, 1), 4);
      refused("a stand with more than six places, a time beyond 2^40", feed_with(&now, 2, 3, 2, full, 1099511627777, 30, 20, 1), 4);
      refused("a stand with more than six places, no row of events", feed_with(&now, 2, 3, 0, full, t + 1, 30, 20, 1), 4);
    }
    for (size_t p = 0; p < 7; p++) {
      now.numbers[0][e] = p; memcpy(&old, &now, sizeof now);
      uint64_t f = feed_with(&now, 2, 3, 2, full, t, 30, 20, 1);
      tried++;
      if (f) { wrong++; printf("a stand with %zu places: answered %llu\n", p, (unsigned long long)f); }
      if (now.numbers[0][8] != old.numbers[0][8] || now.numbers[0][9] != old.numbers[0][9]) { wrong++; printf("a feed changed the places\n"); }
      memcpy(&now, &old, sizeof now);
    }
    now.numbers[0][e] = kept; memcpy(&old, &now, sizeof now);
  }
}

/* A list of bars with each pair: the row has the pair, and all else is as with 2 and 4. */
static void places_of_all(const int64_t *bt, const int32_t *bi, double (*bp)[6]) {
  static struct memory usual;
  answered("all, two bars", all_with(&now, 0, 0, 2, 4, 1, 2, 1, full, bt, bi, bp, 2));
  memcpy(&usual, &now, sizeof now);
  for (size_t p = 0; p < 7; p++)
    for (size_t q = 0; q < 7; q++) {
      answered("all with places", all_with(&now, 0, 0, p, q, 1, 2, 1, full, bt, bi, bp, 2));
      usual.numbers[0][8] = p; usual.numbers[0][9] = q;
      tried++;
      if (memcmp(&now, &usual, sizeof now)) { wrong++; printf("all with places %zu %zu: other rows than with 2 and 4\n", p, q); }
      memcpy(&old, &now, sizeof now);
      uint64_t f = all_with(&now, 0, 0, p, q, 1, 2, 1, full, bt, bi, bp, 3);
      tried++;
      if (f != 8 || memcmp(&now, &usual, sizeof now)) { wrong++; printf("all with places %zu %zu, the third bar refused: %llu\n", p, q, (unsigned long long)f); }
      memcpy(&old, &now, sizeof now);
    }
}

int main(void) {
  for (int i = 0; i < 15; i++) full[i] = ROOM;
  memset(&now, 0x5a, sizeof now);
  memcpy(&old, &now, sizeof now);
  double nan = strtod("nan", 0), zero = 0.0;
  size_t len[15];
  /* a list of bars, of which the third is refused */
  int64_t bt[3] = {1, 2, 2}; int32_t bi[3] = {1, 2, 3};
  double bp[3][6] = {{8, 10, 10, 8, 1, 1}, {9, 12, 12, 9, 1, 1}, {9, 8, 8, 9, 1, 1}};
  refused("fresh, minimum 65", fresh_with(&now, 65, 0, 2, 4, 1, 2, full), 1);
  refused("fresh, most 65", fresh_with(&now, 0, 65, 2, 4, 1, 2, full), 2);
  for (int i = 0; i < 15; i++) {
    memcpy(len, full, sizeof len); len[i] = ROOM - 1;
    refused("fresh, a column of another length", fresh_with(&now, 0, 0, 2, 4, 1, 2, len), 3);
  }
  memcpy(len, full, sizeof len); for (int i = 3; i < 8; i++) len[i] = 15;
  refused("fresh, a store of 15", fresh_with(&now, 0, 0, 2, 4, 1, 2, len), 3);
  refused("fresh, no row of numbers", fresh_with(&now, 0, 0, 2, 4, 0, 2, full), 14);
  refused("fresh, one row of counts", fresh_with(&now, 0, 0, 2, 4, 1, 1, full), 14);
  refused("fresh, minimum 65 and no rows", fresh_with(&now, 65, 0, 2, 4, 0, 0, full), 1);
  places_refused(0, bt, bi, bp);
  refused("a feed to no stand", feed_with(&now, 2, 3, 2, full, 1, 10, 8, 1), 4);
  places_taken();
  answered("fresh", fresh_with(&now, 3, 2, 3, 5, 2, 3, full));
  fresh_row("fresh", 3, 2, 3, 5);
  int64_t t = 0;
  uint64_t made = 0;
  for (int k = 0; k < 400; k++) {
    double base = 20 + 10 * ((k / 7) % 2 ? 7 - k % 7 : k % 7);
    refused("no row of numbers", feed_with(&now, 0, 3, 2, full, t + 1, base + 2, base, 1), 4);
    refused("one row of counts", feed_with(&now, 2, 1, 2, full, t + 1, base + 2, base, 1), 4);
    refused("no row of events", feed_with(&now, 2, 3, 0, full, t + 1, base + 2, base, 1), 14);
    for (int i = 0; i < 15; i++) {
      memcpy(len, full, sizeof len); len[i] = i % 2 ? 0 : ROOM - 1;
      refused("a column too short", feed_with(&now, 2, 3, 2, len, t + 1, base + 2, base, 1), 4);
    }
    refused("a time beyond 2^40", feed_with(&now, 2, 3, 2, full, 1099511627777, base + 2, base, 1), 5);
    refused("a price that is no number", feed_with(&now, 2, 3, 2, full, t + 1, nan, base, 1), 6);
    refused("a price of minus zero", feed_with(&now, 2, 3, 2, full, t + 1, base, -zero, 1), 6);
    refused("a price of 2^-21", feed_with(&now, 2, 3, 2, full, t + 1, base, 0x1p-21, 1), 6);
    refused("a price beyond -2^30", feed_with(&now, 2, 3, 2, full, t + 1, base, -0x1.0000000000001p30, 1), 6);
    refused("a volume of minus zero", feed_with(&now, 2, 3, 2, full, t + 1, base + 2, base, -zero), 7);
    refused("low above high", feed_with(&now, 2, 3, 2, full, t + 1, base, base + 2, 1), 8);
    if (k) refused("an earlier time", feed_with(&now, 2, 3, 2, full, t - 1, base + 2, base, 1), 9);
    uint64_t f = feed_with(&now, 2, 3, 2, full, t + 1, base + 2, base, 1);
    if (f) { refused("a store that is full", f, f < 10 || 12 < f ? 10 : f); break; }
    made += now.events[0][0];
    answered("a feed", f);
    if (now.numbers[0][8] != 3 || now.numbers[0][9] != 5) { wrong++; printf("a feed changed the places\n"); }
    t++;
  }
  if (!made) { wrong++; printf("no stroke was made\n"); }
  /* a stand that is not sound */
  if (!now.numbers[0][7]) { wrong++; printf("no stroke is kept\n"); }
  places_held(t);
  double vol = now.fp[0][16]; now.fp[0][16] = nan; memcpy(&old, &now, sizeof now);
  refused("a fractal's third bar with a volume that is no number", feed_with(&now, 2, 3, 2, full, t + 1, 30, 20, 1), 4);
  now.fp[0][16] = vol;
  memcpy(&old, &now, sizeof now);
  for (int i = 0; i < 4; i++) {
    held("a raw bar's price", &now.rp[0][i], i < 2, t);
    held("an unfinished bar's price", &now.up[0][i], i < 2, t);
    held("a stroke's bar's price", &now.sp[0][i], i < 2, t);
    for (int k = 0; k < 3; k++) held("a fractal's bar's price", &now.fp[0][6 * k + i], i < 2, t);
  }
  now.numbers[0][7] = 65; memcpy(&old, &now, sizeof now);
  refused("65 strokes", feed_with(&now, 2, 3, 2, full, t + 1, 30, 20, 1), 4);
  /* a list of bars */
  places_refused(1, bt, bi, bp);
  refused("all, minimum 65", all_with(&now, 65, 0, 2, 4, 2, 3, 2, full, bt, bi, bp, 3), 1);
  refused("all, most 65", all_with(&now, 0, 65, 2, 4, 2, 3, 2, full, bt, bi, bp, 3), 2);
  memcpy(len, full, sizeof len); for (int i = 0; i < 3; i++) len[i] = 15;
  refused("all, a store of 15", all_with(&now, 0, 0, 2, 4, 2, 3, 2, len, bt, bi, bp, 3), 3);
  refused("all, no row of numbers", all_with(&now, 0, 0, 2, 4, 0, 3, 2, full, bt, bi, bp, 3), 14);
  refused("all, one row of counts", all_with(&now, 0, 0, 2, 4, 2, 1, 2, full, bt, bi, bp, 3), 14);
  refused("all, no row of sums", all_with(&now, 0, 0, 2, 4, 2, 3, 0, full, bt, bi, bp, 3), 14);
  answered("all, two bars", all_with(&now, 0, 0, 2, 4, 2, 3, 2, full, bt, bi, bp, 2));
  if (now.sums[0][3] != 2) { wrong++; printf("all: %llu bars told\n", (unsigned long long)now.sums[0][3]); }
  uint64_t f = all_with(&now, 0, 0, 2, 4, 2, 3, 2, full, bt, bi, bp, 3);
  tried++;
  if (f != 8 || now.sums[0][3] != 2) { wrong++; printf("all, the third bar refused: %llu after %llu bars\n", (unsigned long long)f, (unsigned long long)now.sums[0][3]); }
  memcpy(&old, &now, sizeof now);
  places_of_all(bt, bi, bp);
  for (int i = 0; i < 15; i++) {
    memcpy(len, full, sizeof len); len[i] = ROOM - 1;
    refused("all, a column of another length", all_with(&now, 0, 0, 2, 4, 2, 3, 2, len, bt, bi, bp, 3), 3);
  }
  printf("%d calls, %d strokes made, %d wrong\n", tried, (int)made, wrong);
  return wrong != 0;
}
