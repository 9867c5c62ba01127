// The four programs as loops written by hand, with OpenMP and one thread or several: what one would write in their place.
// Usage: plain NAME TIMES, which runs the loops so many times and prints what the last of them comes to.
#include <inttypes.h>
#include <stdint.h>
#include <stdio.h>
#include <stdlib.h>
#include <string.h>

#define N 16384

static int64_t s[N + 1], d[N + 1], next_s[N + 1], next_d[N + 1];

static int64_t sum(int64_t a, int64_t b) {
  int64_t v;
  if (__builtin_add_overflow(a, b, &v)) exit(1);
  return v;
}

static int64_t jump(void) {
  for (int r = 0; r < 20; r++) {
#pragma omp parallel for
    for (int i = 1; i <= N; i++) {
      s[i] = i == 1 ? 1 : i - 1;
      d[i] = i == 1 ? 0 : 1;
    }
    for (int k = 0; k < 14; k++) {
#pragma omp parallel for
      for (int i = 1; i <= N; i++) {
        next_d[i] = sum(d[i], d[s[i]]);
        next_s[i] = s[s[i]];
      }
      memcpy(d, next_d, sizeof d);
      memcpy(s, next_s, sizeof s);
    }
  }
  return d[N];
}

static int64_t sums(void) {
  for (int r = 0; r < 20; r++) {
#pragma omp parallel for
    for (int i = 1; i <= N; i++) s[i] = i;
    for (int k = 1; k < N; k *= 2) {
#pragma omp parallel for
      for (int i = k + 1; i <= N; i++) d[i] = s[i - k];
#pragma omp parallel for
      for (int i = k + 1; i <= N; i++) s[i] = sum(s[i], d[i]);
    }
  }
  return s[N];
}

static int64_t local(void) {
#pragma omp parallel for schedule(dynamic, 64)
  for (int i = 1; i <= N; i++) {
    int64_t x = i, n = 0;
    while (x != 1) {
      x = x % 2 == 0 ? x / 2 : 3 * x + 1;
      n++;
    }
    s[i] = n;
  }
  return s[N - 1];
}

static int64_t uniform(void) {
  int64_t t = 0;
  for (int64_t i = 1; i <= 1500000; i++) t = (t * 31 + i) % 1000003;
  return t;
}

int main(int count, char **words) {
  if (count != 3) return 2;
  int64_t (*loops)(void) = strcmp(words[1], "jump") == 0    ? jump
                           : strcmp(words[1], "sums") == 0  ? sums
                           : strcmp(words[1], "local") == 0 ? local
                                                            : uniform;
  int64_t last = 0;
  for (int i = 0; i < atoi(words[2]); i++) last = loops();
  printf("%" PRId64 "\n", last);
  return 0;
}
