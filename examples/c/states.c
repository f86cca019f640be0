// Words, lines and numbers in a text, by a machine with states.
#include <stdio.h>

enum { OUTSIDE = 0, WORD = 1, NUMBER = 2 };

static const int verbose = 0;

static int next(int state, int c) {
  if (c >= '0' && c <= '9')
    return state == WORD ? WORD : NUMBER;
  if ((c >= 'a' && c <= 'z') || (c >= 'A' && c <= 'Z'))
    return WORD;
  return OUTSIDE;
}

int main(void) {
  int state = OUTSIDE, words = 0, numbers = 0, lines = 0;
  const int limit = 1 << 20;
  for (int i = 0; i < limit; i++) {
    int c = getchar();
    if (c == EOF)
      break;
    int now = next(state, c);
    switch (now) {
    case WORD: words += state != WORD; break;
    case NUMBER: numbers += state != NUMBER; break;
    default: lines += c == '\n'; break;
    }
    if (verbose)
      printf("%d -> %d\n", state, now);
    state = now;
  }
  printf("%d words, %d numbers, %d lines\n", words, numbers, lines);
  return 0;
}
