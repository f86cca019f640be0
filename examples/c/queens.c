// How many ways there are to put queens on a board.
#include <stdio.h>
#include <stdlib.h>

static int ways(int size, unsigned columns, unsigned left, unsigned right) {
  unsigned all = (1u << size) - 1;
  if (columns == all)
    return 1;
  int found = 0;
  unsigned free = all & ~(columns | left | right);
  while (free) {
    unsigned place = free & -free;
    free ^= place;
    found += ways(size, columns | place, (left | place) << 1, (right | place) >> 1);
  }
  return found;
}

int main(int argc, char **argv) {
  int size = argc > 1 ? atoi(argv[1]) : 6;
  if (size < 1 || size > 12) {
    fprintf(stderr, "a size from 1 to 12\n");
    return 2;
  }
  printf("%d\n", ways(size, 0, 0, 0));
  return 0;
}
