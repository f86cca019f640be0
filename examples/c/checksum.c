// Two checksums of a text, with widths, shifts and signs.
#include <stdint.h>
#include <stdio.h>

#define FEATURE_TABLE 0
#define WORD_BITS 32

static uint32_t crc(uint32_t sum, uint8_t byte) {
  sum ^= byte;
  for (int i = 0; i < 8; i++)
    sum = (sum >> 1) ^ (0xedb88320u & (0u - (sum & 1u)));
  return sum;
}

static uint64_t fnv(uint64_t sum, int8_t byte) {
  return (sum ^ (uint8_t)byte) * 1099511628211ull;
}

int main(void) {
  static const char text[] = "the quick brown fox jumps over the lazy dog";
  uint32_t first = ~0u;
  uint64_t second = 14695981039346656037ull;
  for (const char *at = text; *at; at++) {
    if (FEATURE_TABLE)
      first = (first << 8) ^ (uint8_t)*at;
    else
      first = crc(first, (uint8_t)*at);
    second = fnv(second, (int8_t)*at);
  }
  int wide = sizeof(long) * 8 > WORD_BITS;
  printf("%08x %016llx %d\n", ~first, (unsigned long long)second, wide ? (int)(second >> 60) : -1);
  return 0;
}
