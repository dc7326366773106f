#include <stddef.h>

void filter(const short *weights, const short *samples, int *results) {
  for (size_t i = 0; i < 64; i++) {
    int sum = 0;
    for (size_t j = 0; j < 16; j++) sum += weights[j] * samples[i + j];
    results[i] = sum;
  }
}
