// The same block as a C programmer writes it: a loop for each phase, one channel after the other, with the same
// replacement of bad entries. Called within the recording and the table, as the benchmark does.
#include <stddef.h>

static inline float clean(float x) { return x >= -16.0f && x <= 16.0f ? x : 0.0f; }
static inline float clean_fade(float x) { return x >= 0.0f && x <= 1.0f ? x : 1.0f; }

void plain_play(float *restrict out, size_t n, const float *restrict rec, size_t rn, size_t p) {
    for (size_t c = 0; c < 2; c++) {
        float *restrict o = out + c * n;
        const float *restrict r = rec + c * rn + p;
        for (size_t i = 0; i < n; i++) o[i] += clean(r[i]);
    }
}

void plain_fade_in(float *restrict out, size_t n, const float *restrict rec, size_t rn, size_t p,
                   const float *restrict fade, size_t f) {
    for (size_t c = 0; c < 2; c++) {
        float *restrict o = out + c * n;
        const float *restrict r = rec + c * rn + p;
        for (size_t i = 0; i < n; i++) o[i] += clean_fade(fade[f + i]) * clean(r[i]);
    }
}

// f is above 0: entry F of a fade out at 0 is past the table.
void plain_fade_out(float *restrict out, size_t n, const float *restrict rec, size_t rn, size_t p,
                    const float *restrict fade, size_t all, size_t f) {
    for (size_t c = 0; c < 2; c++) {
        float *restrict o = out + c * n;
        const float *restrict r = rec + c * rn + p;
        for (size_t i = 0; i < n; i++) o[i] += clean_fade(fade[all - f - i]) * clean(r[i]);
    }
}
