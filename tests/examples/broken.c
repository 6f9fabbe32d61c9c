/* A draw that errs in one lane, on one row: put in the engine's place (-Dcorkhollow_draw=broken_draw) it must be found by the self-test. */
#undef corkhollow_draw
#include "corkhollow.h"

enum { LANE = 17, ROW = 5 };

uint32_t broken_draw(const uint8_t *program, size_t program_length, const uint8_t *strings, size_t strings_length, uint8_t *samples,
                     size_t samples_length);

uint32_t broken_draw(const uint8_t *program, size_t program_length, const uint8_t *strings, size_t strings_length, uint8_t *samples,
                     size_t samples_length) {
    uint32_t refusal = corkhollow_draw(program, program_length, strings, strings_length, samples, samples_length);
    if (refusal == CORKHOLLOW_OK && samples[LANE] == ROW) samples[LANE]++;
    return refusal;
}
