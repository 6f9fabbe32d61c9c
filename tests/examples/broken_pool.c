/*
 * A pool that hands one word out twice: put in the engine's place (-Dcorkhollow_pool_draw=broken_pool_draw) it must be found by the
 * example's map of the words.
 */
#undef corkhollow_pool_draw
#include "corkhollow.h"

enum { WORD = 687 }; /* the last of the second draw that is granted, before which the third starts */

uint32_t broken_pool_draw(size_t words, struct corkhollow_signer *signers, size_t signers_length, size_t signer, size_t q, size_t *start);

uint32_t broken_pool_draw(size_t words, struct corkhollow_signer *signers, size_t signers_length, size_t signer, size_t q, size_t *start) {
    uint32_t refusal = corkhollow_pool_draw(words, signers, signers_length, signer, q, start);
    if (refusal == CORKHOLLOW_OK && *start == WORD + 1) *start = WORD;
    return refusal;
}
