/* (a) A plain interpreter of program files: a switch on the kind, no check. */
#include "bench.h"

static inline unsigned field(const uint8_t *p) { return p[0] | (unsigned)p[1] << 8; }

void switch_run(const uint8_t *file, const uint64_t *inputs, uint64_t *registers, uint64_t *outputs) {
    uint32_t count = field(file + 12) | (uint32_t)field(file + 14) << 16;
    const uint8_t *p = file + 16;
    for (uint32_t i = 0; i < count; i++) {
        switch (field(p + 2)) {
        case 1: registers[field(p + 4)] = ~(uint64_t)0; break;
        case 2: registers[field(p + 4)] = 0; break;
        case 3: registers[field(p + 4)] = inputs[field(p + 6)]; break;
        case 4: registers[field(p + 4)] = ~registers[field(p + 6)]; break;
        case 5: registers[field(p + 4)] = registers[field(p + 6)] & registers[field(p + 8)]; break;
        case 6: registers[field(p + 4)] = registers[field(p + 6)] | registers[field(p + 8)]; break;
        case 7: outputs[field(p + 4)] = registers[field(p + 6)]; break;
        }
        p += field(p);
    }
}
