/* One pass over bytes, in plain C: their sum. The floor of what a call that reads all its bytes can cost. */
#include <stddef.h>
#include <stdint.h>

uint64_t plain_pass(const uint8_t *bytes, size_t len) {
    uint64_t sum = 0;
    for (size_t i = 0; i < len; i++) {
        sum += bytes[i];
    }
    return sum;
}
