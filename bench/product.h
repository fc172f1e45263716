/* The product of two bytes by shifts, from which the tables of the other sides are made. */
#include <stdint.h>

static inline uint8_t product(uint8_t a, uint8_t b) {
    unsigned p = 0;
    for (int i = 0; i < 8; i++)
        if (b >> i & 1) p ^= (unsigned)a << i;
    for (int i = 14; i >= 8; i--)
        if (p >> i & 1) p ^= 285u << (i - 8);
    return (uint8_t)p;
}
