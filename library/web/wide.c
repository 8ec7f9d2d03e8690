/* The product of two numbers of 128 bits, for which WebAssembly has no instruction: the compiler
 * calls this function by its name. As heap.c it is compiled by itself, for 64-bit WebAssembly. */

typedef __UINT64_TYPE__ uint64_t;
typedef unsigned __int128 uint128_t;

/* The product of two numbers of 64 bits, by their halves. */
static uint128_t product(uint64_t a, uint64_t b) {
    const uint64_t half = 0xffffffff;
    uint64_t low = (a & half) * (b & half), high = (a >> 32) * (b >> 32);
    uint64_t across = (a >> 32) * (b & half) + (low >> 32);
    uint64_t back = (a & half) * (b >> 32) + (across & half);
    high += (across >> 32) + (back >> 32);
    return (uint128_t)high << 64 | (back << 32 | (low & half));
}

/* Modulo 2^128. */
uint128_t __multi3(uint128_t a, uint128_t b) {
    uint64_t more = (uint64_t)a * (uint64_t)(b >> 64) + (uint64_t)(a >> 64) * (uint64_t)b;
    return product((uint64_t)a, (uint64_t)b) + ((uint128_t)more << 64);
}
