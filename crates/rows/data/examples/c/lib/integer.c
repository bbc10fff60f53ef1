// What the compiler calls where the R3000 has no instruction: the functions of libgcc, which Debian
// has for later processors only. Their names and arguments are the compiler's. Numbers of 64 bits
// are taken apart, as nothing here may call these functions.
#include <stdint.h>

typedef union {
    uint64_t whole;
    struct {
        uint32_t low, high;             // the lowest byte is first
    };
} pair;

uint64_t __ashldi3(uint64_t it, int count);
int64_t __ashrdi3(int64_t it, int count);
uint64_t __lshrdi3(uint64_t it, int count);
int64_t __muldi3(int64_t left, int64_t right);
int64_t __negdi2(int64_t it);
uint64_t __udivmoddi4(uint64_t number, uint64_t by, uint64_t *rest);
uint64_t __udivdi3(uint64_t number, uint64_t by);
uint64_t __umoddi3(uint64_t number, uint64_t by);
int64_t __divmoddi4(int64_t number, int64_t by, int64_t *rest);
int64_t __divdi3(int64_t number, int64_t by);
int64_t __moddi3(int64_t number, int64_t by);
int __cmpdi2(int64_t left, int64_t right);
int __ucmpdi2(uint64_t left, uint64_t right);
int __clzsi2(uint32_t it);
int __clzdi2(uint64_t it);
int __ctzsi2(uint32_t it);
int __ctzdi2(uint64_t it);
int __clrsbsi2(int32_t it);
int __clrsbdi2(int64_t it);
int __ffssi2(uint32_t it);
int __ffsdi2(uint64_t it);
int __popcountsi2(uint32_t it);
int __popcountdi2(uint64_t it);
int __paritysi2(uint32_t it);
int __paritydi2(uint64_t it);
uint32_t __bswapsi2(uint32_t it);
uint64_t __bswapdi2(uint64_t it);

// Shifts to the left.
uint64_t __ashldi3(uint64_t it, int count) {
    pair a = {it};
    if (count >= 32)
        return (pair){.high = a.low << (count - 32)}.whole;
    if (count == 0)
        return it;
    return (pair){.low = a.low << count, .high = a.high << count | a.low >> (32 - count)}.whole;
}

// Shifts to the right, with zeros.
uint64_t __lshrdi3(uint64_t it, int count) {
    pair a = {it};
    if (count >= 32)
        return (pair){.low = a.high >> (count - 32)}.whole;
    if (count == 0)
        return it;
    return (pair){.low = a.low >> count | a.high << (32 - count), .high = a.high >> count}.whole;
}

// Shifts to the right, with the sign.
int64_t __ashrdi3(int64_t it, int count) {
    pair a = {it};
    int32_t high = a.high;
    if (count >= 32)
        return (pair){.low = high >> (count - 32), .high = high >> 31}.whole;
    if (count == 0)
        return it;
    return (pair){.low = a.low >> count | a.high << (32 - count), .high = high >> count}.whole;
}

// The product of two numbers of 32 bits. The compiler has it as one instruction.
static uint64_t product(uint32_t left, uint32_t right) {
    return (uint64_t)left * right;
}

// The product's low 64 bits, which are the same with and without signs.
int64_t __muldi3(int64_t left, int64_t right) {
    pair a = {left}, b = {right}, low = {product(a.low, b.low)};
    low.high += a.low * b.high + a.high * b.low;
    return low.whole;
}

// The number with the other sign.
int64_t __negdi2(int64_t it) {
    return -(uint64_t)it;
}

// Divides by a number of 16 bits: the four quarters of 16 bits one after the other, as by hand.
static uint64_t divide_by_short(pair number, uint32_t by, uint64_t *rest) {
    uint32_t quarters[] = {number.high >> 16, number.high & 0xFFFF, number.low >> 16, number.low & 0xFFFF}, left = 0;
    for (int k = 0; k < 4; k++) {
        uint32_t part = left << 16 | quarters[k];
        quarters[k] = part / by;
        left = part % by;
    }
    *rest = left;
    return (pair){.high = quarters[0] << 16 | quarters[1], .low = quarters[2] << 16 | quarters[3]}.whole;
}

// Divides bit by bit. `by` is moved to the number's highest bit, and back.
static uint64_t divide_by_long(uint64_t number, uint64_t by, uint64_t *rest) {
    uint64_t quotient = 0;
    int count = number < by ? -1 : __clzdi2(by) - __clzdi2(number);
    for (by <<= count > 0 ? count : 0; count >= 0; count--, by >>= 1) {
        quotient <<= 1;
        if (number >= by) {
            number -= by;
            quotient |= 1;
        }
    }
    *rest = number;
    return quotient;
}

// The quotient, and the rest. A division by zero has no meaning; it comes to an end.
uint64_t __udivmoddi4(uint64_t number, uint64_t by, uint64_t *rest) {
    pair a = {number}, b = {by};
    uint64_t left, quotient;
    if (a.high == 0 && b.high == 0) {
        quotient = a.low / b.low;
        left = a.low % b.low;
    } else if (b.high == 0 && b.low < 0x10000) {
        quotient = divide_by_short(a, b.low, &left);
    } else {
        quotient = divide_by_long(number, by, &left);
    }
    if (rest != 0)
        *rest = left;
    return quotient;
}

// The quotient.
uint64_t __udivdi3(uint64_t number, uint64_t by) {
    return __udivmoddi4(number, by, 0);
}

// The rest.
uint64_t __umoddi3(uint64_t number, uint64_t by) {
    uint64_t rest;
    __udivmoddi4(number, by, &rest);
    return rest;
}

// The number without its sign.
static uint64_t size_of(int64_t it) {
    return it < 0 ? -(uint64_t)it : (uint64_t)it;
}

// The quotient towards zero, and the rest, which has the number's sign.
int64_t __divmoddi4(int64_t number, int64_t by, int64_t *rest) {
    uint64_t left, quotient = __udivmoddi4(size_of(number), size_of(by), &left);
    *rest = number < 0 ? -left : left;
    return (number < 0) != (by < 0) ? -quotient : quotient;
}

// The quotient towards zero.
int64_t __divdi3(int64_t number, int64_t by) {
    int64_t rest;
    return __divmoddi4(number, by, &rest);
}

// The rest, which has the number's sign.
int64_t __moddi3(int64_t number, int64_t by) {
    int64_t rest;
    __divmoddi4(number, by, &rest);
    return rest;
}

// 0, 1 or 2: less, equal, greater.
int __cmpdi2(int64_t left, int64_t right) {
    return left < right ? 0 : left == right ? 1 : 2;
}

// The same without signs.
int __ucmpdi2(uint64_t left, uint64_t right) {
    return left < right ? 0 : left == right ? 1 : 2;
}

// How many zero bits are above the highest bit that is set.
int __clzsi2(uint32_t it) {
    int count = 0;
    for (int step = 16; step > 0; step /= 2)
        if (it >> (32 - step) == 0) {
            it <<= step;
            count += step;
        }
    return count;
}

// The same of 64 bits.
int __clzdi2(uint64_t it) {
    pair a = {it};
    return a.high != 0 ? __clzsi2(a.high) : 32 + __clzsi2(a.low);
}

// How many zero bits are below the lowest bit that is set.
int __ctzsi2(uint32_t it) {
    return 31 - __clzsi2(it & -it);
}

// The same of 64 bits.
int __ctzdi2(uint64_t it) {
    pair a = {it};
    return a.low != 0 ? __ctzsi2(a.low) : 32 + __ctzsi2(a.high);
}

// How many bits below the sign are as the sign is.
int __clrsbsi2(int32_t it) {
    return __clzsi2((uint32_t)(it ^ it >> 31) << 1 | 1);
}

// The same of 64 bits.
int __clrsbdi2(int64_t it) {
    pair a = {it};
    uint32_t sign = (int32_t)a.high >> 31;
    return __clzdi2((pair){.low = a.low ^ sign, .high = a.high ^ sign}.whole << 1 | 1);
}

// The number of the lowest bit that is set, from 1, or 0 where none is.
int __ffssi2(uint32_t it) {
    return it == 0 ? 0 : __ctzsi2(it) + 1;
}

// The same of 64 bits.
int __ffsdi2(uint64_t it) {
    return it == 0 ? 0 : __ctzdi2(it) + 1;
}

// How many bits are set.
int __popcountsi2(uint32_t it) {
    int count = 0;
    for (; it != 0; it &= it - 1)
        count++;
    return count;
}

// The same of 64 bits.
int __popcountdi2(uint64_t it) {
    pair a = {it};
    return __popcountsi2(a.low) + __popcountsi2(a.high);
}

// Whether an odd number of bits is set.
int __paritysi2(uint32_t it) {
    return __popcountsi2(it) % 2;
}

// The same of 64 bits.
int __paritydi2(uint64_t it) {
    return __popcountdi2(it) % 2;
}

// The bytes in the other order.
uint32_t __bswapsi2(uint32_t it) {
    return it << 24 | (it & 0xFF00) << 8 | (it >> 8 & 0xFF00) | it >> 24;
}

// The same of 64 bits.
uint64_t __bswapdi2(uint64_t it) {
    pair a = {it};
    return (pair){.high = __bswapsi2(a.low), .low = __bswapsi2(a.high)}.whole;
}
