// Arithmetic on numbers of 128 bits, by the names under which the compiler asks for it.
#include "types.h"

// The compiler knows arithmetic on halves for one on the whole, and would have these functions call
// themselves.
#pragma clang optimize off

typedef unsigned __int128 wide;
typedef __int128 signed_wide;

// A wide number, and its halves.
typedef union {
    wide all;
    struct {
        word low, high;
    };
} pair;

wide __multi3(wide left, wide right) {
    pair a = {left}, b = {right}, product;
    word a0 = (half)a.low, a1 = a.low >> 32, b0 = (half)b.low, b1 = b.low >> 32;
    word middle = (a0 * b0 >> 32) + (half)(a0 * b1) + (half)(a1 * b0);
    product.low = a.low * b.low;
    product.high = a1 * b1 + (a0 * b1 >> 32) + (a1 * b0 >> 32) + (middle >> 32) + a.low * b.high + a.high * b.low;
    return product.all;
}

wide __ashlti3(wide value, int count) {
    pair it = {value};
    if (count & 64) {
        it.high = it.low << (count & 63);
        it.low = 0;
    } else if (count) {
        it.high = it.high << count | it.low >> (64 - count);
        it.low = it.low << count;
    }
    return it.all;
}

wide __lshrti3(wide value, int count) {
    pair it = {value};
    if (count & 64) {
        it.low = it.high >> (count & 63);
        it.high = 0;
    } else if (count) {
        it.low = it.low >> count | it.high << (64 - count);
        it.high = it.high >> count;
    }
    return it.all;
}

signed_wide __ashrti3(signed_wide value, int count) {
    pair it = {value};
    number high = it.high;
    if (count & 64) {
        it.low = high >> (count & 63);
        it.high = high >> 63;
    } else if (count) {
        it.low = it.low >> count | it.high << (64 - count);
        it.high = high >> count;
    }
    return it.all;
}

// The quotient, bit by bit from the highest; what is left over is put there.
static wide divided(wide value, wide by, wide *rest) {
    pair left = {value}, quotient = {0}, more = {0};
    for (int bit = 127; bit >= 0; bit--) {
        word is_over = more.high >> 63;
        more.high = more.high << 1 | more.low >> 63;
        more.low = more.low << 1 | (left.high >> 63);
        left.high = left.high << 1 | left.low >> 63;
        left.low <<= 1;
        quotient.high = quotient.high << 1 | quotient.low >> 63;
        quotient.low <<= 1;
        if (is_over || more.all >= by) {
            more.all -= by;
            quotient.low |= 1;
        }
    }
    *rest = more.all;
    return quotient.all;
}

wide __udivti3(wide value, wide by) {
    wide rest;
    return divided(value, by, &rest);
}

wide __umodti3(wide value, wide by) {
    wide rest;
    divided(value, by, &rest);
    return rest;
}
