// What compiled code calls by name on WebAssembly, where there is no C library: products and shifts of 128 bits. Nothing proves it. None of these
// may itself multiply, divide or shift 128 bits by LLVM's own calls.

typedef unsigned long long u64;
typedef unsigned __int128 u128;
typedef __int128 i128;

typedef union {
    u128 whole;
    struct {
        u64 low, high;
    };
} Halves;

u128 __multi3(u128 x, u128 y) {
    Halves a = {x}, b = {y}, product;
    u64 mask = 0xffffffff, a0 = a.low & mask, a1 = a.low >> 32, b0 = b.low & mask, b1 = b.low >> 32;
    u64 first = a0 * b0, second = a1 * b0 + (first >> 32), third = a0 * b1 + (second & mask);
    product.low = third << 32 | (first & mask);
    product.high = a1 * b1 + (second >> 32) + (third >> 32) + a.low * b.high + a.high * b.low;
    return product.whole;
}

// In each shift n is from 0 to 127; a shift by 1 and then by 63 - n is one by 64 - n that is defined at n = 0.
u128 __ashlti3(u128 x, int n) {
    Halves a = {x}, shifted;
    int m = n & 63;
    shifted.high = n & 64 ? a.low << m : a.high << m | a.low >> 1 >> (63 - m);
    shifted.low = n & 64 ? 0 : a.low << m;
    return shifted.whole;
}

u128 __lshrti3(u128 x, int n) {
    Halves a = {x}, shifted;
    int m = n & 63;
    shifted.low = n & 64 ? a.high >> m : a.low >> m | a.high << 1 << (63 - m);
    shifted.high = n & 64 ? 0 : a.high >> m;
    return shifted.whole;
}

i128 __ashrti3(i128 x, int n) {
    Halves a = {x}, shifted;
    long long high = a.high;
    int m = n & 63;
    shifted.low = n & 64 ? (u64)(high >> m) : a.low >> m | a.high << 1 << (63 - m);
    shifted.high = n & 64 ? high >> 63 : high >> m;
    return shifted.whole;
}

// Called where a division of 128 bits is by a constant power of two alone; under -expand-div-rem-bits=64 each is written out in its body.
i128 __divti3(i128 x, i128 y) {
    return x / y;
}

i128 __modti3(i128 x, i128 y) {
    return x % y;
}
