/* Arithmetic on 128 bits, which WebAssembly lacks: the compiler calls these functions by their names. */
typedef unsigned long long word;
typedef unsigned __int128 wide;

wide __multi3(wide, wide), __ashlti3(wide, int), __lshrti3(wide, int);

static word low(wide it) { return (word)it; }
static word high(wide it) { return (word)(it >> 64); }
static wide joined(word high, word low) { return (wide)high << 64 | low; }

/* The product of two words. */
static wide product(word one, word other) {
    const word half = 0xffffffff;
    word a = one & half, b = one >> 32, c = other & half, d = other >> 32;
    word lowest = a * c, middle = b * c + (lowest >> 32), cross = a * d + (middle & half);
    return joined(b * d + (middle >> 32) + (cross >> 32), cross << 32 | (lowest & half));
}

wide __multi3(wide one, wide other) {
    wide both = product(low(one), low(other));
    return joined(high(both) + low(one) * high(other) + high(one) * low(other), low(both));
}

wide __ashlti3(wide it, int by) {
    if (by == 0) return it;
    if (by >= 64) return joined(low(it) << (by - 64), 0);
    return joined(high(it) << by | low(it) >> (64 - by), low(it) << by);
}

wide __lshrti3(wide it, int by) {
    if (by == 0) return it;
    if (by >= 64) return joined(0, high(it) >> (by - 64));
    return joined(high(it) >> by, low(it) >> by | high(it) << (64 - by));
}
