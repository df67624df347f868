/* The root that stood in crates/leaves before the school method alone, copied to C: a guess by float steps, tested in whole numbers, and the school method with the
   digit as a factor where neither it nor a number beside it is right. For `make bench-root`; it declares what it needs, so that the toolchain's clang builds it. */
typedef unsigned long word; /* on every 64-bit Linux */

static const word one = 1ul << 52;

static double from_bits(word bits)
{
    double x;
    __builtin_memcpy(&x, &bits, sizeof x);
    return x;
}

static word to_bits(double x)
{
    word bits;
    __builtin_memcpy(&bits, &x, sizeof bits);
    return bits;
}

static word whole_root(word n)
{
    word a = n << 10, s = 0, r = 0;
    for (int i = 0; i < 54; i++) {
        word d = r * 4 + (a >> 62), t = s * 4 + 1, digit = t <= d;
        a <<= 2;
        r = d - t * digit;
        s = s * 2 + digit;
    }
    return s;
}

static word significand(word b) { return b < one ? b << (__builtin_clzl(b) - 11) : one + b % one; }

static word exponent(word b) { return b < one ? 64 - (word)__builtin_clzl(b) : b / one + 52; }

static word paired(word m, word x) { return x % 2 == 0 ? m * 2 : m; }

static double closer(double half, double z) { return z * (1.5 - half * z * z); }

static word guess(word b)
{
    double x = from_bits(b), half = x * 0.5;
    double z = closer(half, closer(half, closer(half, from_bits(0x5fe6eb50c7b537a9ul - b / 2))));
    double y = x * z;
    y = y + 0.5 * z * (x - y * y);
    return y == y ? to_bits(y) : 0;
}

static int is_half(word n, word q)
{
    word a = q / 0x4000000, c = q % 0x4000000, e = 2 * (a * c);
    word h = a * a + e / 0x4000000, l = e % 0x4000000 * 0x4000000 + c * c;
    if (n + 2 <= h + (l + 2 * one - q) / one)
        return 0;
    return n <= h + (l + q) / one;
}

static word half(word n, word q)
{
    if (is_half(n, q))
        return q;
    if (is_half(n, q + 1))
        return q + 1;
    if (is_half(n, q - 1))
        return q - 1;
    return (whole_root(n) + 1) / 2;
}

static word by_guess(word b)
{
    word x = exponent(b), n = paired(significand(b), x);
    return (x + 969) / 2 * one + half(n, one + guess(b) % one);
}

static word by_factors(word b)
{
    word x = exponent(b), n = paired(significand(b), x);
    return (x + 969) / 2 * one + (whole_root(n) + 1) / 2;
}

/* What `root` does around the bits. */
static double around(double x, word (*bits)(word))
{
    word b = to_bits(x);
    if (x != x || b > 1ul << 63)
        return 0.0 / 0.0;
    if (b == 0 || b == 1ul << 63 || b >= 0x7ff0000000000000ul)
        return x;
    return from_bits(bits(b));
}

double former_root(double x) { return around(x, by_guess); }
double factor_root(double x) { return around(x, by_factors); }
