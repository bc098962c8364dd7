/*
 * Tries bounds_double_above and bounds_double_below: each double lies on its side of the figure, and none lies nearer. Each is compared with the
 * figure exactly: the figure is digits * 10^power, the double whole * 2^scale, and the two are multiplied out to whole numbers.
 *
 * All of it runs under each of the four rounding modes. Doubles are looked at by their bits alone, so that the test itself does no floating-point
 * arithmetic either and says the same when it is built with -ffast-math.
 */
#include "../../include/bounds.h"
#include <fenv.h>
#include <stdio.h>
#include <stdlib.h>

/* The bits of positive doubles are in the order of the doubles, and the next double is one more. */
static const uint64_t ONE = 0x3FF0000000000000u, LEAST = 1, GREATEST = 0x7FEFFFFFFFFFFFFFu, INFINITE = 0x7FF0000000000000u;

static uint64_t bits_of(double x)
{
    uint64_t bits;
    memcpy(&bits, &x, sizeof bits);
    return bits;
}

enum { LIMBS = 160 };

typedef struct {
    uint32_t limb[LIMBS];
} number;

/* n times `by`, so often; nine times in one go. */
static number times(number n, uint64_t by, int32_t often)
{
    while (often > 0) {
        uint64_t factor = 1, carry = 0;
        for (int i = 0; i < 9 && often > 0; i++, often--)
            factor *= by;
        for (int i = 0; i < LIMBS; i++) {
            carry += n.limb[i] * factor;
            n.limb[i] = (uint32_t)carry;
            carry >>= 32;
        }
        if (carry != 0) {
            fprintf(stderr, "doubles: a number that is too long\n");
            exit(1);
        }
    }
    return n;
}

static number of(uint64_t n)
{
    number r = { { (uint32_t)n, (uint32_t)(n >> 32) } };
    return r;
}

/* The figure and the double of these bits, which is finite and not negative, both multiplied by the same, so that they are whole numbers. */
typedef struct {
    number figure;
    number x;
} pair;

static pair multiplied_out(uint64_t digits, int32_t power, uint64_t bits)
{
    uint64_t part = bits & 0xFFFFFFFFFFFFFu;
    int field = (int)(bits >> 52);
    uint64_t whole = field == 0 ? part : part + (1ull << 52);
    int scale = (field == 0 ? 1 : field) - 1075;
    pair p = { times(times(of(digits), 10, power), 2, -scale), times(times(of(whole), 2, scale), 10, -power) };
    return p;
}

/* Below 0, 0 or above 0 as a is below, at or above b. */
static int order(const number *a, const number *b)
{
    for (int i = LIMBS - 1; i >= 0; i--)
        if (a->limb[i] != b->limb[i])
            return a->limb[i] < b->limb[i] ? -1 : 1;
    return 0;
}

/* The order of the figure and the double of these bits, which is not negative. */
static int compare(uint64_t digits, int32_t power, uint64_t bits)
{
    if (bits == INFINITE)
        return -1;
    pair p = multiplied_out(digits, power, bits);
    return order(&p.figure, &p.x);
}

/* a - b, where a is not below b. */
static number minus(number a, const number *b)
{
    uint64_t borrow = 0;
    for (int i = 0; i < LIMBS; i++) {
        uint64_t taken = b->limb[i] + borrow;
        borrow = a.limb[i] < taken;
        a.limb[i] -= (uint32_t)taken;
    }
    return a;
}

static long tried, exact;

static uint64_t above_of(uint64_t digits, int32_t power)
{
    bounds_figure f = { digits, power };
    return bits_of(bounds_double_above(f));
}

static uint64_t below_of(uint64_t digits, int32_t power)
{
    bounds_figure f = { digits, power };
    return bits_of(bounds_double_below(f));
}

static void wrong(uint64_t digits, int32_t power, uint64_t bits)
{
    fprintf(stderr, "doubles: %llu and %d: bits %016llx\n", (unsigned long long)digits, power, (unsigned long long)bits);
    exit(1);
}

static void check(uint64_t digits, int32_t power)
{
    uint64_t above = above_of(digits, power), below = below_of(digits, power);
    int good = above <= INFINITE && below <= GREATEST; /* what lies beyond is no number */
    good = good && compare(digits, power, above) <= 0 && compare(digits, power, below) >= 0;
    if (above == below)
        good = good && compare(digits, power, above) == 0;
    else
        good = good && below + 1 == above && compare(digits, power, above) < 0 && compare(digits, power, below) > 0;
    if (!good)
        wrong(digits, power, above);
    tried++;
    exact += above == below;
}

/* ---- Figures at a double */

/*
 * Figures that lie within x / 2^64 of a double x and are none. Rounded to 64 bits on the way, as by long double, such a figure is x itself, and x
 * would then stand for both its bounds. They were found by continued fractions: with a = 10^power / 2^scale, the figure digits * 10^power lies near
 * the double whole * 2^scale where whole / digits lies near a, so whole / digits is a convergent of a, or one with both parts multiplied by the
 * same small number, that has nine digits below and 53 bits above. For each power and scale the convergents were listed, and the nearest kept.
 */
static const struct {
    uint64_t digits;
    int32_t power;
    uint64_t x;
} near_above[] = {
    /* the figure is above x, by x times 2^-89, 2^-87, 2^-86, 2^-87, 2^-85, 2^-86, 2^-79, 2^-89 and 2^-93 */
    { 175150874, -310, 0x014805C19E680456u },
    { 820858081, -151, 0x227004052146AED2u },
    { 420526983, -50, 0x375771F62F7C536Bu },
    { 989648089, -35, 0x3A8880A3D515E849u },
    { 197403521, -27, 0x3C0D21B1B515686Fu },
    { 371790617, -25, 0x3C856EA93D1AFBB0u },
    { 575532651, 22, 0x4652291DA082D155u },
    { 325270231, 39, 0x49CC7CCF90C9F8ABu },
    { 245540327, 121, 0x5ACC569E968E0944u },
}, near_below[] = {
    /* the figure is below x, by x times 2^-84, 2^-89, 2^-91, 2^-86, 2^-85, 2^-85, 2^-77, 2^-89 and 2^-87 */
    { 179941541, -304, 0x02878947479F53ADu },
    { 282926897, -227, 0x128FF5A70D3D2FEFu },
    { 971212611, -126, 0x27A397D3C9745D2Fu },
    { 140352706, -53, 0x36A00683A21DE855u },
    { 161110172, -32, 0x3AFF29CA0FF893B1u },
    { 145644771, -14, 0x3EB86F653140A659u },
    { 306364956, 22, 0x46435597C2852810u },
    { 229058583, 52, 0x4C76CE94FEBDC7A5u },
    { 784853891, 229, 0x715348E02B28315Au },
};

/* The figure lies on its side of x, so near. One of its two doubles is x, the other the next on the figure's side. */
static void check_near(uint64_t digits, int32_t power, uint64_t x, int above)
{
    pair p = multiplied_out(digits, power, x);
    number gap = above ? minus(p.figure, &p.x) : minus(p.x, &p.figure);
    gap = times(gap, 2, 64);
    int good = compare(digits, power, x) == (above ? 1 : -1) && order(&gap, &p.x) < 0;
    good = good && below_of(digits, power) == (above ? x : x - 1);
    good = good && above_of(digits, power) == (above ? x + 1 : x);
    if (!good)
        wrong(digits, power, x);
    check(digits, power);
}

static uint64_t state = 88172645463325252u;

static uint64_t next(void)
{
    state ^= state << 13;
    state ^= state >> 7;
    state ^= state << 17;
    return state;
}

static void same(uint64_t bits, uint64_t expected)
{
    if (bits != expected) {
        fprintf(stderr, "doubles: bits %016llx, not %016llx\n", (unsigned long long)bits, (unsigned long long)expected);
        exit(1);
    }
}

/* Known values, and powers that no double reaches. */
static void check_known(void)
{
    const uint64_t tenth = 0x3FB999999999999Au; /* the double nearest to a tenth, which lies above it */
    same(below_of(0, 0), 0);
    same(above_of(0, 0), 0);
    same(below_of(100000000, -8), ONE);
    same(above_of(100000000, -8), ONE);
    same(below_of(100000000, -9), tenth - 1);
    same(above_of(100000000, -9), tenth);
    same(below_of(999999999, INT32_MAX), GREATEST);
    same(above_of(999999999, INT32_MAX), INFINITE);
    same(below_of(999999999, INT32_MIN), 0);
    same(above_of(999999999, INT32_MIN), LEAST);
}

static void check_all(void)
{
    static const uint64_t edges[] = {
        100000000, 100000001, 123456789, 500000000, 999999999, 179769313, 179769314, 494065645, 494065646,
        222507385, 222507386, 1, 2, 5, 1ull << 53, (1ull << 53) + 1, UINT64_MAX,
    };
    for (size_t i = 0; i < sizeof edges / sizeof edges[0]; i++)
        for (int32_t power = -360; power <= 312; power++)
            check(edges[i], power);
    for (int i = 0; i < 3000; i++)
        check(100000000 + next() % 900000000, (int32_t)(next() % 670) - 360);
    for (int i = 0; i < 3000; i++)
        check(100000000 + next() % 900000000, (int32_t)(next() % 40) - 35);
    for (size_t i = 0; i < sizeof near_above / sizeof near_above[0]; i++)
        check_near(near_above[i].digits, near_above[i].power, near_above[i].x, 1);
    for (size_t i = 0; i < sizeof near_below / sizeof near_below[0]; i++)
        check_near(near_below[i].digits, near_below[i].power, near_below[i].x, 0);
    check_known();
}

int main(void)
{
    static const int modes[] = { FE_TONEAREST, FE_UPWARD, FE_DOWNWARD, FE_TOWARDZERO };
    for (size_t i = 0; i < sizeof modes / sizeof modes[0]; i++) {
        if (fesetround(modes[i]) != 0) {
            fprintf(stderr, "doubles: no such rounding mode\n");
            return 1;
        }
        check_all();
    }
    printf("doubles: %ld figures under four rounding modes, %ld of them doubles themselves\n", tried, exact);
    return 0;
}
