/* Fixed-point numbers of 32 bits in units of 1/65,536: products and quotients, roots, angles, exponentials, equations, a transform and a set. */
#include "program.h"

typedef long fixed;

#define ONE 0x10000L
#define PI 205887L /* 3.14159265 */
#define ROUNDS 17

static dword size_of(fixed x)
{
    return x < 0 ? -(dword)x : (dword)x;
}

static fixed signed_as(dword size, fixed sign)
{
    return sign < 0 ? -(fixed)size : (fixed)size;
}

static int is_near(fixed x, fixed wanted, fixed apart)
{
    return size_of(x - wanted) <= (dword)apart;
}

/* ---- products, quotients and roots */

static fixed product(fixed x, fixed y)
{
    dword a = size_of(x), b = size_of(y), low_a = a & 0xFFFF, low_b = b & 0xFFFF, high_a = a >> 16, high_b = b >> 16;
    dword size = (high_a * high_b << 16) + high_a * low_b + low_a * high_b + (low_a * low_b >> 16);
    return signed_as(size, x ^ y);
}

static fixed quotient(fixed x, fixed y)
{
    dword above = size_of(x), below = size_of(y), found = above / below, rest = above % below;
    for (byte bit = 0; bit < 16; bit++) {
        rest += rest;
        found += found;
        if (rest >= below) {
            rest -= below;
            found++;
        }
    }
    return signed_as(found, x ^ y);
}

/* The greatest number whose square is no more, digit by digit in base 2. */
static fixed root(fixed x)
{
    dword left = (dword)x, rest = 0, found = 0;
    for (byte digit = 0; digit < 24; digit++) {
        rest = rest << 2 | left >> 30;
        left <<= 2;
        found += found;
        if (rest > found + found) {
            rest -= found + found + 1;
            found++;
        }
    }
    return (fixed)found;
}

static word of_products(void)
{
    word passed = 0;
    passed |= (word)(product(3 * ONE / 2, 9 * ONE / 4) == 27 * ONE / 8);
    passed |= (word)(product(-181 * ONE, 181 * ONE) == -(32761 * ONE)) << 1;
    passed |= (word)(quotient(-7 * ONE, 2 * ONE) == -(7 * ONE / 2)) << 2;
    passed |= (word)(quotient(ONE, 3 * ONE) == 21845) << 3;
    passed |= (word)(quotient(product(12345, 54321), 54321) >= 12340) << 4;
    passed |= (word)(root(2 * ONE) == 92681) << 5;
    passed |= (word)(root(10 * ONE) == 207243) << 6;
    passed |= (word)(root(ONE / 2) == 46340) << 7;
    passed |= (word)(root(0x7FFFFFFF) == 11863283) << 8;
    return passed;
}

/* ---- angles, by turns whose tangents are powers of 2 */

static const fixed turns[ROUNDS] = {51472, 30386, 16055, 8150, 4091, 2047, 1024, 512, 256, 128, 64, 32, 16, 8, 4, 2, 1};

struct vector {
    fixed x, y, angle;
};

static void turn(struct vector *it, byte k, int left)
{
    fixed x = it->x >> k, y = it->y >> k;
    it->x += left ? -y : y;
    it->y += left ? x : -x;
    it->angle += left ? turns[k] : -turns[k];
}

/* Cosine and sine of an angle from -pi/2 to pi/2; the turns make a vector 1.64676 times as long. */
static struct vector direction(fixed angle)
{
    struct vector it = {39797, 0, 0};
    for (byte k = 0; k < ROUNDS; k++)
        turn(&it, k, it.angle < angle);
    return it;
}

static fixed sine(fixed angle)
{
    while (angle > PI)
        angle -= 2 * PI;
    while (angle < -PI)
        angle += 2 * PI;
    if (angle > PI / 2)
        angle = PI - angle;
    if (angle < -PI / 2)
        angle = -PI - angle;
    return direction(angle).y;
}

static fixed cosine(fixed angle)
{
    return sine(angle + PI / 2);
}

/* The angle of a point whose x is above 0. */
static fixed angle_of(fixed x, fixed y)
{
    struct vector it = {x, y, 0};
    for (byte k = 0; k < ROUNDS; k++)
        turn(&it, k, it.y < 0);
    return -it.angle;
}

static word of_angles(void)
{
    word passed = 0;
    passed |= (word)is_near(sine(PI / 6), ONE / 2, 12);
    passed |= (word)is_near(sine(ONE), 55147, 12) << 1;
    passed |= (word)is_near(cosine(ONE), 35409, 12) << 2;
    passed |= (word)is_near(sine(-5 * PI / 6), -ONE / 2, 16) << 3;
    passed |= (word)is_near(cosine(PI), -ONE, 16) << 4;
    passed |= (word)is_near(angle_of(ONE, ONE), 51472, 12) << 5;
    passed |= (word)is_near(angle_of(2 * ONE, -ONE), -30386, 12) << 6;
    for (fixed angle = -3 * ONE; angle < 3 * ONE; angle += 37 * ONE / 64) {
        fixed s = sine(angle), c = cosine(angle);
        if (!is_near(product(s, s) + product(c, c), ONE, 32))
            return passed;
    }
    return passed | 1 << 7;
}

/* ---- exponentials and logarithms */

/* Of a sixteenth, by nine terms of the series, and squared four times. */
static fixed exponential(fixed x)
{
    fixed term = ONE, sum = ONE, part = x / 16;
    for (fixed k = 1; k <= 8; k++) {
        term = product(term, part) / k;
        sum += term;
    }
    for (byte k = 0; k < 4; k++)
        sum = product(sum, sum);
    return sum;
}

static const fixed logarithms[ROUNDS] = {45426, 26573, 14624, 7719, 3973, 2017, 1016, 510, 256, 128, 64, 32, 16, 8, 4, 2, 1};

/* Of a number above 0: halved or doubled to 1 to 2, then multiplied by 1 and a power of 1/2 while that stays below 2. */
static fixed logarithm(fixed x)
{
    fixed found = logarithms[0];
    for (; x >= 2 * ONE; x >>= 1)
        found += logarithms[0];
    for (; x < ONE; x += x)
        found -= logarithms[0];
    for (byte k = 1; k < ROUNDS; k++)
        for (fixed more = x + (x >> k); more < 2 * ONE; more = x + (x >> k)) {
            x = more;
            found -= logarithms[k];
        }
    return found;
}

static word of_exponentials(void)
{
    word passed = 0;
    passed |= (word)is_near(exponential(ONE), 178145, 100);
    passed |= (word)is_near(exponential(-ONE), 24109, 30) << 1;
    passed |= (word)is_near(exponential(ONE / 2), 108051, 60) << 2;
    passed |= (word)is_near(exponential(5 * ONE), 9726404, 9000) << 3;
    passed |= (word)is_near(logarithm(2 * ONE), 45426, 24) << 4;
    passed |= (word)is_near(logarithm(10 * ONE), 150902, 24) << 5;
    passed |= (word)is_near(logarithm(ONE / 10), -150902, 24) << 6;
    passed |= (word)is_near(logarithm(exponential(3 * ONE / 4)), 3 * ONE / 4, 40) << 7;
    return passed;
}

/* ---- linear equations, by elimination with the greatest pivot */

#define ORDER 4

static void exchange_rows(fixed rows[][ORDER + 1], byte i, byte j)
{
    for (byte k = 0; k <= ORDER; k++) {
        fixed kept = rows[i][k];
        rows[i][k] = rows[j][k];
        rows[j][k] = kept;
    }
}

static byte pivot(fixed rows[][ORDER + 1], byte column)
{
    byte found = column;
    for (byte i = column + 1; i < ORDER; i++)
        if (size_of(rows[i][column]) > size_of(rows[found][column]))
            found = i;
    return found;
}

static void solve(fixed rows[][ORDER + 1])
{
    for (byte column = 0; column < ORDER; column++) {
        exchange_rows(rows, column, pivot(rows, column));
        for (byte k = ORDER + 1; k-- > column;)
            rows[column][k] = quotient(rows[column][k], rows[column][column]);
        for (byte i = 0; i < ORDER; i++) {
            fixed times = rows[i][column];
            for (byte k = column; i != column && k <= ORDER; k++)
                rows[i][k] -= product(times, rows[column][k]);
        }
    }
}

static word of_equations(void)
{
    static const signed char equations[ORDER][ORDER] = {{2, 1, -1, 3}, {1, 0, 2, -1}, {4, -2, 1, 1}, {-1, 3, 2, 5}};
    static const signed char solution[ORDER] = {1, -2, 3, 4};
    fixed rows[ORDER][ORDER + 1];
    word passed = 0;
    for (byte i = 0; i < ORDER; i++) {
        rows[i][ORDER] = 0;
        for (byte k = 0; k < ORDER; k++) {
            rows[i][k] = equations[i][k] * ONE;
            rows[i][ORDER] += (fixed)equations[i][k] * solution[k] * ONE;
        }
    }
    solve(rows);
    for (byte i = 0; i < ORDER; i++)
        passed |= (word)is_near(rows[i][ORDER], solution[i] * ONE, 32) << i;
    return passed;
}

/* ---- the fast transform of sixteen points */

#define POINTS 16

static struct vector points[POINTS];

static byte turned(byte number)
{
    return (byte)((number & 1) << 3 | (number & 2) << 1 | (number & 4) >> 1 | (number & 8) >> 3);
}

static void butterfly(struct vector *one, struct vector *two, fixed angle)
{
    fixed c = cosine(angle), s = sine(angle);
    fixed x = product(two->x, c) - product(two->y, s), y = product(two->x, s) + product(two->y, c);
    two->x = one->x - x;
    two->y = one->y - y;
    one->x += x;
    one->y += y;
}

static void transform(void)
{
    for (byte half = 1; half < POINTS; half += half)
        for (byte first = 0; first < POINTS; first += half + half)
            for (byte k = 0; k < half; k++)
                butterfly(&points[first + k], &points[first + k + half], -PI * k / half);
}

/* A wave that comes round three times, on a level of 1/2, has eight at 0, 3 and 13, and nothing elsewhere. */
static word of_transform(void)
{
    word passed = 0;
    for (byte i = 0; i < POINTS; i++)
        points[turned(i)] = (struct vector){ONE / 2 + cosine(3 * PI * i / 8), 0, 0};
    transform();
    for (byte i = 0; i < POINTS; i++) {
        fixed wanted = i == 0 || i == 3 || i == 13 ? 8 * ONE : 0;
        passed |= (word)(is_near(points[i].x, wanted, 200) && is_near(points[i].y, 0, 200)) << i;
    }
    return passed;
}

/* ---- an integral, and a set */

/* Of the sine from 0 to pi, by Simpson's rule on eight parts: 2.00027. */
static fixed integral(void)
{
    fixed sum = sine(0) + sine(PI);
    for (byte k = 1; k < 8; k++)
        sum += sine(PI * k / 8) * (k & 1 ? 4 : 2);
    return product(sum, PI) / 24;
}

/* How often z, squared and with x + iy added from 0 on, stays within 2, at most so often. */
static byte stays(fixed x, fixed y, byte most)
{
    fixed a = 0, b = 0;
    byte count = 0;
    for (; count < most; count++) {
        fixed aa = product(a, a), bb = product(b, b);
        if (aa + bb > 4 * ONE)
            break;
        b = 2 * product(a, b) + y;
        a = aa - bb + x;
    }
    return count;
}

static word set(void)
{
    word sum = 0;
    for (fixed y = -ONE; y <= ONE; y += ONE / 4)
        for (fixed x = -2 * ONE; x <= ONE / 2; x += ONE / 4)
            sum = sum * 3 + stays(x, y, 12);
    return sum;
}

int main(void)
{
    word result[8] = {0};
    result[0] = of_products();
    result[1] = of_angles();
    result[2] = of_exponentials();
    result[3] = of_equations();
    result[4] = of_transform();
    result[5] = (word)is_near(integral(), 131090, 24);
    result[6] = (word)(stays(-ONE, 0, 50) == 50) | (word)(stays(ONE, 0, 50) == 3) << 1;
    result[7] = set();
    finish(result);
    return 0;
}
