/*
 * See locate.h. A parity byte at point y is the sum of the data bytes d(q) / (y + q), by the header
 * legbaro/parity.h. With N(z) the sum of d(q) times the product of z + t over the data t other than
 * q, every byte of a group is N at its own number, divided by the product of that number + t over
 * the data t other than it. N has a degree below k, so a group is a Reed-Solomon code, and the
 * method of Berlekamp and Welch finds the wrong bytes: polynomials E of degree e, and Q of a degree
 * below k + e, with Q(i) = v(i) E(i) at every number i, where v(i) is what N(i) seems to be. E is 0
 * at the wrong ones.
 */
#include "locate.h"

#include <string.h>

/* Equations in lines: the factors of the unknowns, and after the last what they come to. */
struct equations {
    unsigned lines, unknowns;
    uint8_t at[MOST_GROUP][MOST_GROUP + 1];
};

/* A product in the field of 256 elements with polynomial 0x11D. */
static uint8_t times(uint8_t a, uint8_t b)
{
    unsigned product = 0;
    for (unsigned left = a, right = b; right; right >>= 1) {
        product ^= right & 1 ? left : 0;
        left = left << 1 ^ (left & 0x80 ? 0x11d : 0);
    }
    return (uint8_t)product;
}

/* 1 divided by an element that is not 0: its power of 254. */
static uint8_t inverse(uint8_t a)
{
    uint8_t product = 1, power = a;
    for (int i = 1; i < 8; i++) {
        power = times(power, power);
        product = times(product, power);
    }
    return product;
}

/* Takes a line, times a factor, from another. */
static void take(struct equations *m, unsigned from, unsigned line, uint8_t factor)
{
    for (unsigned i = 0; factor && i <= m->unknowns; i++)
        m->at[from][i] ^= times(m->at[line][i], factor);
}

/* Solves for the unknowns, those that are free being 0. Returns whether there is a solution. */
static int solve(struct equations *m, uint8_t *solution)
{
    unsigned used = 0, line_of[MOST_GROUP];
    for (unsigned u = 0; u < m->unknowns; u++) {
        unsigned line = used;
        while (line < m->lines && !m->at[line][u])
            line++;
        line_of[u] = MOST_GROUP;
        if (line == m->lines)
            continue;
        uint8_t held[MOST_GROUP + 1], one_over = inverse(m->at[line][u]);
        memcpy(held, m->at[line], sizeof held);
        memcpy(m->at[line], m->at[used], sizeof held);
        for (unsigned i = 0; i <= m->unknowns; i++)
            m->at[used][i] = times(held[i], one_over);
        for (unsigned other = 0; other < m->lines; other++)
            if (other != used)
                take(m, other, used, m->at[other][u]);
        line_of[u] = used++;
    }
    for (unsigned line = used; line < m->lines; line++)
        if (m->at[line][m->unknowns])
            return 0;
    for (unsigned u = 0; u < m->unknowns; u++)
        solution[u] = line_of[u] == MOST_GROUP ? 0 : m->at[line_of[u]][m->unknowns];
    return 1;
}

/* The equation of the number i, where N seems to be v: Q's factors, E's below its first, and E's
 * first. */
static void add_equation(struct equations *m, unsigned data, unsigned errors, uint8_t i, uint8_t v)
{
    uint8_t power = 1, *line = m->at[m->lines++];
    for (unsigned u = 0; u < data + errors; u++, power = times(power, i)) {
        line[u] = power;
        if (u <= errors)
            line[data + errors + u] = times(v, power);
    }
}

/* Writes 1 where E, of which the factors below the first are told, is 0. Returns at how many. */
static unsigned find_roots(const uint8_t *factors, unsigned errors, unsigned count,
                           const uint8_t *gone, uint8_t *root)
{
    unsigned found = 0;
    for (unsigned i = 0; i < count; i++) {
        uint8_t value = 1;
        for (unsigned u = errors; u-- > 0;)
            value = times(value, (uint8_t)i) ^ factors[u];
        root[i] = !value && !gone[i];
        found += root[i];
    }
    return found;
}

unsigned locate(unsigned data, unsigned parity, const uint8_t *bytes, const uint8_t *gone,
                uint8_t *wrong)
{
    uint8_t seems[MOST_GROUP], solution[MOST_GROUP], root[MOST_GROUP];
    unsigned count = data + parity, left = count;
    for (unsigned i = 0; i < count; i++) {
        seems[i] = bytes[i];
        for (unsigned t = 0; t < data; t++)
            seems[i] = t == i ? seems[i] : times(seems[i], (uint8_t)(i ^ t));
        left -= gone[i] != 0;
    }
    for (unsigned errors = 1; data + 2 * errors <= left; errors++) {
        struct equations m = {0, data + 2 * errors, {{0}}};
        for (unsigned i = 0; i < count; i++)
            if (!gone[i])
                add_equation(&m, data, errors, (uint8_t)i, seems[i]);
        if (!solve(&m, solution) ||
            find_roots(solution + data + errors, errors, count, gone, root) != errors)
            continue;
        for (unsigned i = 0; i < count; i++)
            wrong[i] |= root[i];
        return errors;
    }
    return 0;
}
