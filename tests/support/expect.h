/* Tests: one has passed where everything expected in it held. */
#ifndef EXPECT_H
#define EXPECT_H

/* Starts and ends a test; its end prints a line with its name and how much was checked. */
void test_begin(const char *name, ...);
void test_end(void);

/* Counts one check of the test. Where it does not hold, says what was expected: the first few times
 * in a test. */
void expect(int holds, const char *what, ...);

/* Prints 'N passed, M failed', the number of tests, and answers whether none failed. */
int tests_passed(void);

#endif
