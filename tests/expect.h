/* What the tests in C share: a count of what holds, and words for what does not. In C and in C++. */
#ifndef EXPECT_H
#define EXPECT_H

#include <stdio.h>

#define COUNT(table) (sizeof(table) / sizeof((table)[0]))

static int passed, failed;

/* The text is that of the case, where what was tried has many. */
static inline void expect_of(int holds, const char *what, const char *text)
{
    if (holds) {
        passed++;
    } else {
        failed++;
        printf("wrong: %s %.60s\n", what, text);
    }
}

static inline void expect(int holds, const char *what)
{
    expect_of(holds, what, "");
}

/* Ends a test: the last line counts what passed. */
static inline int told(void)
{
    printf("%d passed, %d failed\n", passed, failed);
    return failed != 0;
}

#endif
