// What the tests of C++ expect. Each prints what doesn't hold, and its status is `failed`.
#ifndef LRLEX_TESTS_EXPECT_HPP
#define LRLEX_TESTS_EXPECT_HPP

#include <cstdio>

inline int failed = 0;

inline void expect(bool holds, const char *what, int line) {
    if (!holds) {
        std::printf("line %d: %s\n", line, what);
        failed = 1;
    }
}

#define EXPECT(condition) expect((condition), #condition, __LINE__)

#endif
