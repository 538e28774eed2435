/* What the tests of the C library share. */
#ifndef TEST_H
#define TEST_H

#include <stdio.h>
#include <stdlib.h>

#define TEST(holds)                                                      \
  do {                                                                   \
    if (!(holds)) {                                                      \
      fprintf(stderr, "%s:%d: not so: %s\n", __FILE__, __LINE__, #holds); \
      exit(1);                                                           \
    }                                                                    \
  } while (0)

#endif
