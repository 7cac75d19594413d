/* The header by itself, as C99 and as C++11; and the example in its opening comment, which `make check` copies to header_example.h. */
#include <stdio.h>
#include <vlomdar.h>

void header_example(const uint8_t *message, size_t message_length, const uint8_t *home, size_t home_length);

void header_example(const uint8_t *message, size_t message_length, const uint8_t *home, size_t home_length)
{
#include "header_example.h"
}
