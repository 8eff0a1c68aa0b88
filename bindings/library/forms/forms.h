/* Functions of each form that an export can have, for the test of fit.py. */
#include <stddef.h>
#include <stdint.h>

typedef struct form_one {
    uint32_t a;
} form_one;

typedef struct form_two {
    uint32_t a, b;
} form_two;

typedef struct form_three {
    uint32_t a, b, c;
} form_three;

typedef struct form_four {
    uint64_t a, b;
} form_four;

typedef struct form_five {
    uint64_t a, b;
    uint32_t c;
} form_five;

typedef struct form_six {
    uint32_t a;
    uint64_t b;
    uint32_t c;
} form_six;

typedef struct form_bytes {
    uint8_t a, b, c;
} form_bytes;

/* Each gives its argument and the numbers that follow it; with six arguments, three of them. */
form_one give_one(uint32_t a);
form_two give_two(uint32_t a);
form_three give_three(uint32_t a);
form_four give_four(uint64_t a);
form_five give_five(uint64_t a);
form_six give_six(uint8_t *to, size_t length, size_t b, uint32_t a, const uint8_t *from, size_t c);
form_bytes give_bytes(uint8_t a);

void give_nothing(uint8_t *to, uint8_t byte);
uint64_t give_wide(uint8_t a);
uint64_t give_length(const uint8_t *bytes, size_t length);
size_t give_size(size_t length);
