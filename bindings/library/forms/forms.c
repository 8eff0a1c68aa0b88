/* Calls each function of forms.h; gives 0, or the number of the first answer that is wrong. */
#include "forms.h"

static const uint64_t LARGE = 0x123456789abcdef0;

int forms(void)
{
    form_one one = give_one(0xfffffff0);
    if (one.a != 0xfffffff0)
        return 1;
    form_two two = give_two(0xfffffff0);
    if (two.a != 0xfffffff0 || two.b != 0xfffffff1)
        return 2;
    form_three three = give_three(0xfffffff0);
    if (three.a != 0xfffffff0 || three.b != 0xfffffff1 || three.c != 0xfffffff2)
        return 3;
    form_four four = give_four(LARGE);
    if (four.a != LARGE || four.b != LARGE + 1)
        return 4;
    form_five five = give_five(LARGE);
    if (five.a != LARGE || five.b != LARGE + 1 || five.c != (uint32_t)(LARGE + 2))
        return 5;
    form_bytes bytes = give_bytes(0xf0);
    if (bytes.a != 0xf0 || bytes.b != 0xf1 || bytes.c != 0xf2)
        return 6;
    uint8_t byte = 0;
    give_nothing(&byte, 0xf0);
    if (byte != 0xf0)
        return 7;
    if (give_wide(0xf0) != 0xf0)
        return 8;
    if (give_length(&byte, 0xfffffff0) != 0xfffffff0)
        return 9;
    if (give_size(0xfffffff0) != 0xfffffff0)
        return 10;
    form_six six = give_six(&byte, 1, 0xfffffff1, 0xfffffff0, &byte, 0xfffffff2);
    if (six.a != 0xfffffff0 || six.b != 0xfffffff1 || six.c != 0xfffffff2)
        return 11;
    return 0;
}

int main(void)
{
    return forms();
}
