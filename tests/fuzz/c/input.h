/* The bytes of an input, one after the other; 0 past its end. */
#ifndef INPUT_H
#define INPUT_H

#include <stddef.h>
#include <stdint.h>

struct input {
    const uint8_t *at, *end;
};

static inline uint8_t next_byte(struct input *input)
{
    return input->at < input->end ? *input->at++ : 0;
}

/* A kind and two bytes, as many arguments have. */
struct three {
    uint8_t kind, a, b;
};

static inline struct three next_three(struct input *input)
{
    struct three three;
    three.kind = next_byte(input);
    three.a = next_byte(input);
    three.b = next_byte(input);
    return three;
}

#endif
