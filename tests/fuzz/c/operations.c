#include "operations.h"

#include "program.h"

/* Without the bytes of a literal name. */
static const uint8_t lengths[OPERATIONS] = {
    [OP_BYTE] = 6, [OP_LINK] = 7, [OP_SLOT] = 4, [OP_MAP_ENTRY] = 4, [OP_MAP_BIT] = 3, [OP_REPAIR] = 2,
    [OP_COPY_SLOT] = 3, [OP_COPY_SECTOR] = 7, [OP_VERSION] = 2, [OP_CHECK] = 3, [OP_FORMAT] = 8, [OP_READ] = 9,
    [OP_STORE] = 11, [OP_SCRATCH] = 6, [OP_TELL] = 5, [OP_LISTING] = 7,
};

/* Where a call's name is, behind its place in memory and its answer block. */
enum { NAME_AT = 3 };

static int has_name(enum operation operation)
{
    return operation == OP_FORMAT || operation == OP_READ || operation == OP_STORE || operation == OP_SCRATCH;
}

size_t operation_length(const uint8_t *operation, size_t left)
{
    enum operation sort = operation[0] % OPERATIONS;
    int literal = has_name(sort) && left > NAME_AT + 1 && operation[NAME_AT] % NAMES == LITERAL;
    return lengths[sort] + (literal ? operation[NAME_AT + 1] % LITERAL_LIMIT : 0u);
}

uint32_t random_number(uint64_t *state)
{
    *state = *state * 6364136223846793005u + 1442695040888963407u;
    return (uint32_t)(*state >> 33);
}

/* Half of the time another value: one at which a rule of the layout changes. */
static void favour_edges(uint64_t *state, uint8_t *argument)
{
    static const uint8_t edges[] = {
        0, 1, 2, 3, 16, 17, 18, 19, 20, 21, 35, 36, 40, 41, 0x41, 0x80, 0x81, 0x82, 0x83, 0x84, 0xA0, 0xC1, 0xC3, 254, 255,
    };
    if (random_number(state) % 2 == 0)
        *argument = edges[random_number(state) % sizeof edges];
}

/* An operation that damages: its last argument is the value mostly. */
static void favour_damage(uint64_t *state, uint8_t *operation)
{
    favour_edges(state, operation + lengths[operation[0]] - 1);
    if (operation[0] == OP_BYTE || operation[0] == OP_LINK)
        favour_edges(state, operation + lengths[operation[0]] - 2);
    if (operation[0] == OP_VERSION && random_number(state) % 4 != 0)
        operation[1] = 0x41;
    if (operation[0] == OP_REPAIR && random_number(state) % 4 != 0)
        operation[1] = 3;
}

size_t random_operation(uint64_t *state, uint8_t operation[OPERATION_BYTES])
{
    /* The calls that change a disk, and what makes an odd disk sound again, come more often. */
    static const uint8_t sorts[] = {
        OP_BYTE, OP_LINK, OP_LINK, OP_SLOT, OP_SLOT, OP_MAP_ENTRY, OP_MAP_BIT, OP_REPAIR, OP_REPAIR, OP_REPAIR,
        OP_COPY_SLOT, OP_COPY_SECTOR, OP_VERSION, OP_CHECK, OP_FORMAT, OP_READ, OP_READ, OP_READ, OP_STORE, OP_STORE,
        OP_STORE, OP_STORE, OP_STORE, OP_STORE, OP_SCRATCH, OP_SCRATCH, OP_SCRATCH, OP_TELL, OP_LISTING,
    };
    for (size_t i = 0; i < OPERATION_BYTES; i++)
        operation[i] = (uint8_t)random_number(state);
    operation[0] = sorts[random_number(state) % sizeof sorts];
    if (operation[0] < OP_CHECK)
        favour_damage(state, operation);
    else if (random_number(state) % 16 != 0)
        operation[2] = 0; /* an answer block of nine bytes */
    return operation_length(operation, OPERATION_BYTES);
}
