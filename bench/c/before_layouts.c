/* The calls of an archive from before layouts, as prefix_d64_*, behind the prototypes of d64.h: layout 0 is put in front. */
#include "d64.h"

#define NAME(prefix, call) JOIN(prefix, call)
#define JOIN(prefix, call) prefix##call
#define OF(call) NAME(PREFIX, without_##call)
#define MINE(call) NAME(PREFIX, call)

uint32_t OF(d64_check)(const uint8_t *, size_t, uint8_t *, size_t);
uint32_t OF(d64_format)(uint8_t *, size_t, const uint8_t *, size_t, uint8_t, uint8_t, uint8_t *, size_t);
uint32_t OF(d64_read)(const uint8_t *, size_t, const uint8_t *, size_t, uint8_t *, size_t, uint8_t *, size_t);
uint32_t OF(d64_store)(uint8_t *, size_t, const uint8_t *, size_t, uint32_t, const uint8_t *, size_t, uint8_t *, size_t);
uint32_t OF(d64_scratch)(uint8_t *, size_t, const uint8_t *, size_t, uint8_t *, size_t);
uint32_t OF(d64_listing)(const uint8_t *, size_t, uint8_t *, size_t, uint8_t *, size_t);

uint32_t MINE(d64_check)(uint32_t layout, const uint8_t *i, size_t il, uint8_t *a, size_t al)
{
    return layout != 0 ? D64_UNKNOWN_LAYOUT : OF(d64_check)(i, il, a, al);
}

uint32_t MINE(d64_format)(uint32_t layout, uint8_t *i, size_t il, const uint8_t *n, size_t nl, uint8_t id1, uint8_t id2, uint8_t *a, size_t al)
{
    return layout != 0 ? D64_UNKNOWN_LAYOUT : OF(d64_format)(i, il, n, nl, id1, id2, a, al);
}

uint32_t MINE(d64_read)(uint32_t layout, const uint8_t *i, size_t il, const uint8_t *n, size_t nl, uint8_t *o, size_t ol, uint8_t *a, size_t al)
{
    return layout != 0 ? D64_UNKNOWN_LAYOUT : OF(d64_read)(i, il, n, nl, o, ol, a, al);
}

uint32_t MINE(d64_store)(uint32_t layout, uint8_t *i, size_t il, const uint8_t *n, size_t nl, uint32_t kind, const uint8_t *d, size_t dl, uint8_t *a,
                         size_t al)
{
    return layout != 0 ? D64_UNKNOWN_LAYOUT : OF(d64_store)(i, il, n, nl, kind, d, dl, a, al);
}

uint32_t MINE(d64_scratch)(uint32_t layout, uint8_t *i, size_t il, const uint8_t *n, size_t nl, uint8_t *a, size_t al)
{
    return layout != 0 ? D64_UNKNOWN_LAYOUT : OF(d64_scratch)(i, il, n, nl, a, al);
}

uint32_t MINE(d64_listing)(uint32_t layout, const uint8_t *t, size_t tl, uint8_t *o, size_t ol, uint8_t *a, size_t al)
{
    return layout != 0 ? D64_UNKNOWN_LAYOUT : OF(d64_listing)(t, tl, o, ol, a, al);
}
