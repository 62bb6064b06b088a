/* The library under test is the archive as it is. */
#include "library.h"

const struct library *tested_library(void)
{
    static const struct library archive = {
        d64_check, d64_format, d64_read, d64_store, d64_scratch, d64_tell, d64_listing,
    };
    return &archive;
}
