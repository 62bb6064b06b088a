/* Does, whatever it is asked for, what the sanitizers are there to find: UNSOUND names it (tests/tool/selftest). */
#include <stdlib.h>
#include <string.h>

static char *volatile kept;

int main(int count, char **values)
{
    const char *fault = getenv("UNSOUND");
    int number = 0x7FFFFFFF;

    (void)values;
    kept = malloc(4);
    if (fault == NULL || kept == NULL)
        return 64;
    if (strcmp(fault, "memory") == 0)
        kept[count + 3] = 1;
    if (strcmp(fault, "number") == 0)
        number += count;
    if (strcmp(fault, "leak") != 0)
        free(kept);
    kept = NULL;
    return number == 1;
}
