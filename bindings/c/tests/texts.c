/* Prints each number up to 18 with the header's text for it, a line for each. */
#include <stdio.h>

#include "hornherder.h"

int main(void)
{
    uint32_t number;
    for (number = 0; number <= 18; number++)
        printf("%u %s\n", (unsigned)number, hornherder_refusal_text(number));
    return 0;
}
