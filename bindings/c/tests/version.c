/* Asks the library for its version, and prints 'right' where it is the header's. */
#include <stdio.h>

#include "hornherder.h"

int main(void)
{
    puts(hornherder_version() == HORNHERDER_VERSION ? "right" : "wrong");
    return 0;
}
