/* What the board must stop: `faults unaligned` changes a word at an odd place, `faults null` follows a null pointer. Ends with 0 if it can. */
#include <stdint.h>
#include <string.h>

static uint8_t bytes[8];
static volatile uint32_t *volatile place = (uint32_t *)(bytes + 1); /* where, the compiler is not to know */

int main(int argc, char **argv)
{
    if (argc == 2 && strcmp(argv[1], "null") == 0)
        place = 0;
    *place = *place + 1;
    return 0;
}
