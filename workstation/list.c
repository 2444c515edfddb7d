/* list REFERENCE UNIT: prints the listing of a unit. */
#include "unit.h"

#include <stdlib.h>

static struct source reference, file;
static struct unit unit;

int main(int argc, char **argv)
{
    if (argc != 3) {
        fprintf(stderr, "usage: %s REFERENCE UNIT\n", argv[0]);
        return 2;
    }
    open_source(&reference, argv[1]);
    open_source(&file, argv[2]);
    read_front(&unit, &reference, &file);
    print(unit.first, unit.first_length);
    if (unit.alone)
        return finish();
    if (unit.refusal != 0) {
        print_refused(0, unit.refusal);
        return finish();
    }
    uint32_t state[LAMPBUCKLE_STATE] = {0};
    list_records(&unit, &file, state);
    return finish();
}
