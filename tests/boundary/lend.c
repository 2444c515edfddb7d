#include "lend.h"

#include <stdio.h>
#include <stdlib.h>
#include <string.h>
#include <sys/mman.h>
#include <unistd.h>

static void must(int good, const char *what)
{
    if (good)
        return;
    perror(what);
    exit(2);
}

struct lent lend(const void *elements, size_t count, size_t width, enum side side)
{
    struct lent l = {0};
    size_t page = (size_t)sysconf(_SC_PAGESIZE);
    l.count = count;
    l.bytes = count * width;
    l.open_bytes = (l.bytes / page + 1) * page;
    l.map_bytes = l.open_bytes + 2 * page;
    l.map = mmap(NULL, l.map_bytes, PROT_NONE, MAP_PRIVATE | MAP_ANONYMOUS, -1, 0);
    must(l.map != MAP_FAILED, "mmap");
    l.open = l.map + page;
    must(mprotect(l.open, l.open_bytes, PROT_READ | PROT_WRITE) == 0, "mprotect");
    memset(l.open, 0xa5, l.open_bytes);
    if (elements == NULL)
        return l;
    uint8_t *at = side == AT_START ? l.open : l.open + l.open_bytes - l.bytes;
    if (l.bytes != 0)
        memcpy(at, elements, l.bytes);
    l.at = at;
    return l;
}

void take_back(struct lent *l)
{
    must(munmap(l->map, l->map_bytes) == 0, "munmap");
}
