#include <stdlib.h>

#include "check.h"
#include "map.h"

int main(void)
{
    enum { COUNT = 1000 };
    static char keys[COUNT][8];
    struct map map = { NULL, 0, 0 };
    size_t value;
    CHECK(!map_find(&map, "absent", &value));
    for (size_t i = 0; i < COUNT; i++) {
        snprintf(keys[i], sizeof keys[i], "k%zu", i);
        CHECK(map_add(&map, keys[i], i));
    }
    CHECK(map.count == COUNT);
    for (size_t i = 0; i < COUNT; i++)
        CHECK(map_find(&map, keys[i], &value) && value == i);
    CHECK(!map_find(&map, "k1000", &value));
    CHECK(map_add(&map, "", 7) && map_find(&map, "", &value) && value == 7);
    map_free(&map);
    CHECK(!map_find(&map, "k1", &value));
    return failures != 0;
}
