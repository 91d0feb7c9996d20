/* Threads that are the first to use the library, all at once, agree about its seed. */
#include <stdio.h>

#include "config.h"

#ifdef HAVE_THREADS
#include <pthread.h>

#include "check.h"
#include "map.h"

static void *hash(void *answer)
{
    *(size_t *)answer = map_hash("key");
    return NULL;
}

int main(void)
{
    enum { COUNT = 8 };
    pthread_t threads[COUNT];
    size_t answers[COUNT];
    for (int i = 0; i < COUNT; i++)
        CHECK(pthread_create(&threads[i], NULL, hash, &answers[i]) == 0);
    for (int i = 0; i < COUNT; i++) {
        CHECK(pthread_join(threads[i], NULL) == 0);
        CHECK(answers[i] == answers[0]);
    }
    return failures != 0;
}
#else
/* 77 says that there was nothing to test. */
int main(void)
{
    puts("built without threads");
    return 77;
}
#endif
