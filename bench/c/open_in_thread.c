/* Opens the example of docs/graph-file.md in a thread whose stack has as many bytes as the argument says, and settles
   it. Prints how many rule rows it has and which items are active. The status is 0 if both are as the pages say. */
#include <pthread.h>
#include <stddef.h>
#include <stdint.h>
#include <stdio.h>
#include <stdlib.h>
#include <string.h>

/* The calls of the library; docs/other-languages.md says what they answer. */
uint64_t naiadiron_open(const uint8_t *file, size_t bytes, uint32_t *words, size_t room);
uint64_t naiadiron_settle(const uint32_t *words, size_t count, const uint32_t *requests, size_t requested,
                          uint32_t budget, uint32_t *active, size_t room);

/* The file, a record on each line. */
static const char example[] =
    "\004\0\0\0\001\0" "\001\0"
    "\007\0\0\0\002\0" "\0\003app"
    "\015\0\0\0\003\0" "\001\0\0\001\0\004core\0"
    "\014\0\0\0\003\0" "\002\0\001\0\001\003gen\0"
    "\016\0\0\0\004\0" "\007default\001\002io"
    "\031\0\0\0\004\0" "\002io\002\010dep:core\011core?/std"
    "\010\0\0\0\002\0" "\0\004core"
    "\007\0\0\0\004\0" "\003std\0"
    "\012\0\0\0\004\0" "\002rt\001\003std"
    "\007\0\0\0\002\0" "\0\003gen"
    "\020\0\0\0\003\0" "\001\0\0\0\0\004core\001\002rt"
    "\002\0\0\0\005\0";

enum { FILE_BYTES = sizeof example - 1, ROWS = 10, WORDS = 4 + 5 * ROWS, ITEMS = 20 };

/* The unit of the first package and its feature `default`, and what they make active, in the order of the trail. */
static const uint32_t requests[] = {0, 6};
static const uint32_t wanted[] = {0, 6, 4, 7, 12, 3, 8, 15, 1, 11, 19, 18};

static int failed = 1;

static void *open_and_settle(void *nothing)
{
    uint32_t words[WORDS] = {0}, active[ITEMS] = {0};
    uint64_t rows = naiadiron_open((const uint8_t *)example, FILE_BYTES, words, WORDS);
    if (rows == 0) {
        puts("refused");
        return nothing;
    }
    printf("%llu rows\n", (unsigned long long)rows - 1);
    uint64_t count = naiadiron_settle(words, WORDS, requests, 2, UINT32_MAX, active, ITEMS);
    if (count == 0 || count == UINT64_MAX) {
        puts("not settled");
        return nothing;
    }
    printf("%llu active items:", (unsigned long long)count - 1);
    for (uint64_t k = 0; k < count - 1; k++)
        printf(" %u", (unsigned)active[k]);
    puts("");
    failed = rows != ROWS + 1 || (count - 1) * sizeof *active != sizeof wanted
             || memcmp(active, wanted, sizeof wanted) != 0;
    return nothing;
}

int main(int count, char **arguments)
{
    pthread_attr_t attributes;
    pthread_t thread;
    if (count != 2) {
        fprintf(stderr, "usage: %s BYTES\n", arguments[0]);
        return 2;
    }
    if (pthread_attr_init(&attributes) != 0
        || pthread_attr_setstacksize(&attributes, strtoul(arguments[1], NULL, 10)) != 0
        || pthread_create(&thread, &attributes, open_and_settle, NULL) != 0) {
        fprintf(stderr, "no thread with a stack of %s bytes\n", arguments[1]);
        return 2;
    }
    pthread_join(thread, NULL);
    return failed;
}
