/* What the C tests share: a check, and how slices are lent. */
#include <stdio.h>
#include <string.h>

#include "../raspteal.h"

static int passed, failed;

static void check(bool ok, const char *what) {
    if (ok) {
        passed++;
        return;
    }
    failed++;
    printf("failed: %s\n", what);
}

#define CHECK(test) check((test), #test)
#define TEXT(s) (const uint8_t *)(s), sizeof(s) - 1
#define LIST(a) (a), sizeof(a) / sizeof((a)[0])
#define BUFFER(a) (a), sizeof(a)

#define U "00000000000000000000000000000000"

static const uint32_t buttons[] = {0x10130, 0x10131};
static const uint32_t axes[] = {0x30000};
static const raspteal_uuid one = {0, 1};
