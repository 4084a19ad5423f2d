/* Runs every call on a thread that has the stack that raspteal.h states and no more: RASPTEAL_STACK, and for the calls of
 * the store RASPTEAL_STACK_FOR their index. The stores, of the longest index for each of these, have as many records as
 * can be, with keys that were constructed against the search for one that stands twice. A call that takes
 * more ends the program. Says how much of the stack each took where there is an argument, the most in any case, and last
 * 'N passed, M failed'. */
#define _GNU_SOURCE
#include <pthread.h>
#include <stdio.h>
#include <stdlib.h>
#include <string.h>
#include <sys/mman.h>

#include "../raspteal.h"

#define PAGE 4096
#define PAINT 0xa5

/* The size of a store, and the number of buckets that its keys fall into. */
typedef struct {
    const char *name;
    size_t index, text, buckets;
} size;

static const size sizes[] = {
    {"small", RASPTEAL_SMALL_MAX, RASPTEAL_SMALL_MAX, 4096},
    {"double", 131072, RASPTEAL_TEXT_MAX / 8, 8192},
    {"fourfold", 262144, RASPTEAL_TEXT_MAX / 4, 16384},
    {"eightfold", 524288, RASPTEAL_TEXT_MAX / 2, 32768},
    {"large", RASPTEAL_INDEX_MAX, RASPTEAL_TEXT_MAX, 65535},
};

#define SPREAD 40000 /* ordinary keys of a list that files each twice: more lines than an insert keeps in mind at once */
#define LISTED 3000  /* constructed ones, which are filed once more */

static uint8_t *index_, *text, *kept_index, *kept_text, out[RASPTEAL_LINE_MAX];
static size_t index_len, text_len;
static uint32_t codes[RASPTEAL_LIST_MAX];
static char list[2 * SPREAD * 33 + 1], pad_line[RASPTEAL_LINE_MAX];
static raspteal_uuid pad;
static raspteal_party party;
static raspteal_data data;
static raspteal_mapping map;
static raspteal_entry entry;
static raspteal_element element;

#define STORE index_, index_len, text, text_len
#define CODES codes, RASPTEAL_LIST_MAX
#define OUT out, sizeof out
#define LINE (const uint8_t *)pad_line, strlen(pad_line)
#define NAME (const uint8_t *)"Seat 7", 6

#define CALLS                                                                                                          \
    X(same_bytes, (LINE, LINE))                                                                                        \
    X(write_bytes, (OUT, 0, LINE))                                                                                     \
    X(valid_up_to, (LINE))                                                                                             \
    X(is_utf8, (LINE))                                                                                                 \
    X(uuid_parse_str, (LINE))                                                                                          \
    X(uuid_write_simple, (pad, OUT, 0))                                                                                \
    X(uuid_without_checksum, (pad))                                                                                    \
    X(parse_u16, ((const uint8_t *)"65535", 5))                                                                        \
    X(index_len, (65535))                                                                                              \
    X(write_index, (OUT, 0, 65535))                                                                                    \
    X(button_to_nec, (1))                                                                                              \
    X(button_is_stick, (1))                                                                                            \
    X(button_is_dpad, (1))                                                                                             \
    X(axis_is_stick, (1))                                                                                              \
    X(axis_second_axis, (1))                                                                                           \
    X(element_is_button, (element))                                                                                    \
    X(element_eq, (element, element))                                                                                  \
    X(find_element, ((const uint8_t *)"leftx", 5))                                                                     \
    X(ident_of, (element))                                                                                             \
    X(entry_new, (5, element))                                                                                         \
    X(entry_ranged, (5, element, 2, 2, false))                                                                         \
    X(entry_number, (entry))                                                                                           \
    X(entry_of_number, (5))                                                                                            \
    X(mapping_new, ())                                                                                                 \
    X(mapping_put, (map, entry))                                                                                       \
    X(mapping_map, (map, 5))                                                                                           \
    X(mapping_entry, (map, 5))                                                                                         \
    X(lists_map, (CODES, CODES, 5))                                                                                    \
    X(mapping_map_rev, (map, element))                                                                                 \
    X(parser_start, (LINE))                                                                                            \
    X(parser_step, (LINE, 0, raspteal_parser_start(LINE)))                                                             \
    X(first_form, (LINE))                                                                                              \
    X(count_tokens, (LINE))                                                                                            \
    X(parse_sdl_mapping, (LINE, CODES, CODES))                                                                         \
    X(data_new, ())                                                                                                    \
    X(data_button, (data, 1))                                                                                          \
    X(data_axis, (data, 1))                                                                                            \
    X(data_insert_btn, (data, 5, 1))                                                                                   \
    X(data_insert_axis, (data, 5, 1))                                                                                  \
    X(data_remove_button, (data, 1))                                                                                   \
    X(data_remove_axis, (data, 1))                                                                                     \
    X(from_data, (data, CODES, CODES, NAME, pad, OUT))                                                                 \
    X(key_button, (0x10130))                                                                                           \
    X(key_table, ())                                                                                                   \
    X(default, (CODES, CODES))                                                                                         \
    X(entry_value, (entry, 2, 5))                                                                                      \
    X(mapping_event, (map, 5, 2, 5))                                                                                   \
    X(pad_new, ())                                                                                                     \
    X(pad_raw_event, (raspteal_pad_new(), 5, 2, 5))                                                                    \
    X(pad_change_map, (raspteal_pad_new(), map))                                                                       \
    X(pad_value, (raspteal_pad_new(), element))                                                                        \
    X(pads_new, ())                                                                                                    \
    X(pads_raw_event, (raspteal_pads_new(), true, 5, 2, 5))                                                            \
    X(pads_change_map, (raspteal_pads_new(), true, map))                                                               \
    X(pads_value, (raspteal_pads_new(), element))                                                                      \
    X(next_line, (LINE, 0))

#define STORE_CALLS                                                                                                    \
    X(store_insert, (STORE, party, (const uint8_t *)list, strlen(list)))                                               \
    X(store_found, (STORE, party, pad))                                                                                \
    X(store_get, (STORE, party, pad, OUT))                                                                             \
    X(store_found_near, (STORE, party, pad))                                                                           \
    X(store_get_near, (STORE, party, pad, OUT))                                                                        \
    X(store_save, (STORE, party, data, CODES, CODES, NAME, pad))                                                       \
    X(store_remove, (STORE, party, pad))                                                                               \
    X(store_set_share, (STORE, 7, 9))                                                                                  \
    X(store_share, (STORE, 7))                                                                                         \
    X(store_record_at, (index_, index_len, 0))                                                                         \
    X(store_clear, (STORE))

#define X(name, arguments) static void run_##name(void) { (void)raspteal_##name arguments; }
CALLS
STORE_CALLS
#undef X

/* Whether the store is sound. */
static bool sound;
static void run_sound(void) { sound = raspteal_store_share(STORE, 0).refusal.number == 0; }

typedef struct {
    const char *name;
    void (*run)(void);
} call;

#define X(name, arguments) {#name, run_##name},
static const call calls[] = {CALLS}, store_calls[] = {STORE_CALLS{"store_share", run_sound}};
#undef X
#define COUNT(a) (sizeof(a) / sizeof((a)[0]))

/* ---- Keys. A key's bucket is 31 high + low + 7919 owner modulo 65449 and then modulo their number; one with 17 keys
 * before it in its bucket makes the store sort all. */

typedef struct {
    raspteal_uuid id;
    uint8_t owner;
} key;

static key low_multiple(size_t k, size_t n, size_t buckets) {
    (void)n, (void)buckets;
    return (key){{0, 65449 * (k + 1)}, 0};
}

static key multiples(size_t k, size_t n, size_t buckets) {
    (void)n, (void)buckets;
    return (key){{65449 * (k * k % 99991), 65449 * (k + 1)}, 0};
}

static key too_long(size_t k, size_t n, size_t buckets) {
    (void)buckets;
    size_t chains = (n - 1 + 17) / 18;
    return k + 1 == n ? (key){{0, 0}, 0} : (key){{0, 65449 * (k + 1) + k % chains}, 0};
}

static key shared(size_t k, size_t n, size_t buckets) {
    (void)n;
    (void)buckets;
    size_t owner = 1 + k % 255, rest = 65449 - 7919 * owner % 65449;
    return (key){{65449 * (k + 1), 65449 * (k % 7) + rest}, (uint8_t)owner};
}

static key twice(size_t k, size_t n, size_t buckets) {
    return low_multiple(k + 1 < n ? k : 0, n, buckets);
}

static const struct {
    const char *name;
    key (*at)(size_t k, size_t n, size_t buckets);
    uint8_t party; /* the first key's */
    bool damaged;
} families[] = {
    {"one bucket, first halves alike", low_multiple, 0, false},
    {"one bucket", multiples, 0, false},
    {"long chains, one too long", too_long, 0, false},
    {"one bucket, 255 organisers", shared, 1, false},
    {"one bucket, the last key twice", twice, 0, true},
};

/* ---- Stores */

static uint8_t *put(uint8_t *to, uint64_t number, int width) {
    for (int k = width - 1; k >= 0; k--)
        *to++ = (uint8_t)(number >> 8 * k);
    return to;
}

/* How many records of lines of that length there is room for. */
static size_t most(size_t line, size_t owners_byte) {
    size_t n = 0, index = 0, used = 0;
    for (;; n++, used += line) {
        index += 21 + owners_byte + (used > RASPTEAL_SMALL_MAX ? 2 : 0);
        if (index > index_len || used + line > text_len)
            return n;
    }
}

/* The full store of a family's keys, and the list of its first ones. */
static void fill(size_t f, size_t line, size_t buckets) {
    size_t n = most(line, families[f].party), used = 0;
    uint8_t *to = kept_index;
    char *lines = list;
    memset(kept_index, 0, index_len);
    memset(kept_text, 0, text_len);
    memset(kept_text, 'n', n * line);
    for (size_t k = 0; k < n; k++, used += line) {
        key key = families[f].at(k, n, buckets);
        bool far = used > RASPTEAL_SMALL_MAX;
        *to++ = (uint8_t)(key.owner > 0 ? (far ? 5 : 3) : (far ? 2 : 1));
        if (key.owner > 0)
            *to++ = key.owner;
        to = put(put(put(put(to, key.id.high, 8), key.id.low, 8), used, far ? 4 : 2), line, 2);
        if (k < LISTED)
            lines += sprintf(lines, "%016llx%016llx\n", (unsigned long long)key.id.high, (unsigned long long)key.id.low);
    }
    party = (raspteal_party){families[f].party > 0, families[f].party};
    pad = families[f].at(n / 255 * 255, n, buckets).id;
}

/* A fresh store, and a list of ordinary keys. */
static void spread(void) {
    char *lines = list;
    memset(kept_index, 0, index_len);
    memset(kept_text, 0, text_len);
    for (size_t k = 0; k < 2 * SPREAD; k++) {
        unsigned long long number = k % SPREAD + 1;
        lines += sprintf(lines, "%016llx%016llx\n", number * 0x9e3779b97f4a7c15, number);
    }
    party = RASPTEAL_HALL;
    pad = (raspteal_uuid){0, 1};
}

/* What the other calls are called with: a map of 256 codes, slots, and a line with many pairs. */
static void prepare(void) {
    char *to = pad_line + sprintf(pad_line, "%032x,Pad,", 0);
    for (uint32_t k = 0; k < RASPTEAL_LIST_MAX; k++)
        codes[k] = k;
    map = raspteal_mapping_new();
    for (uint32_t k = 0; k < RASPTEAL_CODES_MAX; k++) {
        to += sprintf(to, "leftx:a%u,", k);
        map = raspteal_mapping_put(map, raspteal_entry_new(k, (raspteal_element){true, 1})).map;
    }
    element = (raspteal_element){true, 1};
    entry = map.entries[5];
    data = raspteal_data_insert_btn(raspteal_data_new(), 5, 1).slots;
}

/* ---- Runs */

static int passed, failed;
static bool telling;

static void *on_thread(void *run) {
    (*(void (*const *)(void))run)();
    return NULL;
}

/* How many bytes of its stack a call took, 0 where no thread could be made. */
static size_t taken(void (*const *run)(void), uint8_t *stack, size_t len) {
    pthread_attr_t attributes;
    pthread_t thread;
    size_t clean = 0;
    memset(stack, PAINT, len);
    if (pthread_attr_init(&attributes) != 0 || pthread_attr_setstack(&attributes, stack, len) != 0 ||
        pthread_create(&thread, &attributes, on_thread, (void *)run) != 0)
        return 0;
    pthread_join(thread, NULL);
    pthread_attr_destroy(&attributes);
    while (clean < len && stack[clean] == PAINT)
        clean++;
    return len - clean;
}

typedef struct {
    size_t bytes;
    const char *name;
} deepest;

/* Runs calls, each on the store that was kept, and hands back the one that took the most. */
static deepest run(const call *c, size_t n, const char *on, uint8_t *stack, size_t len) {
    deepest most = {0, ""};
    for (; n > 0; n--, c++) {
        memcpy(index_, kept_index, index_len);
        memcpy(text, kept_text, text_len);
        size_t bytes = taken(&c->run, stack, len);
        passed += bytes > 0;
        failed += bytes == 0;
        if (bytes == 0)
            printf("failed: %s has no thread\n", c->name);
        if (telling)
            printf("%s, %s: %zu KB\n", c->name, on, bytes / 1024);
        if (bytes > most.bytes)
            most = (deepest){bytes, c->name};
    }
    return most;
}

static deepest deeper(deepest a, deepest b) { return a.bytes < b.bytes ? b : a; }

/* A stack, with a page below it that nobody may touch. */
static uint8_t *new_stack(size_t len) {
    uint8_t *room = mmap(NULL, PAGE + len, PROT_READ | PROT_WRITE, MAP_PRIVATE | MAP_ANONYMOUS, -1, 0);
    if (room == MAP_FAILED || mprotect(room, PAGE, PROT_NONE) != 0) {
        perror("a stack");
        exit(1);
    }
    return room + PAGE;
}

/* The store's calls on every family's stores of one size. */
static void run_size(const size *s) {
    size_t len = RASPTEAL_STACK_FOR(s->index);
    uint8_t *stack = new_stack(len);
    index_len = s->index;
    text_len = s->text;
    spread();
    deepest most = run(store_calls, COUNT(store_calls), "fresh", stack, len);
    for (size_t f = 0; f < COUNT(families); f++)
        for (size_t line = 1; line <= 33; line += 32) {
            fill(f, line, s->buckets);
            most = deeper(most, run(store_calls, COUNT(store_calls), families[f].name, stack, len));
            if (sound == families[f].damaged)
                printf("failed: a %s store is not as it was constructed: %s\n", s->name, families[f].name);
            passed += sound != families[f].damaged;
            failed += sound == families[f].damaged;
        }
    printf("the most stack on a %s store was taken by %s: %zu KB of %zu\n", s->name, most.name, most.bytes / 1024,
           len / 1024);
}

int main(int argc, char **argv) {
    (void)argv;
    telling = argc > 1;
    index_ = malloc(RASPTEAL_INDEX_MAX);
    text = malloc(RASPTEAL_TEXT_MAX);
    kept_index = malloc(RASPTEAL_INDEX_MAX);
    kept_text = malloc(RASPTEAL_TEXT_MAX);
    if (index_ == NULL || text == NULL || kept_index == NULL || kept_text == NULL) {
        perror("buffers");
        return 1;
    }
    prepare();
    deepest most = run(calls, COUNT(calls), "no store", new_stack(RASPTEAL_STACK), RASPTEAL_STACK);
    printf("of the calls without a store %s took the most: %zu KB\n", most.name, most.bytes / 1024);
    for (size_t k = 0; k < COUNT(sizes); k++)
        run_size(&sizes[k]);
    printf("%d passed, %d failed\n", passed, failed);
    return failed != 0;
}
