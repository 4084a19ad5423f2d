/* Stores beyond 65535 bytes: the limits, lines on either side of offset 65536, long shares, damage. Prints a line for
 * each check that fails, and last 'N passed, M failed'. */
#include "checks.h"

#include <stdlib.h>

#define HALL RASPTEAL_HALL

/* A store over a heap, as long as it is said to be. */
typedef struct {
    uint8_t *index, *text;
    size_t index_len, text_len;
} store;
#define STORE(s) (s)->index, (s)->index_len, (s)->text, (s)->text_len

static store new_store(size_t index_len, size_t text_len) {
    store s = {calloc(index_len + 1, 1), calloc(text_len + 1, 1), index_len, text_len};
    if (s.index == NULL || s.text == NULL) {
        perror("a store");
        exit(1);
    }
    return s;
}

static void drop(store *s) {
    free(s->index);
    free(s->text);
}

static raspteal_uuid uuid(uint64_t k) { return (raspteal_uuid){0, k}; }

/* A line of that length under the UUID of that number: the UUID, a comma, and letters. */
static const uint8_t *line(uint64_t k, size_t len) {
    static char made[RASPTEAL_LINE_MAX + 2];
    memset(made, 'n', sizeof made);
    made[snprintf(made, sizeof made, "%032llx,", (unsigned long long)k)] = 'n';
    made[len < 33 ? 33 : len] = 0;
    return (const uint8_t *)made;
}

/* Files a line; the number of its refusal. */
static int file(store *s, raspteal_party party, uint64_t k, size_t len) {
    return raspteal_store_insert(STORE(s), party, line(k, len), len).refusal.number;
}

static int found(store *s, raspteal_party party, uint64_t k) {
    raspteal_look l = raspteal_store_found(STORE(s), party, uuid(k));
    return l.refusal.number != 0 ? l.refusal.number : l.found;
}

/* Whether the line is held just as it was filed. */
static bool holds(store *s, raspteal_party party, uint64_t k, size_t len) {
    static uint8_t out[RASPTEAL_LINE_MAX];
    raspteal_written w = raspteal_store_get(STORE(s), party, uuid(k), out, sizeof out);
    return w.fits && w.next == len && memcmp(out, line(k, len), len) == 0;
}

typedef struct {
    uint8_t owner;
    uint64_t k;
    size_t len;
} held;

static uint8_t *put(uint8_t *to, uint64_t number, int width) {
    for (int i = width - 1; i >= 0; i--)
        *to++ = (uint8_t)(number >> 8 * i);
    return to;
}

/* Whether both buffers are those of these lines and no shares, byte by byte. */
static bool is(store *s, const held *h, size_t n) {
    store want = new_store(s->index_len + 24, s->text_len + RASPTEAL_LINE_MAX);
    uint8_t *to = want.index;
    size_t used = 0;
    for (; n > 0 && used <= s->text_len && to <= want.index + s->index_len; n--, h++) {
        bool far = used > 65535;
        *to++ = h->owner > 0 ? (far ? 5 : 3) : (far ? 2 : 1);
        if (h->owner > 0)
            *to++ = h->owner;
        to = put(put(put(put(to, 0, 8), h->k, 8), used, far ? 4 : 2), h->len, 2);
        memcpy(want.text + used, line(h->k, h->len), h->len);
        used += h->len;
    }
    bool same = n == 0 && memcmp(want.index, s->index, s->index_len) == 0;
    same = same && memcmp(want.text, s->text, s->text_len) == 0;
    drop(&want);
    return same;
}
#define IS(s, h) is(s, h, sizeof(h) / sizeof((h)[0]))

/* Five lines of the hall that fill the text up to an offset from 65535 on. */
#define UP_TO(offset) {0, 1, 16384}, {0, 2, 16384}, {0, 3, 16384}, {0, 4, 33}, {0, 5, (offset) - 49185}

static void file_all(store *s, const held *h, size_t n) {
    for (size_t i = 0; i < n; i++)
        CHECK(file(s, (raspteal_party){h[i].owner > 0, h[i].owner}, h[i].k, h[i].len) == 0);
}

static void limits(void) {
    static const struct {
        size_t index, text;
        bool over;
    } sizes[] = {
        {RASPTEAL_INDEX_MAX, RASPTEAL_TEXT_MAX, false}, {RASPTEAL_INDEX_MAX + 1, 10, true},
        {10, RASPTEAL_TEXT_MAX + 1, true},              {RASPTEAL_INDEX_MAX + 1, RASPTEAL_TEXT_MAX + 1, true},
        {RASPTEAL_SMALL_MAX + 1, 100, false},           {100, RASPTEAL_SMALL_MAX + 1, false},
    };
    for (size_t k = 0; k < sizeof sizes / sizeof sizes[0]; k++) {
        store s = new_store(sizes[k].index, sizes[k].text);
        CHECK(found(&s, HALL, 1) == (sizes[k].over ? 19 : 0));
        CHECK(file(&s, HALL, 1, 33) == (sizes[k].over ? 19 : 0));
        CHECK(raspteal_store_found_near(STORE(&s), HALL, uuid(1)).how == !sizes[k].over);
        CHECK(raspteal_store_share(STORE(&s), 0).used == (sizes[k].over ? 0 : 33));
        CHECK(raspteal_store_set_share(STORE(&s), 7, 1).number == (sizes[k].over ? 19 : 0));
        raspteal_data d = raspteal_data_insert_btn(raspteal_data_new(), 0x10130, 1).slots;
        raspteal_answer a = raspteal_store_save(STORE(&s), HALL, d, LIST(buttons), LIST(axes), TEXT("T"), one);
        CHECK(a.refusal.number == (sizes[k].over ? 19 : 0) && a.map.count == !sizes[k].over);
        s.index[0] = 9;
        CHECK(raspteal_store_clear(STORE(&s)).number == (sizes[k].over ? 23 : 0));
        CHECK(s.index[0] == (sizes[k].over ? 9 : 0) && found(&s, HALL, 1) == (sizes[k].over ? 19 : 0));
        drop(&s);
    }
}

/* As many lines as the index has records for, and as the text has bytes for. */
static void full(void) {
    size_t near = 65536 / 32, all = near + (RASPTEAL_INDEX_MAX - 21 * near) / 23;
    store s = new_store(RASPTEAL_INDEX_MAX, RASPTEAL_TEXT_MAX);
    size_t longest = RASPTEAL_TEXT_MAX / RASPTEAL_LINE_MAX;
    char *list = malloc(longest * (RASPTEAL_LINE_MAX + 1) + 1), *to = list;
    if (list == NULL)
        exit(1);
    for (size_t k = 1; k <= all + 1; k++)
        to += sprintf(to, "%032zx\n", k);
    raspteal_inserted i = raspteal_store_insert(STORE(&s), HALL, (const uint8_t *)list, (size_t)(to - list));
    CHECK(i.refusal.number == 21 && i.count == all);
    CHECK(found(&s, HALL, 1) == 1 && found(&s, HALL, all) == 1 && found(&s, HALL, all + 1) == 0);
    CHECK(raspteal_store_share(STORE(&s), 0).used == 32 * all);
    CHECK(raspteal_store_clear(STORE(&s)).number == 0 && found(&s, HALL, 1) == 0);
    to = list;
    for (uint64_t k = 1; k <= longest; k++)
        to += sprintf(to, "%s\n", line(k, RASPTEAL_LINE_MAX));
    i = raspteal_store_insert(STORE(&s), HALL, (const uint8_t *)list, (size_t)(to - list));
    CHECK(i.refusal.number == 0 && i.count == longest);
    free(list);
    CHECK(holds(&s, HALL, 1, RASPTEAL_LINE_MAX) && holds(&s, HALL, longest, RASPTEAL_LINE_MAX));
    CHECK(file(&s, HALL, 5000, 33) == 25 && file(&s, HALL, 5000, RASPTEAL_LINE_MAX + 1) == 20);
    CHECK(file(&s, HALL, 1, 33) == 0 && file(&s, HALL, 5000, RASPTEAL_LINE_MAX - 33) == 0);
    CHECK(file(&s, HALL, 1, 34) == 25 && holds(&s, HALL, 1, 33) && holds(&s, HALL, 2, RASPTEAL_LINE_MAX));
    drop(&s);
}

/* A list of lines of 32 bytes, under the UUIDs from 1 on. */
static char *short_lines(size_t n) {
    char *list = malloc(33 * n + 1), *to = list;
    if (list == NULL)
        exit(1);
    for (size_t k = 1; k <= n; k++)
        to += sprintf(to, "%032zx\n", k);
    return list;
}

/* A full index of that length; a line of it saved, and all lines filed again, which leave the store as it was. */
static void full_index(size_t index_len) {
    size_t near = 65536 / 32, all = near + (index_len - 21 * near) / 23;
    store s = new_store(index_len, 32 * all + 100), was = new_store(index_len, 32 * all + 100);
    char *list = short_lines(all + 1);
    const uint8_t *lines = (const uint8_t *)list;
    raspteal_inserted i = raspteal_store_insert(STORE(&s), HALL, lines, 33 * (all + 1));
    CHECK(i.refusal.number == 21 && i.count == all);
    memcpy(was.index, s.index, s.index_len);
    memcpy(was.text, s.text, s.text_len);
    CHECK(found(&s, HALL, 1) == 1 && found(&s, HALL, all) == 1 && found(&s, HALL, all + 1) == 0);
    CHECK(raspteal_store_found_near(STORE(&s), HALL, uuid(all)).how == 1);
    CHECK(raspteal_store_share(STORE(&s), 0).used == 32 * all);
    raspteal_data d = raspteal_data_insert_btn(raspteal_data_new(), 0x10130, 1).slots;
    CHECK(raspteal_store_save(STORE(&s), HALL, d, LIST(buttons), LIST(axes), TEXT("T"), uuid(7)).refusal.number == 0);
    CHECK(found(&s, HALL, 7) == 1 && found(&s, HALL, all) == 1 && memcmp(was.index, s.index, s.index_len) != 0);
    i = raspteal_store_insert(STORE(&s), HALL, lines, 33 * (all + 1));
    CHECK(i.refusal.number == 21 && i.count == all);
    CHECK(memcmp(was.index, s.index, s.index_len) == 0 && memcmp(was.text, s.text, s.text_len) == 0);
    size_t left = index_len - 21 * near - 23 * (all - near);
    CHECK(raspteal_store_set_share(STORE(&s), 7, 1).number == (left < 4 ? 21 : 0));
    free(list);
    drop(&was);
    drop(&s);
}

/* Indexes on either side of each length from which on a call takes a larger table, and at lengths between. */
static void tables(void) {
    static const size_t lengths[] = {65535,  65536,  65537,  131072, 131073,
                                     262144, 262145, 524288, 524289, RASPTEAL_INDEX_MAX};
    for (size_t k = 0; k < sizeof lengths / sizeof lengths[0]; k++)
        full_index(lengths[k]);
}

/* A line at an offset from 65534 to 65537, of the hall and of an organiser: in an index that has just the room for its
 * record, and in one of one byte less. */
static void borders(void) {
    for (size_t offset = 65534; offset <= 65537; offset++)
        for (uint8_t owner = 0; owner < 8; owner += 7)
            for (size_t less = 0; less < 2; less++) {
                const held h[] = {UP_TO(offset), {owner, 6, 40}};
                store s = new_store(5 * 21 + 21 + (owner > 0) + (offset > 65535 ? 2 : 0) - less, 70000);
                file_all(&s, h, 5);
                CHECK(file(&s, (raspteal_party){owner > 0, owner}, 6, 40) == (less ? 21 : 0));
                CHECK(is(&s, h, less ? 5 : 6) && holds(&s, HALL, 5, offset - 49185));
                drop(&s);
            }
}

/* Lines that are filed anew, and the others close up: across the border both ways. */
static void refilings(void) {
    const held first[] = {UP_TO(65536), {0, 6, 40}, {7, 6, 40}};
    const held second[] = {{0, 1, 16384}, {0, 2, 16384}, {0, 3, 16384}, {0, 5, 16351},
                           {0, 6, 40},    {7, 6, 40},    {0, 4, 33}};
    const held third[] = {{0, 1, 16384}, {0, 2, 16384}, {0, 3, 16384}, {0, 5, 16351},
                          {0, 6, 40},    {0, 4, 33},    {7, 6, 34}};
    const held fourth[] = {{0, 2, 16384}, {0, 3, 16384}, {0, 5, 16351}, {0, 6, 40},
                           {0, 4, 33},    {7, 6, 34},    {0, 1, 16384}};
    const held fifth[] = {{0, 2, 16384}, {0, 3, 16384}, {0, 5, 16351}, {0, 4, 33},
                          {7, 6, 34},    {0, 1, 16384}, {0, 6, 40}};
    const raspteal_party seven = {true, 7};
    store s = new_store(5 * 21 + 23 + 24, 70000);
    file_all(&s, first, 7);
    CHECK(IS(&s, first) && found(&s, seven, 6) == 1);
    /* the hall's line behind it becomes short, the organiser's stays long */
    CHECK(file(&s, HALL, 4, 33) == 0 && IS(&s, second));
    CHECK(file(&s, seven, 6, 34) == 0 && IS(&s, third));
    /* all of them short; then one long again */
    CHECK(file(&s, HALL, 1, 16384) == 0 && IS(&s, fourth));
    CHECK(file(&s, HALL, 6, 40) == 0 && IS(&s, fifth));
    CHECK(raspteal_store_clear(STORE(&s)).number == 0 && is(&s, NULL, 0));
    drop(&s);
}

/* An equal line is refused where its own record grows and the index is full; two bytes more, and it goes. */
static void counted(void) {
    const held before[] = {{0, 1, 40}, {0, 2, 16384}, {0, 3, 16384}, {0, 4, 16384}, {0, 5, 16343}, {0, 6, 41}};
    const held after[] = {{0, 2, 16384}, {0, 3, 16384}, {0, 4, 16384}, {0, 5, 16343}, {0, 6, 41}, {0, 1, 40}};
    for (size_t more = 0; more <= 2; more++) {
        store s = new_store(6 * 21 + more, 70000);
        file_all(&s, before, 6);
        CHECK(file(&s, HALL, 1, 40) == (more < 2 ? 21 : 0) && is(&s, more < 2 ? before : after, 6));
        drop(&s);
    }
}

/* Shares of 65535 and 65536: kind 4 and kind 6, with four and six bytes of the index. */
static void long_shares(void) {
    for (size_t len = 3; len <= 7; len++) {
        store s = new_store(len, 200000);
        CHECK(raspteal_store_set_share(STORE(&s), 7, 65536).number == (len < 6 ? 21 : 0));
        CHECK(memcmp(s.index, len < 6 ? "\0\0\0\0\0" : "\6\7\0\1\0\0", len < 6 ? len : 6) == 0);
        CHECK(raspteal_store_share(STORE(&s), 7).share == (len < 6 ? 0 : 65536));
        CHECK(raspteal_store_set_share(STORE(&s), 7, 65535).number == (len < 4 ? 21 : 0));
        CHECK(memcmp(s.index, len < 4 ? "\0\0\0" : "\4\7\xff\xff\0\0\0", len) == 0);
        CHECK(raspteal_store_set_share(STORE(&s), 7, 200001).number == 26);
        CHECK(raspteal_store_set_share(STORE(&s), 7, 65536).number == (len < 6 ? 21 : 0));
        drop(&s);
    }
    store s = new_store(100, 200000);
    CHECK(raspteal_store_set_share(STORE(&s), 9, 5).number == 0 && file(&s, HALL, 1, 33) == 0);
    CHECK(raspteal_store_set_share(STORE(&s), 255, 65535).number == 0);
    CHECK(raspteal_store_set_share(STORE(&s), 3, 131072).number == 0);
    CHECK(memcmp(s.index, "\6\3\0\2\0\0\4\x09\0\5\4\xff\xff\xff\1", 15) == 0 && holds(&s, HALL, 1, 33));
    CHECK(raspteal_store_set_share(STORE(&s), 0, 3388).number == 0);
    CHECK(raspteal_store_set_share(STORE(&s), 0, 3389).number == 26);
    CHECK(raspteal_store_set_share(STORE(&s), 3, 0).number == 0 && raspteal_store_share(STORE(&s), 3).share == 0);
    CHECK(raspteal_store_share(STORE(&s), 9).share == 5 && holds(&s, HALL, 1, 33));
    /* a share beyond the text is sound; one of 65535 in four bytes is not */
    CHECK(raspteal_store_clear(STORE(&s)).number == 0);
    memcpy(s.index, "\6\7\xff\xff\xff\xff", 6);
    CHECK(raspteal_store_share(STORE(&s), 7).share == 4294967295 && found(&s, HALL, 1) == 0);
    CHECK(file(&s, HALL, 1, 33) == 25 && raspteal_store_set_share(STORE(&s), 7, 9).number == 0 && s.index[0] == 4);
    memcpy(s.index, "\6\7\0\0\xff\xff", 6);
    CHECK(found(&s, HALL, 1) == 19 && raspteal_store_share(STORE(&s), 7).refusal.number == 19);
    drop(&s);
}

/* What stands at each byte of an index: a kind, the owner of a share (g) or of a line (o), a share, a UUID, a number, a
 * zero. */
#define ID "uuuuuuuuuuuuuuuu"
#define HALLS "k" ID "nnnn"
static const char bytes[] = "kgssss" HALLS HALLS HALLS HALLS HALLS "ko" ID "nnnn" "k" ID "nnnnnn" "ko" ID "nnnnnn" "000";

/* Each byte of records of kinds 6, 1, 3, 2 and 5 has every other value in turn. Whose a record is may change, and its
 * UUID, and a share that stays above 65535; all else is 19. */
static void damaged(void) {
    static const held h[] = {{0, 257, 16384}, {0, 514, 16384}, {0, 771, 16384},  {0, 1028, 33},
                             {0, 1285, 16345}, {9, 1542, 34},  {0, 1799, 35},    {8, 2056, 36}};
    store s = new_store(sizeof bytes - 1, 65530 + 34 + 35 + 36);
    file_all(&s, h, 8);
    CHECK(IS(&s, h));
    memmove(s.index + 6, s.index, s.index_len - 6);
    memcpy(s.index, "\6\5\0\1\0\x40", 6);
    size_t unlike = 0;
    for (size_t at = 0; at < s.index_len; at++) {
        uint8_t was = s.index[at];
        for (unsigned value = 0; value < 256; value++) {
            s.index[at] = (uint8_t)value;
            bool sound = value == was || bytes[at] == 'u' || bytes[at] == 'g' || (bytes[at] == 'o' && value > 0) ||
                         (bytes[at] == 's' && (s.index[2] | s.index[3]) != 0);
            unlike += (found(&s, HALL, 99) != 19) != sound;
        }
        s.index[at] = was;
    }
    CHECK(unlike == 0);
    CHECK(holds(&s, (raspteal_party){true, 8}, 2056, 36) && raspteal_store_share(STORE(&s), 5).share == 65600);
    drop(&s);
}

int main(void) {
    limits();
    full();
    tables();
    borders();
    refilings();
    counted();
    long_shares();
    damaged();
    printf("%d passed, %d failed\n", passed, failed);
    return failed != 0;
}
