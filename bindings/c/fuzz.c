/* Random callers of the library: lines made of those of real lists, cut and mixed; stores of any length, sound or
 * damaged; lists and outputs of any length. Each lent buffer ends at a page that nobody may touch and has marked bytes
 * before it, so that a byte read or written behind it ends the program, and one written before it is told. What a
 * refusal must leave alone is compared, a saved line is looked up and read back.
 *
 * `bindings/c/fuzz` builds and runs it: with libFuzzer where there is a clang (LLVMFuzzerTestOneInput), else by itself:
 * fuzz SECONDS SEED LIST.. The last line is 'N passed, M failed'. */
#define _GNU_SOURCE
#include <stdio.h>
#include <stdlib.h>
#include <string.h>
#include <sys/mman.h>
#include <time.h>

#include "../raspteal.h"

#define PAGE 4096
#define ROOM (80 * PAGE)
#define MARK 0xc7
#define MARKED 64
#define BUILT_MAX (RASPTEAL_NAME_MAX + 352) /* bytes of the longest line that is built */

enum { INDEX, TEXT, LINE, BUTTONS, AXES, NAME, OUT, SPACES };

static uint8_t *ends[SPACES];
static size_t lent[SPACES];
static const uint8_t *input, *input_end; /* the fuzzer's bytes, then numbers of our own */
static uint64_t state = 1;
static const char *seeds = "";
static size_t seeds_len;
static unsigned long passed, failed, met[256]; /* met: how often each refusal, 0 for none */

static void check(bool right, const char *what) {
    if (right) {
        passed++;
        return;
    }
    if (failed++ < 20)
        printf("failed: %s\n", what);
#ifdef FUZZER
    abort();
#endif
}
#define CHECK(test) check((test), #test)

static uint64_t any(void) {
    if (input != input_end)
        return *input++;
    state ^= state << 13;
    state ^= state >> 7;
    state ^= state << 17;
    return state >> 16;
}

static size_t below(size_t n) {
    uint64_t x = any() << 8 ^ any();
    return n == 0 ? 0 : (n > 65536 ? x << 16 ^ any() << 8 ^ any() : x) % n;
}

/* Most often small, now and then up to most. */
static size_t length(size_t most) { return below(4) == 0 ? below(most + 1) : below(most < 60 ? most + 1 : 60); }

/* How many bytes there are for a buffer, before the page that nobody may touch. */
static size_t room_of(int k) {
    return ROOM + (k == INDEX ? RASPTEAL_INDEX_MAX : k == TEXT ? RASPTEAL_TEXT_MAX : 0);
}

/* A buffer of that length, which ends where the room ends. */
static uint8_t *lend(int k, size_t len) {
    uint8_t *at = ends[k] - len;
    lent[k] = len;
    memset(at - MARKED, MARK, MARKED);
    return at;
}

/* The same, filled with a byte. */
static void fill(int k, size_t len, uint8_t byte) {
    uint8_t *to = lend(k, len);
    memset(to, byte, len);
}

static uint8_t *at(int k) { return ends[k] - lent[k]; }

static void check_marks(void) {
    bool right = true;
    for (int k = 0; k < SPACES; k++)
        for (int i = 1; i <= MARKED; i++)
            right = right && at(k)[-i] == MARK;
    check(right, "a byte before a lent buffer was written");
}

static raspteal_uuid any_uuid(void) { return (raspteal_uuid){0, below(6)}; }

static void any_codes(int k) {
    bool many = below(20) == 0;
    size_t n = many ? RASPTEAL_LIST_MAX - 4 + below(6) : below(30);
    uint32_t *codes = (uint32_t *)lend(k, n * 4);
    for (size_t i = 0; i < n; i++)
        codes[i] = (k == BUTTONS ? 0x10130 : 0x30000) + (uint32_t)(many ? i : below(40));
}
#define LIST(k) (const uint32_t *)at(k), lent[k] / 4

/* A part of a real list, some bytes of it changed; often under one of few UUIDs. */
static size_t any_text(uint8_t *to, size_t room, bool line) {
    size_t n = 0;
    if (below(3) != 0 && room > 40)
        n = (size_t)sprintf((char *)to, "%032x,T,", (unsigned)below(6));
    size_t from = below(seeds_len + 1), len = length(line ? 600 : 9000);
    for (; len > 0 && from < seeds_len && n < room && !(line && seeds[from] == '\n'); len--)
        to[n++] = (uint8_t)seeds[from++];
    for (size_t more = below(60) == 0 ? RASPTEAL_LINE_MAX : 0; more > 0 && n < room; more--)
        to[n++] = 'n';
    if (below(20) == 0 && n + 12 < room)
        n += (size_t)sprintf((char *)to + n, ",dpup:h0.%zu", below(9));
    for (size_t changes = below(8) == 0 ? below(9) : 0; changes > 0 && n > 0; changes--)
        to[below(n)] = below(3) == 0 ? (uint8_t)any() : (uint8_t)"\n,:+-~abh0.9\r\xc3\xff"[below(16)];
    return n;
}

static void any_line(bool line) {
    static uint8_t made[ROOM];
    size_t n = any_text(made, ROOM - PAGE, line);
    memcpy(lend(LINE, n), made, n);
}

static raspteal_data any_slots(void) {
    raspteal_data data = raspteal_data_new();
    for (size_t n = below(12); n > 0; n--) {
        if (below(3) == 0)
            data = raspteal_data_insert_axis(data, 0x30000 + (uint32_t)below(8), (uint16_t)(1 + below(7))).slots;
        else
            data = raspteal_data_insert_btn(data, 0x10130 + (uint32_t)below(30), (uint16_t)below(20)).slots;
    }
    return data;
}

static void any_name(void) {
    static const char *const odd[] = {"platform:", "a\nb", ",", "\xff", "\xc3\x9f"};
    if (below(12) == 0) {
        const char *name = odd[below(5)];
        memcpy(lend(NAME, strlen(name)), name, strlen(name));
    } else
        fill(NAME, below(30) == 0 ? RASPTEAL_NAME_MAX - 4 + below(9) : below(12), 'n');
}

static bool same_map(const raspteal_mapping *a, const raspteal_mapping *b) {
    bool same = a->count == b->count && a->name_start == b->name_start && a->name_len == b->name_len &&
                a->is_default == b->is_default && a->hats_mapped == b->hats_mapped;
    for (size_t i = 0; same && i < RASPTEAL_CODES_MAX; i++)
        same = raspteal_entry_number(a->entries[i]) == raspteal_entry_number(b->entries[i]);
    return same;
}

static void check_map(const raspteal_answer *a) {
    met[a->refusal.number]++;
    CHECK(a->refusal.number <= 25 && a->map.count <= RASPTEAL_CODES_MAX);
    CHECK(a->refusal.number == 0 || a->map.count == 0);
    bool ascending = true;
    for (size_t i = 1; i < a->map.count; i++)
        ascending = ascending && a->map.entries[i - 1].code < a->map.entries[i].code;
    check(ascending, "the codes of a map ascend");
}

/* ---- calls */

static void read_line(void) {
    any_line(true);
    any_codes(BUTTONS);
    any_codes(AXES);
    raspteal_answer a = raspteal_parse_sdl_mapping(at(LINE), lent[LINE], LIST(BUTTONS), LIST(AXES));
    check_map(&a);
    if (a.map.count > 0) {
        raspteal_entry e = a.map.entries[below(a.map.count)];
        int16_t v = (int16_t)(any() << 8 ^ any());
        raspteal_emitted told = raspteal_mapping_event(a.map, e.code, 2, v);
        raspteal_value value = raspteal_entry_value(e, 2, v);
        CHECK(told.found == value.found && told.value == value.value);
        CHECK(raspteal_mapping_map(a.map, e.code).found && raspteal_mapping_map_rev(a.map, e.element).code <= e.code);
    }
}

/* A map has room for 256 codes: one of 250 to 261 pairs. */
static void read_many(void) {
    static char made[ROOM];
    size_t n = (size_t)sprintf(made, "%032x,T", 0), pairs = RASPTEAL_CODES_MAX - 6 + below(12);
    for (size_t i = 0; i < pairs; i++)
        n += (size_t)sprintf(made + n, ",a:b%zu", i);
    memcpy(lend(LINE, n), made, n);
    uint32_t *codes = (uint32_t *)lend(BUTTONS, 4 * pairs);
    for (size_t i = 0; i < pairs; i++)
        codes[i] = (uint32_t)(pairs - i);
    raspteal_answer a = raspteal_parse_sdl_mapping(at(LINE), lent[LINE], LIST(BUTTONS), LIST(BUTTONS));
    check_map(&a);
    CHECK(pairs <= RASPTEAL_CODES_MAX ? a.map.count == pairs : a.refusal.number == 11);
}

static void walk_line(void) {
    any_line(true);
    size_t pos = 0, steps = 0;
    uint8_t walker = raspteal_parser_start(at(LINE), lent[LINE]);
    for (; steps < lent[LINE] + 4; steps++) {
        raspteal_step s = raspteal_parser_step(at(LINE), lent[LINE], pos, walker);
        met[s.token.refusal.number]++;
        if (s.token.kind == RASPTEAL_END || s.token.refusal.number == 9 || s.token.refusal.number == 10)
            break;
        if (s.token.kind == RASPTEAL_REFUSED && s.pos == pos) {
            walker = s.state;
            continue;
        }
        CHECK(s.pos > pos && s.token.start + s.token.len <= lent[LINE]);
        pos = s.pos;
        walker = s.state;
    }
    CHECK(steps <= lent[LINE] + 3);
    CHECK(raspteal_valid_up_to(at(LINE), lent[LINE]) <= lent[LINE]);
    CHECK(raspteal_count_tokens(at(LINE), lent[LINE]).count <= steps + 1);
}

static void build_line(void) {
    static uint8_t before[ROOM];
    any_codes(BUTTONS);
    any_codes(AXES);
    any_name();
    fill(OUT, below(3) == 0 ? length(BUILT_MAX + 600) : BUILT_MAX, 7);
    memcpy(before, at(OUT), lent[OUT]);
    raspteal_built b = raspteal_from_data(any_slots(), LIST(BUTTONS), LIST(AXES), at(NAME), lent[NAME], any_uuid(),
                                          at(OUT), lent[OUT]);
    met[b.refusal.number]++;
    CHECK(b.len <= lent[OUT] && (b.refusal.number == 0 || b.len == 0));
    CHECK(memcmp(at(OUT) + b.len, before + b.len, lent[OUT] - b.len) == 0);
    raspteal_answer a = raspteal_parse_sdl_mapping(at(OUT), b.len, LIST(BUTTONS), LIST(AXES));
    CHECK(b.refusal.number != 0 || same_map(&a.map, &b.map));
}

/* ---- the store, which stays from call to call */

static uint8_t kept[2][ROOM + RASPTEAL_TEXT_MAX];
#define STORE at(INDEX), lent[INDEX], at(TEXT), lent[TEXT]

static void keep(void) {
    memcpy(kept[0], at(INDEX), lent[INDEX]);
    memcpy(kept[1], at(TEXT), lent[TEXT]);
}

static bool unchanged(void) {
    return memcmp(kept[0], at(INDEX), lent[INDEX]) == 0 && memcmp(kept[1], at(TEXT), lent[TEXT]) == 0;
}

/* The hall, one of two organisers, or rarely any other, owner 0 too; the hall with any byte. */
static raspteal_party any_party(void) {
    size_t k = below(12);
    if (k == 0)
        return (raspteal_party){true, (uint8_t)below(256)};
    if (k == 1)
        return (raspteal_party){true, 0};
    return (raspteal_party){k > 6, k > 6 ? (uint8_t)(1 + k % 2) : (uint8_t)any()};
}

/* 24 exactly for an organiser with owner 0. */
static void check_owner(raspteal_party p, raspteal_refusal r) {
    CHECK((r.number == 24) == (p.organiser && p.owner == 0));
}

static void new_store(void) {
    fill(INDEX, below(3) == 0 ? length(65600) : 21 * below(9) + below(9), 0);
    fill(TEXT, below(3) == 0 ? length(65600) : 400, 0);
}

/* A store whose next line lies about offset 65536, with few bytes of the index left: lines move to either side. Seldom one
 * about as large as can be. */
static void new_large_store(void) {
    static char made[5 * (RASPTEAL_LINE_MAX + 1)];
    bool largest = below(12) == 0;
    size_t index = below(2) == 0 ? 65536 + below(100) : 105 + below(200);
    fill(INDEX, largest ? RASPTEAL_INDEX_MAX - 2 + below(4) : index, 0);
    fill(TEXT, largest ? RASPTEAL_TEXT_MAX - 2 + below(4) : 65536 + below(20000), 0);
    char *to = made;
    for (unsigned k = 0; k < 4; k++) {
        size_t line = RASPTEAL_LINE_MAX - (k == 3 ? below(200) : 0);
        memset(to, 'n', line);
        to[sprintf(to, "%032x,", k)] = 'n';
        to[line] = '\n';
        to += line + 1;
    }
    raspteal_store_insert(STORE, RASPTEAL_HALL, (const uint8_t *)made, (size_t)(to - made));
}

/* Whether the store is so long that it is not asked 256 times. */
static bool long_store(void) { return lent[TEXT] > 4 * RASPTEAL_SMALL_MAX; }

static void insert_lines(void) {
    any_line(false);
    keep();
    raspteal_party p = any_party();
    raspteal_inserted i = raspteal_store_insert(STORE, p, at(LINE), lent[LINE]);
    met[i.refusal.number]++;
    check_owner(p, i.refusal);
    bool whole = i.refusal.number == 24 || i.refusal.number == 19 || i.refusal.number == 10;
    CHECK(i.count <= lent[LINE] && (!whole || (i.count == 0 && i.not_simple == 0 && unchanged())));
    bool unsound = raspteal_store_found(STORE, RASPTEAL_HALL, any_uuid()).refusal.number == 19;
    CHECK(i.refusal.number == 24 || unsound == (i.refusal.number == 19));
}

static void save_line(void) {
    any_codes(BUTTONS);
    any_codes(AXES);
    any_name();
    keep();
    raspteal_uuid id = any_uuid();
    raspteal_party p = any_party();
    raspteal_answer s = raspteal_store_save(STORE, p, any_slots(), LIST(BUTTONS), LIST(AXES), at(NAME), lent[NAME], id);
    check_map(&s);
    check_owner(p, s.refusal);
    if (s.refusal.number != 0) {
        check(unchanged(), "a refused save changes nothing");
        return;
    }
    lend(OUT, RASPTEAL_LINE_MAX);
    raspteal_written w = raspteal_store_get(STORE, p, id, at(OUT), lent[OUT]);
    raspteal_answer a = raspteal_parse_sdl_mapping(at(OUT), w.next, LIST(BUTTONS), LIST(AXES));
    CHECK(w.fits && a.refusal.number == 0 && same_map(&a.map, &s.map));
}

static void look(void) {
    raspteal_uuid id = any_uuid();
    keep();
    fill(OUT, length(RASPTEAL_LINE_MAX), 7);
    raspteal_party p = any_party();
    raspteal_look l = raspteal_store_found(STORE, p, id);
    raspteal_written w = raspteal_store_get(STORE, p, id, at(OUT), lent[OUT]);
    check_owner(p, l.refusal);
    CHECK(unchanged() && (l.refusal.number == 0 || l.refusal.number == 19 || l.refusal.number == 24));
    CHECK(w.fits ? w.next <= lent[OUT] && l.found == (w.next > 0) : l.found && w.next == 0);
}

/* A line is taken out: what its look-up found decides, no other is touched, and what is left takes less room. */
static void remove_line(void) {
    raspteal_uuid id = any_uuid(), other = any_uuid();
    raspteal_party p = any_party(), q = any_party();
    raspteal_look had = raspteal_store_found(STORE, p, id), beside = raspteal_store_found(STORE, q, other);
    size_t used = raspteal_store_share(STORE, p.organiser ? p.owner : 0).used;
    keep();
    raspteal_look gone = raspteal_store_remove(STORE, p, id);
    check_owner(p, gone.refusal);
    CHECK(gone.refusal.number == had.refusal.number && gone.found == had.found && (gone.found || unchanged()));
    if (gone.refusal.number != 0)
        return;
    CHECK(!raspteal_store_found(STORE, p, id).found && raspteal_store_remove(STORE, p, id).found == false);
    bool same_party = p.organiser == q.organiser && (!p.organiser || p.owner == q.owner);
    bool same = same_party && id.high == other.high && id.low == other.low;
    CHECK(same || raspteal_store_found(STORE, q, other).found == beside.found);
    CHECK((raspteal_store_share(STORE, p.organiser ? p.owner : 0).used < used) == gone.found);
}

static size_t larger(raspteal_share s) { return s.used < s.share ? s.share : s.used; }

/* What all parties claim of the text, of each the larger of use and share. */
static size_t claims(void) {
    size_t sum = 0;
    for (int o = 0; o < 256; o++)
        sum += larger(raspteal_store_share(STORE, (uint8_t)o));
    return sum;
}

/* A share is set, of the hall, of an organiser that calls, or of any party: it is told then, and 26 goes by the sum. */
static void share_text(void) {
    if (long_store())
        return;
    uint8_t owner = (uint8_t)(below(4) == 0 ? below(256) : below(3));
    size_t bytes = below(6) == 0 ? 0 : below(9) == 0 ? any() * any() : length(lent[TEXT]);
    keep();
    raspteal_share had = raspteal_store_share(STORE, owner);
    size_t others = claims() - larger(had);
    raspteal_refusal r = raspteal_store_set_share(STORE, owner, bytes);
    met[r.number]++;
    CHECK((r.number == 19) == (had.refusal.number == 19) && (r.number == 0 || unchanged()));
    if (had.refusal.number == 19)
        return;
    raspteal_share told = raspteal_store_share(STORE, owner);
    bool fits = bytes <= lent[TEXT] && others + (had.used < bytes ? bytes : had.used) <= lent[TEXT];
    CHECK((r.number == 26) == !fits);
    CHECK(told.used == had.used && told.share == (r.number == 0 ? bytes : had.share));
    CHECK(memcmp(kept[1], at(TEXT), lent[TEXT]) == 0);
}

/* A line that leaves its party within its share is not refused for text, in a store whose shares fit. */
static void file_within(void) {
    static char made[80];
    size_t n = (size_t)sprintf(made, "%032x,T", (unsigned)(6 + below(3)));
    raspteal_share s = raspteal_store_share(STORE, 0);
    bool within = s.refusal.number == 0 && s.used + n <= s.share && !long_store() && claims() <= lent[TEXT];
    memcpy(lend(LINE, n), made, n);
    raspteal_inserted i = raspteal_store_insert(STORE, RASPTEAL_HALL, at(LINE), n);
    met[i.refusal.number]++;
    CHECK(!within || i.refusal.number != 25);
}

static void damage(void) {
    int k = below(2) == 0 ? INDEX : TEXT;
    if (lent[k] > 0)
        at(k)[below(3) == 0 ? below(lent[k]) : below(lent[k] < 64 ? lent[k] : 64)] = (uint8_t)any();
}

static void clear_store(void) {
    raspteal_refusal r = raspteal_store_clear(STORE);
    met[r.number]++;
    CHECK(r.number == (lent[INDEX] > RASPTEAL_INDEX_MAX || lent[TEXT] > RASPTEAL_TEXT_MAX ? 23 : 0));
    CHECK(r.number != 0 || !raspteal_store_found(STORE, any_party(), any_uuid()).found);
}

/* The records of an index stand one behind the other; of a sound store each line lies in the text and is found. The
   lines of a text end where the next one starts, or with the text. */
static void walk_store(void) {
    bool sound = raspteal_store_share(STORE, 0).refusal.number == 0;
    raspteal_record r;
    for (size_t place = 0; r = raspteal_store_record_at(at(INDEX), lent[INDEX], place), r.found; place += r.size) {
        CHECK(0 < r.size && r.size <= lent[INDEX] - place);
        if (!sound || r.is_share)
            continue;
        CHECK(r.offset <= lent[TEXT] && r.len <= lent[TEXT] - r.offset);
        raspteal_party p = {.organiser = r.owner != 0, .owner = r.owner};
        CHECK(below(20) > 0 || raspteal_store_found(STORE, p, r.id).found);
    }
    CHECK(r.size == 0);
    raspteal_cut c;
    for (size_t place = 0; c = raspteal_next_line(at(LINE), lent[LINE], place), c.found; place = c.next)
        CHECK(place < c.next && c.next <= lent[LINE] && c.len <= c.next - place);
}

static void (*const calls[])(void) = {read_line, walk_line, build_line, insert_lines, insert_lines, save_line,
                                      save_line, look,      look,       share_text,   share_text,   file_within,
                                      walk_store, remove_line};

static void prepare(void) {
    for (int k = 0; k < SPACES && ends[k] == NULL; k++) {
        size_t len = room_of(k);
        uint8_t *room = mmap(NULL, len + PAGE, PROT_READ | PROT_WRITE, MAP_PRIVATE | MAP_ANONYMOUS, -1, 0);
        if (room == MAP_FAILED || mprotect(room + len, PAGE, PROT_NONE) != 0) {
            perror("memory");
            exit(1);
        }
        ends[k] = room + len;
    }
    for (int k = 0; k < SPACES; k++)
        lend(k, 0);
}

/* A store, and some calls. */
static void history(void) {
    prepare();
    if (below(25) == 0)
        new_large_store();
    else
        new_store();
    for (size_t n = 1 + below(30); n > 0; n--) {
        calls[below(sizeof calls / sizeof calls[0])]();
        check_marks();
        if (below(40) == 0)
            damage();
        if (below(30) == 0)
            clear_store();
        if (below(90) == 0)
            read_many();
    }
}

int LLVMFuzzerTestOneInput(const uint8_t *bytes, size_t len);
int LLVMFuzzerTestOneInput(const uint8_t *bytes, size_t len) {
    seeds = (const char *)bytes;
    seeds_len = len;
    input = bytes;
    input_end = bytes + len;
    state = len + 1;
    history();
    return 0;
}

#ifndef FUZZER
int main(int argc, char **argv) {
    static char lists[1 << 22];
    if (argc < 3) {
        fprintf(stderr, "usage: fuzz SECONDS SEED LIST..\n");
        return 2;
    }
    for (int i = 3; i < argc; i++) {
        FILE *f = fopen(argv[i], "rb");
        if (f == NULL) {
            perror(argv[i]);
            return 2;
        }
        seeds_len += fread(lists + seeds_len, 1, sizeof lists - seeds_len, f);
        fclose(f);
    }
    seeds = lists;
    state = strtoull(argv[2], NULL, 10) * 2 + 1;
    unsigned long histories = 0;
    for (time_t end = time(NULL) + atoi(argv[1]); time(NULL) < end; histories++)
        history();
    printf("%lu histories of calls, seed %s, %zu bytes of lists; refusals met:", histories, argv[2], seeds_len);
    for (int n = 1; n < 256; n++)
        if (met[n] > 0)
            printf(" %d", n);
    printf("\n");
    printf("%lu passed, %lu failed\n", passed, failed);
    return failed != 0;
}
#endif
