/* The calls of the store. Prints a line for each check that fails, and last 'N passed, M failed'. */
#include "checks.h"

#define STORE BUFFER(index), BUFFER(text)
#define HALL RASPTEAL_HALL

static const raspteal_uuid nil = {0, 0};

static void stores(void) {
    uint8_t index[42] = {0}, text[100] = {0}, out[100];
    raspteal_inserted i = raspteal_store_insert(STORE, HALL, TEXT("# a pad\n" U ",T\n"));
    CHECK(i.refusal.number == 0 && i.count == 2 && index[0] == 1 && memcmp(text, U ",T", 34) == 0);
    raspteal_changed c = raspteal_data_insert_btn(raspteal_data_new(), 0x10130, 1);
    raspteal_answer s =
        raspteal_store_save(STORE, HALL, c.slots, LIST(buttons), LIST(axes), TEXT("Pad"), one);
    CHECK(s.refusal.number == 0 && s.map.count == 1 && s.map.name_len == 3);
    raspteal_look l = raspteal_store_found(STORE, HALL, one);
    CHECK(l.refusal.number == 0 && l.found);
    raspteal_written w = raspteal_store_get(STORE, HALL, one, BUFFER(out));
    CHECK(w.fits && w.next == 42 && memcmp(out, "00000000000000000000000000000001,Pad,a:b0,", 42) == 0);
    CHECK(!raspteal_store_get(STORE, HALL, one, out, 41).fits);
    s = raspteal_store_save(STORE, HALL, c.slots, LIST(buttons), LIST(axes), TEXT("platform:"), one);
    CHECK(s.refusal.number == 22 && s.map.count == 0);
    i = raspteal_store_insert(STORE, HALL, TEXT("00000000000000000000000000000002,T"));
    CHECK(i.refusal.number == 21 && i.count == 0);
    i = raspteal_store_insert(STORE, HALL, TEXT(U ",nnnnnnnnnnnnnnnnnnnnnnnnnn"));
    CHECK(i.refusal.number == 25 && i.count == 0);
    index[0] = 9;
    CHECK(raspteal_store_found(STORE, HALL, one).refusal.number == 19);
    raspteal_refusal r = raspteal_store_clear(STORE);
    CHECK(r.number == 0 && index[0] == 0 && text[0] == 0);
    CHECK(!raspteal_store_found(STORE, HALL, one).found);
}

/* The hall and two organisers under one UUID; 24 before damage is seen. */
static void parties(void) {
    uint8_t index[65] = {0}, text[102] = {0}, out[100];
    const raspteal_party seven = {true, 7}, last = {true, 255}, nobody = {true, 0}, hall = {false, 9};
    CHECK(raspteal_store_insert(STORE, hall, TEXT(U ",H")).refusal.number == 0 && index[0] == 1);
    CHECK(raspteal_store_insert(STORE, seven, TEXT(U ",S")).count == 1 && index[21] == 3 && index[22] == 7);
    CHECK(raspteal_store_insert(STORE, last, TEXT(U ",L")).count == 1 && index[43] == 3 && index[44] == 255);
    const raspteal_party who[] = {HALL, seven, last};
    for (int k = 0; k < 3; k++) {
        CHECK(raspteal_store_found(STORE, who[k], nil).found);
        CHECK(raspteal_store_get(STORE, who[k], nil, BUFFER(out)).next == 34 && out[33] == "HSL"[k]);
        CHECK(raspteal_store_found_near(STORE, who[k], (raspteal_uuid){0x0000ffff00000000, 0}).how == 2);
    }
    CHECK(!raspteal_store_found(STORE, (raspteal_party){true, 8}, nil).found);
    CHECK(raspteal_store_insert(STORE, HALL, TEXT("00000000000000000000000000000002,T")).refusal.number == 21);
    index[0] = 9;
    raspteal_inserted i = raspteal_store_insert(STORE, nobody, TEXT("\xff"));
    CHECK(i.refusal.number == 24 && !i.refusal.has_place && i.count == 0 && i.not_simple == 0);
    CHECK(raspteal_store_found(STORE, nobody, nil).refusal.number == 24);
    CHECK(raspteal_store_found_near(STORE, nobody, nil).refusal.number == 24);
    CHECK(raspteal_store_get(STORE, nobody, nil, BUFFER(out)).next == 0);
    CHECK(raspteal_store_get_near(STORE, nobody, nil, BUFFER(out)).next == 0);
    raspteal_data d = raspteal_data_insert_btn(raspteal_data_new(), 0x10130, 1).slots;
    raspteal_answer s = raspteal_store_save(STORE, nobody, d, LIST(buttons), LIST(axes), TEXT("a,b"), nil);
    CHECK(s.refusal.number == 24 && s.map.count == 0 && index[0] == 9);
    CHECK(raspteal_store_found(STORE, seven, nil).refusal.number == 19);
    CHECK(raspteal_store_clear(STORE).number == 0);
    CHECK(!raspteal_store_found(STORE, HALL, nil).found && !raspteal_store_found(STORE, seven, nil).found);
    s = raspteal_store_save(STORE, seven, d, LIST(buttons), LIST(axes), TEXT("T"), nil);
    CHECK(s.refusal.number == 0 && s.map.count == 1 && raspteal_store_found(STORE, seven, nil).found);
}

/* A league has filled the text, and the hall's save within its share still goes; clear drops the shares. */
static void shares(void) {
    uint8_t index[200] = {0}, text[150] = {0};
    const raspteal_party seven = {true, 7};
    raspteal_data d = raspteal_data_insert_btn(raspteal_data_new(), 0x10130, 1).slots;
    CHECK(raspteal_store_set_share(STORE, 0, 60).number == 0 && memcmp(index, "\4\0\0\74", 4) == 0);
    CHECK(raspteal_store_insert(STORE, seven, TEXT(U ",nnnnnnnnnnnn")).refusal.number == 0);
    raspteal_inserted i = raspteal_store_insert(STORE, seven, TEXT("00000000000000000000000000000001,nnnnnnnnnnnn"));
    CHECK(i.refusal.number == 0 && i.count == 1);
    raspteal_share told = raspteal_store_share(STORE, 7);
    CHECK(told.refusal.number == 0 && told.share == 0 && told.used == 90);
    i = raspteal_store_insert(STORE, seven, TEXT(U ",nnnnnnnnnnnnn"));
    CHECK(i.refusal.number == 25 && i.count == 0);
    raspteal_answer s = raspteal_store_save(STORE, seven, d, LIST(buttons), LIST(axes), TEXT("Seats"), one);
    CHECK(s.refusal.number == 0 && raspteal_store_share(STORE, 7).used == 89);
    s = raspteal_store_save(STORE, seven, d, LIST(buttons), LIST(axes), TEXT("Seat 12"), one);
    CHECK(s.refusal.number == 25 && s.map.count == 0);
    s = raspteal_store_save(STORE, HALL, d, LIST(buttons), LIST(axes), TEXT("Cup"), one);
    CHECK(s.refusal.number == 0 && s.map.count == 1);
    told = raspteal_store_share(STORE, 0);
    CHECK(told.share == 60 && told.used == 42 && raspteal_store_found(STORE, HALL, one).found);
    CHECK(raspteal_store_set_share(STORE, 7, 91).number == 26);
    CHECK(raspteal_store_set_share(STORE, 7, SIZE_MAX).number == 26);
    CHECK(raspteal_store_set_share(STORE, 7, 90).number == 0 && raspteal_store_share(STORE, 7).share == 90);
    CHECK(raspteal_store_set_share(STORE, 0, 0).number == 0 && raspteal_store_share(STORE, 0).share == 0);
    CHECK(memcmp(index, "\4\7\0\132\3\7", 6) == 0 && raspteal_store_found(STORE, HALL, one).found);
    index[0] = 5;
    told = raspteal_store_share(STORE, 7);
    CHECK(told.refusal.number == 19 && told.share == 0 && told.used == 0);
    CHECK(raspteal_store_set_share(STORE, 7, 1000).number == 19 && index[0] == 5);
    CHECK(raspteal_store_clear(STORE).number == 0 && raspteal_store_share(STORE, 7).share == 0);
}

/* A share takes 4 bytes of the index: with fewer free ones it is refused, and the line's record stays. */
static void shares_of_full_stores(void) {
    for (size_t free = 0; free <= 4; free++) {
        uint8_t room[25] = {0}, text[40] = {0}, *index = room;
        size_t len = 21 + free;
        CHECK(raspteal_store_insert(index, len, BUFFER(text), HALL, TEXT(U)).refusal.number == 0);
        CHECK(raspteal_store_set_share(index, len, BUFFER(text), 7, 9).number == 26);
        CHECK(raspteal_store_set_share(index, len, BUFFER(text), 7, 8).number == (free < 4 ? 21 : 0));
        CHECK(index[0] == (free < 4 ? 1 : 4) && raspteal_store_found(index, len, BUFFER(text), HALL, nil).found);
        CHECK(raspteal_store_share(index, len, BUFFER(text), 7).share == (free < 4 ? 0u : 8u));
    }
}

static void forms(void) {
    static const char *const spelled[] = {"00000000000000000000000000000001", "00000000-0000-0000-0000-000000000001",
                                          "{00000000-0000-0000-0000-000000000001}",
                                          "urn:uuid:00000000-0000-0000-0000-000000000001"};
    for (uint8_t k = 0; k < 4; k++) {
        const uint8_t *s = (const uint8_t *)spelled[k];
        raspteal_uuid_parse p = raspteal_uuid_parse_str(s, strlen(spelled[k]));
        CHECK(p.valid && p.form == k + 1 && p.id.low == 1);
        uint8_t index[21] = {0}, text[60] = {0};
        raspteal_inserted i = raspteal_store_insert(STORE, HALL, s, strlen(spelled[k]));
        CHECK(i.refusal.number == 0 && i.count == 1 && i.not_simple == (k > 0));
        CHECK(raspteal_store_found(STORE, HALL, one).found);
    }
    CHECK(raspteal_uuid_parse_str(TEXT("q")).form == 0);
    CHECK(raspteal_first_form(TEXT("xinput,T")) == RASPTEAL_XINPUT);
    CHECK(raspteal_first_form(TEXT(U ",T")) == RASPTEAL_SIMPLE && raspteal_first_form(TEXT(U)) == 0);
}

static void near_stores(void) {
    uint8_t index[42] = {0}, text[100] = {0}, out[100];
    raspteal_uuid pad = {0x0300abcd5e040000, 1}, plain = {0x030000005e040000, 1}, other = {0x0300abce5e040000, 1};
    CHECK(raspteal_uuid_without_checksum(pad).high == plain.high && raspteal_uuid_without_checksum(pad).low == 1);
    CHECK(raspteal_store_found_near(STORE, HALL, pad).how == 0);
    CHECK(raspteal_store_get_near(STORE, HALL, pad, BUFFER(out)).next == 0);
    raspteal_store_insert(STORE, HALL, TEXT("030000005e0400000000000000000001,P"));
    CHECK(raspteal_store_found_near(STORE, HALL, pad).how == 2);
    CHECK(!raspteal_store_found(STORE, HALL, pad).found);
    raspteal_written w = raspteal_store_get_near(STORE, HALL, pad, BUFFER(out));
    CHECK(w.fits && w.next == 34 && memcmp(out, "030000005e0400000000000000000001,P", 34) == 0);
    CHECK(!raspteal_store_get_near(STORE, HALL, pad, out, 33).fits);
    CHECK(raspteal_store_found_near(STORE, HALL, plain).how == 1);
    raspteal_store_insert(STORE, HALL, TEXT("0300abcd5e0400000000000000000001,Q"));
    CHECK(raspteal_store_found_near(STORE, HALL, pad).how == 1);
    w = raspteal_store_get_near(STORE, HALL, pad, BUFFER(out));
    CHECK(w.next == 34 && out[33] == 'Q' && raspteal_store_found_near(STORE, HALL, other).how == 2);
    index[0] = 9;
    raspteal_near_look l = raspteal_store_found_near(STORE, HALL, pad);
    CHECK(l.refusal.number == 19 && l.how == 0);
    CHECK(raspteal_store_get_near(STORE, HALL, pad, BUFFER(out)).next == 0);
}

/* A line is taken out: those behind it move down, and a long record becomes a short one. */
static void removals(void) {
    static uint8_t index[300], text[90000], was[sizeof index + sizeof text];
    static char lines[5 * 16385];
    const raspteal_party seven = {true, 7};
    for (int k = 0; k < 5; k++) {
        char *l = lines + k * 16385;
        memset(l, 'n', 16384);
        snprintf(l, 34, "%032x,", k + 1);
        l[33] = 'n';
        l[16384] = '\n';
    }
    raspteal_look gone = raspteal_store_remove(STORE, HALL, one);
    CHECK(gone.refusal.number == 0 && !gone.found);
    CHECK(raspteal_store_set_share(STORE, 7, 40).number == 0);
    CHECK(raspteal_store_insert(STORE, HALL, (uint8_t *)lines, sizeof lines).refusal.number == 0);
    CHECK(raspteal_store_insert(STORE, seven, TEXT("00000000000000000000000000000001,7")).refusal.number == 0);
    raspteal_record r = raspteal_store_record_at(BUFFER(index), 4 + 4 * 21);
    CHECK(r.found && r.id.low == 5 && r.offset == 65536 && r.size == 23);
    memcpy(was, index, sizeof index);
    memcpy(was + sizeof index, text, sizeof text);
    CHECK(raspteal_store_remove(STORE, (raspteal_party){true, 0}, one).refusal.number == 24);
    CHECK(!raspteal_store_remove(STORE, (raspteal_party){true, 8}, one).found);
    CHECK(!raspteal_store_remove(STORE, HALL, nil).found);
    CHECK(memcmp(was, index, sizeof index) == 0 && memcmp(was + sizeof index, text, sizeof text) == 0);
    gone = raspteal_store_remove(STORE, HALL, one);
    CHECK(gone.refusal.number == 0 && gone.found && !raspteal_store_found(STORE, HALL, one).found);
    CHECK(raspteal_store_found(STORE, seven, one).found && raspteal_store_share(STORE, 7).share == 40);
    r = raspteal_store_record_at(BUFFER(index), 4 + 3 * 21);
    CHECK(r.found && r.id.low == 5 && r.offset == 49152 && r.size == 21);
    CHECK(memcmp(text + 49152, lines + 4 * 16385, 16384) == 0);
    CHECK(raspteal_store_share(STORE, 0).used == 65536 && text[65536 + 34] == 0 && text[5 * 16384 + 33] == 0);
    CHECK(raspteal_store_remove(STORE, seven, one).found);
    for (uint64_t k = 2; k < 6; k++)
        CHECK(raspteal_store_remove(STORE, HALL, (raspteal_uuid){0, k}).found);
    index[0] = 0;
    for (size_t k = 4; k < sizeof index; k++)
        CHECK(index[k] == 0);
    index[0] = 9;
    CHECK(raspteal_store_remove(STORE, HALL, one).refusal.number == 19 && index[0] == 9);
}

/* A walk over the records meets the shares by owner, then the lines in list order; damage ends it. */
static void walk(void) {
    uint8_t index[70] = {0}, text[70000] = {0};
    const raspteal_party seven = {true, 7};
    CHECK(!raspteal_store_record_at(BUFFER(index), 0).found && !raspteal_store_record_at(index, 0, 0).found);
    CHECK(raspteal_store_set_share(STORE, 9, 65536).number == 0 && raspteal_store_set_share(STORE, 0, 3).number == 0);
    CHECK(raspteal_store_insert(STORE, seven, TEXT(U ",T\n")).refusal.number == 0);
    CHECK(raspteal_store_insert(STORE, HALL, TEXT("00000000000000000000000000000001,Pad\n")).refusal.number == 0);
    raspteal_record r = raspteal_store_record_at(BUFFER(index), 0);
    CHECK(r.found && r.is_share && r.owner == 0 && r.share == 3 && r.size == 4 && r.len == 0);
    r = raspteal_store_record_at(BUFFER(index), 4);
    CHECK(r.found && r.is_share && r.owner == 9 && r.share == 65536 && r.size == 6 && r.offset == 0);
    r = raspteal_store_record_at(BUFFER(index), 10);
    CHECK(r.found && !r.is_share && r.owner == 7 && r.id.low == 0 && r.offset == 0 && r.len == 34 && r.size == 22);
    r = raspteal_store_record_at(BUFFER(index), 32);
    CHECK(r.found && !r.is_share && r.owner == 0 && r.id.low == 1 && r.offset == 34 && r.len == 36 && r.size == 21);
    CHECK(memcmp(text + r.offset, "00000000000000000000000000000001,Pad", r.len) == 0);
    r = raspteal_store_record_at(BUFFER(index), 53);
    CHECK(!r.found && r.size == 0 && r.owner == 0 && !raspteal_store_record_at(BUFFER(index), SIZE_MAX).found);
    CHECK(!raspteal_store_record_at(index, 52, 32).found && !raspteal_store_record_at(index, 9, 4).found);
    static const uint8_t none[] = {4, 3, 0, 0}, small[] = {6, 3, 0, 0, 255, 255};
    static const uint8_t most[] = {0, 6, 3, 255, 255, 255, 255};
    CHECK(!raspteal_store_record_at(BUFFER(none), 0).found && !raspteal_store_record_at(BUFFER(small), 0).found);
    CHECK(raspteal_store_record_at(BUFFER(most), 1).share == 4294967295);
}

static void cuts(void) {
    static const char lines[] = "a\r\n\nb\r";
    raspteal_cut c = raspteal_next_line(TEXT(lines), 0);
    CHECK(c.found && c.len == 1 && c.next == 3);
    c = raspteal_next_line(TEXT(lines), 3);
    CHECK(c.found && c.len == 0 && c.next == 4);
    c = raspteal_next_line(TEXT(lines), 4);
    CHECK(c.found && c.len == 2 && c.next == 6);
    c = raspteal_next_line(TEXT(lines), 6);
    CHECK(!c.found && c.len == 0 && c.next == 0 && !raspteal_next_line(TEXT(lines), SIZE_MAX).found);
    CHECK(!raspteal_next_line(TEXT(""), 0).found && raspteal_next_line(TEXT("a\n"), 0).next == 2);
}

int main(void) {
    stores();
    removals();
    walk();
    cuts();
    near_stores();
    parties();
    shares();
    shares_of_full_stores();
    forms();
    printf("%d passed, %d failed\n", passed, failed);
    return failed != 0;
}
