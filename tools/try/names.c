/*
 * What acs.h says of numbers, held to documents 01 and 02; and that its writers
 * and readers agree with the library.
 *
 *     names FOLDER     the folder of the sample snapshots
 *
 * The last line counts what was asked; exit status 1 if something is wrong.
 */
#include <stdio.h>
#include <string.h>

#include "acs.h"

static unsigned count, wrong;

static void expect(int holds, const char *what)
{
    count++;
    if (holds)
        return;
    wrong++;
    printf("acs.h: %s does not hold\n", what);
}

#define EXPECT(fact) expect(fact, #fact)
#define SAYS(words, text) expect(strcmp(words, text) == 0, #words " is " #text)

/* ---- Numbers ---- */

static void numbers_of_documents(void)
{
    EXPECT(ACS_HOST == 0xFFFF && ACS_NO_PARENT == 0xFFFF && ACS_SNAPSHOT_VERSION == 1);
    EXPECT(ACS_FLAG_ROOTS_REACH == 1 && ACS_FLAG_REFLECT == 2);
    EXPECT(ACS_BIT_V == 1 << 0 && ACS_BIT_B == 1 << 1 && ACS_BIT_R == 1 << 2);
    EXPECT(ACS_BIT_C == 1 << 3 && ACS_BIT_U == 1 << 4 && ACS_BIT_E == 1 << 5);
    EXPECT(ACS_BIT_T == 1 << 6);
    EXPECT(ACS_TLP_READ == 0x00 && ACS_TLP_WRITE == 0x40);
    EXPECT(ACS_TLP_READ_64 == 0x20 && ACS_TLP_WRITE_64 == 0x60);
    EXPECT(ACS_TLP_COMPLETION == 0x0A && ACS_TLP_COMPLETION_DATA == 0x4A);
    EXPECT(ACS_AT_UNTRANSLATED == 0 && ACS_AT_TRANSLATION_REQUEST == 1);
    EXPECT(ACS_AT_TRANSLATED == 2 && ACS_AT_RESERVED == 3);
    EXPECT(ACS_LETTER_V == 0 && ACS_LETTER_B == 1 && ACS_LETTER_E == 5 && ACS_LETTER_X == 7);
    EXPECT(ACS_SNAPSHOT_MOST
           == ACS_SNAPSHOT_HEAD + ACS_SNAPSHOT_RECORDS_MOST * ACS_SNAPSHOT_RECORD);
    EXPECT(ACS_HOPS_ROOM == ACS_HOPS_MOST * ACS_HOP_SIZE);
    EXPECT(ACS_IMAGE_SIZE == 4096 && ACS_SNAPSHOT_RECORD == 144);
    EXPECT(ACS_REFUSAL_LENGTH == 8 && ACS_REFUSAL_CAPABILITIES == 9);
}

static void version_is_one(void)
{
    char version[32];
    snprintf(version, sizeof version, "%d.%d.%d", ACS_VERSION_MAJOR, ACS_VERSION_MINOR,
             ACS_VERSION_PATCH);
    SAYS(version, ACS_VERSION);
}

/* ---- Zero, and what it is not ---- */

static void readers_are_guarded(void)
{
    const uint64_t refused = 6 | 4 << 8 | 5 << 16, violation = 5;
    EXPECT(acs_check_accepted(0) && !acs_check_accepted(refused));
    EXPECT(acs_answer_letter(0) == ACS_LETTER_NONE);
    EXPECT(acs_answer_letter(refused) == ACS_LETTER_NONE);
    EXPECT(acs_answer_letter(violation) == ACS_LETTER_V);
    EXPECT(acs_answer_letter(violation | 7 << 8) == ACS_LETTER_X);
    EXPECT(acs_answer_refusal(0) == ACS_REFUSAL_NONE);
    EXPECT(acs_answer_refusal(violation | 7 << 8) == ACS_REFUSAL_NONE);
    EXPECT(acs_answer_refusal(refused) == ACS_REFUSAL_RECORD);
    EXPECT(acs_answer_refused(refused) && !acs_answer_refused(0));
    EXPECT(acs_answer_node(refused) == 5 && acs_answer_hops(refused) == 0);
    EXPECT(acs_answer_abort(violation | (uint64_t)1 << 48) == 1);
}

/* A fill's word has no kind; its byte 0 is 6 for a refusal, and else 0. */
static void fills_are_read(void)
{
    const uint64_t filled = (uint64_t)0x0FD8 << 16 | (uint64_t)40 << 32, none = 0;
    EXPECT(acs_fill_offset(filled) == 0xFD8 && acs_fill_length(filled) == 40);
    EXPECT(acs_fill_offset(none) == 0 && acs_fill_length(none) == 0);
    EXPECT(!acs_answer_refused(filled) && !acs_answer_refused(none));
    EXPECT(acs_answer_refusal(filled) == ACS_REFUSAL_NONE);
    EXPECT(acs_answer_refusal(6 | 8 << 8) == ACS_REFUSAL_LENGTH);
    EXPECT(acs_answer_refusal(6 | 9 << 8) == ACS_REFUSAL_CAPABILITIES);
}

/* ---- Words ---- */

static void words_of_answers(void)
{
    SAYS(acs_kind_name(ACS_KIND_DELIVERED_UNVALIDATED), "delivered unvalidated");
    SAYS(acs_kind_name(ACS_KIND_DELIVERED_CHECKED), "delivered checked");
    SAYS(acs_kind_name(ACS_KIND_HOST), "host");
    SAYS(acs_kind_name(ACS_KIND_UNCLAIMED), "unclaimed");
    SAYS(acs_kind_name(ACS_KIND_UNDEFINED), "undefined");
    SAYS(acs_kind_name(ACS_KIND_VIOLATION), "violation");
    SAYS(acs_kind_name(ACS_KIND_REFUSED), "refused");
    SAYS(acs_letter_name(ACS_LETTER_V), "V");
    SAYS(acs_letter_name(ACS_LETTER_B), "B");
    SAYS(acs_letter_name(ACS_LETTER_E), "E");
    SAYS(acs_letter_name(ACS_LETTER_X), "X");
    SAYS(acs_letter_name(ACS_LETTER_NONE), "none");
    SAYS(acs_letter_text(ACS_LETTER_V), "Source Validation");
    SAYS(acs_letter_text(ACS_LETTER_X), "redirected request validation");
    SAYS(acs_action_name(ACS_ACTION_UP_BY_U), "up by Upstream Forwarding");
    SAYS(acs_action_name(ACS_ACTION_END), "ends here");
    SAYS(acs_record_kind_name(ACS_RECORD_DOWNSTREAM_PORT), "downstream port");
    SAYS(acs_address_type_name(ACS_AT_TRANSLATED), "translated");
    SAYS(acs_refusal_text(ACS_REFUSAL_LENGTH),
         "the image has not 4,096 bytes, or the record not 144");
    SAYS(acs_refusal_text(ACS_REFUSAL_CAPABILITIES),
         "the image's list of extended capabilities is bad, or the ACS structure in it");
}

/* A number with no name gets words that say so, and each other one its own. */
static void every_number_has_words(void)
{
    for (int a = 0; a < 12; a++) {
        expect((strncmp(acs_kind_name((enum acs_kind)a), "unknown", 7) == 0) == (a > 6),
               "acs_kind_name knows 0 to 6");
        expect((strncmp(acs_refusal_text((enum acs_refusal)a), "unknown", 7) == 0) == (a > 9),
               "acs_refusal_text knows 0 to 9");
        expect((strncmp(acs_action_name((enum acs_action)a), "unknown", 7) == 0)
                   == (a < 1 || a > 7),
               "acs_action_name knows 1 to 7");
        for (int b = 0; b < a && a <= 9; b++)
            expect(strcmp(acs_refusal_text((enum acs_refusal)a),
                          acs_refusal_text((enum acs_refusal)b)) != 0,
                   "acs_refusal_text differs by number");
    }
}

/* ---- Headers ---- */

static void requests_are_written(void)
{
    static const uint8_t below[12] = { 0x40, 0, 0x08, 1, 0x03, 0x00, 0, 0x0F, 0x80, 0x10, 0, 0x04 };
    static const uint8_t above[16] = { 0x20, 0,    0x01, 0x2C, 0x03, 0x0A, 0,    0xFF,
                                       0x12, 0x34, 0x56, 0x78, 0x9A, 0xBC, 0xDE, 0xF0 };
    uint8_t header[ACS_HEADER_ROOM + 1];
    memset(header, 0xA5, sizeof header);
    EXPECT(acs_request_header(header, ACS_TLP_WRITE, 0x80100006, 1, ACS_AT_TRANSLATED,
                              acs_id(3, 0, 0)) == 12);
    EXPECT(memcmp(header, below, 12) == 0 && header[12] == 0xA5);
    EXPECT(acs_request_header(header, ACS_TLP_READ, UINT64_C(0x123456789ABCDEF0), 300,
                              ACS_AT_UNTRANSLATED, acs_id(3, 1, 2)) == 16);
    EXPECT(memcmp(header, above, 16) == 0 && header[16] == 0xA5);
    EXPECT(acs_request_header(header, ACS_TLP_READ_64, 0, 1024, ACS_AT_RESERVED, 0) == 16);
    EXPECT(header[0] == 0x20 && header[2] == 0x0C && header[3] == 0);
    EXPECT(acs_request_header(header, ACS_TLP_READ, UINT64_MAX, 1, ACS_AT_UNTRANSLATED, 0) == 16);
    EXPECT(header[8] == 0xFF && header[15] == 0xFC);
}

static void bad_headers_are_not_written(void)
{
    uint8_t header[ACS_HEADER_ROOM] = { 0xA5 };
    EXPECT(acs_request_header(header, ACS_TLP_WRITE, 0, 0, ACS_AT_UNTRANSLATED, 0) == 0);
    EXPECT(acs_request_header(header, ACS_TLP_WRITE, 0, 1025, ACS_AT_UNTRANSLATED, 0) == 0);
    EXPECT(acs_request_header(header, ACS_TLP_COMPLETION, 0, 1, ACS_AT_UNTRANSLATED, 0) == 0);
    EXPECT(acs_request_header(header, ACS_TLP_READ, 0, 1, (enum acs_address_type)4, 0) == 0);
    EXPECT(acs_completion_header(header, ACS_TLP_READ, 0, 0) == 0);
    EXPECT(header[0] == 0xA5);
}

static void completions_are_written(void)
{
    static const uint8_t relaxed[12] = { 0x4A, 0, 0x20, 1, 0, 0, 0, 4, 0x03, 0x08, 0, 0 };
    uint8_t header[ACS_HEADER_ROOM + 1];
    memset(header, 0xA5, sizeof header);
    EXPECT(acs_completion_header(header, ACS_TLP_COMPLETION_DATA, acs_id(3, 1, 0), 1) == 12);
    EXPECT(memcmp(header, relaxed, 12) == 0 && header[12] == 0xA5);
    EXPECT(acs_completion_header(header, ACS_TLP_COMPLETION, acs_id(0, 0, 0), 0) == 12);
    EXPECT(header[0] == 0x0A && header[2] == 0 && header[3] == 0);
}

/* ---- With the library: case F2, and a header that could not be written ---- */

static void library_agrees(const char *folder)
{
    static uint8_t snapshot[ACS_SNAPSHOT_MOST];
    uint8_t header[ACS_HEADER_ROOM], hops[ACS_HOPS_ROOM];
    const uint64_t now = 2000000000;
    char path[1024];
    size_t length = 0, header_length;
    uint64_t answer;
    FILE *file;
    snprintf(path, sizeof path, "%s/fabric-f-17h.acs", folder);
    file = fopen(path, "rb");
    if (file != NULL) {
        length = fread(snapshot, 1, sizeof snapshot, file);
        fclose(file);
    }
    EXPECT(acs_check_accepted(acs_check(snapshot, length, now)));
    EXPECT(acs_answer_refusal(acs_check(snapshot, length, 0)) == ACS_REFUSAL_TIME);
    header_length = acs_request_header(header, ACS_TLP_WRITE, 0x80100000, 1,
                                       ACS_AT_UNTRANSLATED, acs_id(3, 0, 0));
    answer = acs_route(snapshot, length, now, 4, header, header_length, hops, sizeof hops);
    EXPECT(acs_answer_kind(answer) == ACS_KIND_DELIVERED_CHECKED && acs_answer_node(answer) == 5);
    EXPECT(acs_answer_hops(answer) == 5 && acs_hop_index(hops, 3) == 3);
    EXPECT(acs_hop_action(hops, 1) == ACS_ACTION_REFLECTED);
    answer = acs_route(snapshot, length, now, 4, header, 0, hops, sizeof hops);
    EXPECT(acs_answer_refusal(answer) == ACS_REFUSAL_HEADER);
    answer = acs_route(snapshot, length, now, ACS_HOST, header, header_length, NULL, 0);
    EXPECT(acs_answer_refusal(answer) == ACS_REFUSAL_ROOM);
}

/* ---- With the library: a fill, and what it leaves ---- */

/* Whether the bytes of a record from one to before another are all of one value. */
static int all(const uint8_t *record, size_t from, size_t end, uint8_t value)
{
    for (size_t i = from; i < end; i++)
        if (record[i] != value)
            return 0;
    return 1;
}

static void fills_are_made(void)
{
    static const uint8_t buses[3] = { 2, 3, 5 };
    static const uint8_t acs[12] = { 0x0D, 0, 0x01, 0, 0x7F, 0x08, 0x37, 0, 0x04, 0, 0, 0x80 };
    static uint8_t image[ACS_IMAGE_SIZE];
    uint8_t record[ACS_SNAPSHOT_RECORD];
    uint64_t answer;
    memset(image, 0, sizeof image);
    memset(record, 0xA5, sizeof record);
    memcpy(image + 0x18, buses, sizeof buses);
    memcpy(image + 0x100, acs, sizeof acs);
    answer = acs_fill(image, sizeof image, record, sizeof record);
    EXPECT(!acs_answer_refused(answer));
    EXPECT(acs_fill_offset(answer) == 0x100 && acs_fill_length(answer) == sizeof acs);
    /* Bus numbers; Capability and Control; the vector, and zeros after it. */
    EXPECT(record[4] == 2 && record[6] == 3 && record[7] == 5);
    EXPECT(memcmp(record + 8, acs + 4, 4) == 0 && memcmp(record + 16, acs + 8, 4) == 0);
    EXPECT(all(record, 20, 48, 0));
    /* Base and limit 0: both windows are the first 1 MiB. */
    EXPECT(all(record, 48, 56, 0) && record[56] == 0xFF && record[58] == 0x0F && record[59] == 0);
    EXPECT(memcmp(record + 48, record + 64, 16) == 0);
    EXPECT(all(record, 0, 4, 0xA5) && record[5] == 0xA5 && all(record, 12, 16, 0xA5));
    EXPECT(all(record, 80, sizeof record, 0xA5));
    image[0x100] = 0;
    answer = acs_fill(image, sizeof image, record, sizeof record);
    EXPECT(answer == 0 && all(record, 8, 12, 0) && all(record, 16, 48, 0));
}

static void fills_are_refused(void)
{
    static uint8_t image[ACS_IMAGE_SIZE + 1];
    uint8_t record[ACS_SNAPSHOT_RECORD + 1];
    memset(image, 0xFF, sizeof image);
    memset(record, 0xA5, sizeof record);
    EXPECT(acs_answer_refusal(acs_fill(image, 4096, record, 144)) == ACS_REFUSAL_CAPABILITIES);
    EXPECT(acs_answer_refusal(acs_fill(image, 4095, record, 144)) == ACS_REFUSAL_LENGTH);
    EXPECT(acs_answer_refusal(acs_fill(image, 4097, record, 144)) == ACS_REFUSAL_LENGTH);
    EXPECT(acs_answer_refusal(acs_fill(image, 4096, record, 143)) == ACS_REFUSAL_LENGTH);
    EXPECT(acs_answer_refusal(acs_fill(image, 4096, record, 145)) == ACS_REFUSAL_LENGTH);
    EXPECT(acs_answer_refusal(acs_fill(NULL, 0, NULL, 0)) == ACS_REFUSAL_LENGTH);
    EXPECT(acs_answer_node(acs_fill(image, 4096, record, 144)) == 0);
    EXPECT(all(record, 0, sizeof record, 0xA5));
}

int main(int argc, char **argv)
{
    if (argc != 2) {
        fprintf(stderr, "usage: names FOLDER\n");
        return 2;
    }
    numbers_of_documents();
    version_is_one();
    readers_are_guarded();
    fills_are_read();
    words_of_answers();
    every_number_has_words();
    requests_are_written();
    bad_headers_are_not_written();
    completions_are_written();
    library_agrees(argv[1]);
    fills_are_made();
    fills_are_refused();
    printf("%u facts of acs.h, %u wrong\n", count, wrong);
    return wrong == 0 ? 0 : 1;
}
