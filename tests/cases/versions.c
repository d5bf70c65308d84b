/* Versions: numbers that are none, at set-up and in everything that is read; and the other versions
 * where the file's is wanted. */
#include "cases.h"

#include "support/expect.h"
#include "support/files.h"

#include <string.h>

#define COUNT(array) (sizeof(array) / sizeof *(array))

/* Where a record, a message or a reply has its version; and a reply its record. */
enum {
    B = 28,
    D = 5,
    R = 5,
    T = 4,
    N = 7,
    VERSION_AT = 2,
    RECORD_AT = LEGBARO_REPLY_BYTES - LEGBARO_RECORD_BYTES
};

static const uint8_t no_versions[] = {0, 4, 5, 127, 128, 129, 130, 131, 255};

static void versions_at_set_up(void)
{
    static const uint64_t no_numbers[] = {0,
                                          4,
                                          255,
                                          256,
                                          257,
                                          258,
                                          259,
                                          UINT64_C(1) << 32,
                                          (UINT64_C(1) << 32) + 1,
                                          UINT64_C(1) << 63,
                                          UINT64_MAX};
    test_begin("set-ups of versions that there are not");
    for (size_t i = 0; i < COUNT(no_numbers); i++) {
        struct call call = file_set_up_call(no_numbers[i], B, D, R, T, N);
        call_finish(&call, LEGBARO_OUT_OF_LIMITS, "no version");
    }
    test_end();
}

/* A call with a byte of one of its buffers altered. */
static void with_byte(const struct file *file, enum kind kind, enum argument argument, size_t at,
                      uint64_t value, uint64_t number)
{
    struct call call = file_call(file, kind);
    call.args[argument].bytes[at] = (uint8_t)value;
    call_finish(&call, number, "another version");
}

/* Any unused record of another version, or of none: 7, with its number. */
static void version_of_records(const struct file *changing, enum kind change, uint64_t version)
{
    for (uint64_t token = changing->book.numbers.next; token <= T; token++)
        with_byte(changing, change, TABLE, (token - 1) * LEGBARO_RECORD_BYTES + VERSION_AT, version,
                  LEGBARO_BAD_RECORD + 256 * token);
}

/* In a card and in a message: 2. */
static void versions_in_changes(const struct file *changing)
{
    uint64_t own = changing->book.numbers.version;
    enum kind last = own == LEGBARO_TWO_STEPS ? ASK_BATCH : BATCH;
    for (enum kind kind = UPDATE; kind <= last; kind++) {
        for (size_t i = 0; i < COUNT(no_versions); i++) {
            with_byte(changing, kind, CARD, VERSION_AT, no_versions[i], LEGBARO_WRONG_HEADER);
            version_of_records(changing, kind, no_versions[i]);
        }
        for (uint64_t other = FIRST_VERSION; other <= LAST_VERSION; other++)
            if (other != own)
                version_of_records(changing, kind, other);
    }
    for (enum kind kind = ASK_UPDATE; kind <= DROP; kind++)
        for (size_t i = 0; i < COUNT(no_versions); i++)
            with_byte(changing, kind, CARD, VERSION_AT, no_versions[i], LEGBARO_WRONG_HEADER);
}

/* In a reply, and in the record within it: rejected. */
static void versions_in_audits(const struct file *changing, const struct file *judging)
{
    for (size_t i = 0; i < COUNT(no_versions); i++) {
        with_byte(changing, DRAW, CARD, VERSION_AT, no_versions[i], LEGBARO_WRONG_HEADER);
        with_byte(judging, JUDGE, CARD, VERSION_AT, no_versions[i], LEGBARO_WRONG_HEADER);
        with_byte(judging, PROVE, MESSAGE, VERSION_AT, no_versions[i], LEGBARO_WRONG_HEADER);
        with_byte(judging, CAUSE, CARD, VERSION_AT, no_versions[i], LEGBARO_WRONG_HEADER);
        with_byte(judging, JUDGE, REPLY, VERSION_AT, no_versions[i], LEGBARO_REJECTED);
        with_byte(judging, JUDGE, REPLY, RECORD_AT + VERSION_AT, no_versions[i], LEGBARO_REJECTED);
    }
    for (uint64_t other = FIRST_VERSION; other <= LAST_VERSION; other++)
        if (other != judging->book.numbers.version) {
            with_byte(judging, JUDGE, REPLY, VERSION_AT, other, LEGBARO_REJECTED);
            with_byte(judging, JUDGE, REPLY, RECORD_AT + VERSION_AT, other, LEGBARO_REJECTED);
        }
}

/* Makes a card of a version of a file's: the same numbers, in the size of that version. */
static void put_card(const struct file *file, struct call *call, uint64_t version)
{
    struct card numbers = file->book.numbers;
    numbers.version = version;
    buffer_resize(&call->args[CARD], reference_card_bytes(version));
    reference_write_card(call->args[CARD].bytes, &numbers);
}

/* A call on a card of another version. */
static void with_card(const struct file *file, enum kind kind, uint64_t version, uint64_t number)
{
    struct call call = file_call(file, kind);
    put_card(file, &call, version);
    call_finish(&call, number, "a card of another version");
}

/* An update on a card of another version, with the mark that it wants: no record opens by it. */
static void with_its_mark(const struct file *file, uint64_t version, uint64_t number)
{
    struct call update = file_call(file, UPDATE);
    put_card(file, &update, version);
    buffer_resize(&update.args[MARKS], version == LEGBARO_WITHOUT_MARKS ? 0 : 1);
    memset(update.args[MARKS].bytes, LEGBARO_LIVE, update.args[MARKS].length);
    call_finish(&update, number, "a mark of the other version");
}

/* A card of another version: its marks may have another length there, and no record opens by it.
 * Its draw is accepted. */
static void cards_of_another(const struct file *changing, const struct file *judging,
                             uint64_t other)
{
    uint64_t bad = LEGBARO_BAD_RECORD + 256 * changing->book.numbers.next;
    int same_marks = (other == LEGBARO_WITHOUT_MARKS) ==
                     (changing->book.numbers.version == LEGBARO_WITHOUT_MARKS);
    with_card(changing, UPDATE, other, same_marks ? bad : LEGBARO_WRONG_LENGTH);
    with_card(changing, DELETE, other, same_marks ? bad : LEGBARO_WRONG_LENGTH);
    with_card(changing, APPEND, other, bad);
    with_card(changing, LOAD, other, bad);
    with_card(changing, BATCH, other, same_marks ? bad : LEGBARO_BAD_BATCH);
    with_card(changing, ASK_APPEND, other, other == LEGBARO_TWO_STEPS ? bad : LEGBARO_WRONG_HEADER);
    with_card(changing, COMMIT, other, LEGBARO_NONE_PENDING);
    with_card(changing, DROP, other, LEGBARO_NONE_PENDING);
    with_card(changing, DRAW, other, LEGBARO_OK);
    with_card(judging, JUDGE, other, LEGBARO_REJECTED);
    with_byte(judging, PROVE, MESSAGE, VERSION_AT, other,
              same_marks ? LEGBARO_OK : LEGBARO_WRONG_LENGTH);
    with_its_mark(changing, other, bad);
}

static void versions_of_a_file(uint64_t version)
{
    test_begin("other versions than the file's, which is %llu, in all that is read",
               (unsigned long long)version);
    struct file changing = file_set_up(version, B, D, R, T, N),
                judging = file_set_up(version, B, D, R, T, N);
    file_audit(&changing);
    file_do(&judging, DRAW);
    versions_in_changes(&changing);
    versions_in_audits(&changing, &judging);
    for (uint64_t other = FIRST_VERSION; other <= LAST_VERSION; other++)
        if (other != version)
            cards_of_another(&changing, &judging, other);
    file_end(&changing);
    file_end(&judging);
    test_end();
}

void test_versions(void)
{
    versions_at_set_up();
    for (uint64_t version = FIRST_VERSION; version <= LAST_VERSION; version++)
        versions_of_a_file(version);
}
