/* See receipt.h. */
#include "receipt.h"
#include "owner.h"
#include "report.h"

#include "legbaro.h"

#include <inttypes.h>
#include <string.h>

enum { MAGIC_BYTES = 8, RECEIPT_VERSION = 1 };
static const char magic[] = "receipt\n";

/* Where a receipt has what, after the magic. */
enum { VERSION = 8, ID = 9, COUNTER = 17, KNOWN = 25, CHECKSUM = 26, OWN_CHECKSUM = 30 };

int prepare_receipt(const struct folder *folder, struct bytes card, uint64_t counter)
{
    const char *path = path_in(folder->path, "change");
    uint8_t receipt[RECEIPT_BYTES] = {0};
    const struct piece piece = {receipt, sizeof receipt};
    struct change change;
    uint32_t checksum = 0;
    int known = is_in(folder, "change") && peek_change(path, &change) &&
                change.counter == counter && peek_checksum(path, &checksum);
    memcpy(receipt, magic, MAGIC_BYTES);
    memcpy(receipt + ID, card.at + LEGBARO_CARD_ID, LEGBARO_ID_BYTES);
    put_number(receipt + VERSION, 1, RECEIPT_VERSION);
    put_number(receipt + COUNTER, 8, counter);
    put_number(receipt + KNOWN, 1, (uint64_t)known);
    put_number(receipt + CHECKSUM, 4, checksum);
    put_number(receipt + OWN_CHECKSUM, 4, checksum_of(0, receipt, OWN_CHECKSUM));
    prepare(folder, "committed", 0600, &piece, 1);
    return known;
}

static int is_receipt(struct bytes bytes)
{
    return bytes.length == RECEIPT_BYTES && !memcmp(bytes.at, magic, MAGIC_BYTES) &&
           bytes.at[VERSION] == RECEIPT_VERSION && bytes.at[KNOWN] <= 1 &&
           number_at(bytes.at + OWN_CHECKSUM, 4) == checksum_of(0, bytes.at, OWN_CHECKSUM);
}

void settle_receipt(const struct folder *folder, struct bytes card)
{
    if (!is_in(folder, "committed.new"))
        return;
    struct bytes receipt = map_file(path_in(folder->path, "committed.new"));
    if (is_receipt(receipt) &&
        !memcmp(receipt.at + ID, card.at + LEGBARO_CARD_ID, LEGBARO_ID_BYTES) &&
        number_at(receipt.at + COUNTER, 8) == in_card(card, LEGBARO_CARD_COUNTER, 8))
        place(folder, "committed");
    else
        take_away(folder, "committed.new");
}

int check_receipt(const char *path, const struct change *c, const char *change_path)
{
    static const char *const next =
        "Ask the owner for the file 'committed' of this change. Nothing has changed.";
    struct bytes receipt = read_small(path, LEGBARO_MOST_BLOCK_BYTES, "a receipt");
    const char *words = input_words(path);
    about(path);
    if (!is_receipt(receipt))
        refuse(TURNED_AWAY, next, "%s is no receipt of a commit, or is damaged", words);
    if (memcmp(receipt.at + ID, c->id, LEGBARO_ID_BYTES))
        refuse(TURNED_AWAY, next, "%s is the receipt of a change of file %s, and %s is for file %s",
               words, id_words(receipt.at + ID), change_path, id_words(c->id));
    if (number_at(receipt.at + COUNTER, 8) != c->counter)
        refuse(TURNED_AWAY, next,
               "%s is the receipt of the change at counter %" PRIu64
               ", and %s has counter %" PRIu64,
               words, number_at(receipt.at + COUNTER, 8), change_path, c->counter);
    if (receipt.at[KNOWN] && number_at(receipt.at + CHECKSUM, 4) != c->checksum)
        refuse(TURNED_AWAY, next,
               "%s is the receipt of another change than %s: the checksums differ", words,
               change_path);
    return receipt.at[KNOWN];
}
