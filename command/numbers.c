/* See numbers.h. */
#include "numbers.h"
#include "files.h"

#include <inttypes.h>
#include <string.h>

uint64_t sheet_of(const struct numbers *of, struct sheet *sheet)
{
    uint8_t out[LEGBARO_SHEET_BYTES] = {0};
    uint64_t code = legbaro_sheet(of->block_bytes, of->rows, of->positions, of->tokens, of->blocks,
                                  of->damaged, out, sizeof out);
    sheet->table = number_at(out + LEGBARO_SHEET_TABLE, 8);
    sheet->turns = number_at(out + LEGBARO_SHEET_TURNS, 8);
    sheet->least = number_at(out + LEGBARO_SHEET_LEAST, 8);
    sheet->most = number_at(out + LEGBARO_SHEET_MOST, 8);
    sheet->escape = number_at(out + LEGBARO_SHEET_ESCAPE, 8);
    return code;
}

uint64_t escape_of(const struct numbers *of, uint64_t positions, uint64_t damaged)
{
    struct numbers other = *of;
    struct sheet sheet;
    other.positions = positions;
    other.damaged = damaged;
    sheet_of(&other, &sheet);
    return sheet.escape;
}

uint64_t most_positions(const struct numbers *of)
{
    return of->rows < LEGBARO_MOST_POSITIONS ? of->rows : LEGBARO_MOST_POSITIONS;
}

int sifted(uint64_t *list, int count, uint64_t most)
{
    int left = 0;
    for (int i = 0; i < count; i++)
        if (list[i] && list[i] <= most && (!left || list[i] > list[left - 1]))
            list[left++] = list[i];
    return left;
}

int positions_shown(const struct numbers *of, uint64_t list[MOST_SHOWN])
{
    uint64_t r = of->positions, most = most_positions(of);
    uint64_t all[] = {r / 8, r / 4, r / 2, r, 2 * r, 4 * r, 8 * r, 16 * r, most}, *first = all;
    int count = sifted(all, sizeof all / sizeof *all, most);
    for (; count > MOST_SHOWN && all[count - 2] > 4 * r; count--)
        all[count - 2] = all[count - 1];
    first += count > MOST_SHOWN ? count - MOST_SHOWN : 0;
    count -= (int)(first - all);
    memcpy(list, first, (size_t)count * sizeof *list);
    return count;
}

const char *counted(uint64_t number, const char *one, const char *several)
{
    return text("%" PRIu64 " %s", number, number == 1 ? one : several);
}

const char *grouped(uint64_t number)
{
    const char *digits = text("%" PRIu64, number);
    size_t length = strlen(digits);
    char *start = (char *)room(2 * length + 1).at, *at = start;
    for (size_t i = 0; i < length; i++) {
        if (i && (length - i) % 3 == 0)
            *at++ = ',';
        *at++ = digits[i];
    }
    return start;
}

const char *percent(uint64_t escape)
{
    uint64_t thousandths = (escape * 100000 + LEGBARO_ESCAPE_ONE - 1) / LEGBARO_ESCAPE_ONE;
    return text("%" PRIu64 ".%03" PRIu64 " %%", thousandths / 1000, thousandths % 1000);
}
