/* See table.h. */
#include "table.h"
#include "files.h"
#include "report.h"

#include <stdio.h>
#include <string.h>

enum { MOST_COLUMNS = 16 };

struct table new_table(int columns)
{
    struct table table = {.columns = columns};
    return table;
}

void put_cell(struct table *table, const char *words)
{
    if (table->count == table->room) {
        int more = table->room ? 2 * table->room : 64;
        const char **cells = (const char **)room((size_t)more * sizeof *cells).at;
        if (table->count)
            memcpy(cells, table->cells, (size_t)table->count * sizeof *cells);
        table->cells = cells;
        table->room = more;
    }
    table->cells[table->count++] = words;
}

/* How many characters a text has, of which none is wider than another. */
static int width_of(const char *words)
{
    int width = 0;
    for (; *words; width++) {
        int length = plain_length(words);
        words += length ? length : 1;
    }
    return width;
}

void print_table(const struct table *table)
{
    int widths[MOST_COLUMNS] = {0};
    for (int i = 0; i < table->count; i++) {
        int width = width_of(table->cells[i]), column = i % table->columns;
        widths[column] = width > widths[column] ? width : widths[column];
    }
    for (int i = 0; i < table->count; i++) {
        int column = i % table->columns, last = column == table->columns - 1;
        int blanks = widths[column] - width_of(table->cells[i]);
        int before = table->right >> column & 1 ? blanks : 0;
        printf("%*s%s%*s%s", before, "", table->cells[i], last ? 0 : blanks - before, "",
               last     ? "\n"
               : column ? "  "
                        : " ");
    }
}
