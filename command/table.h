/* Columns of words for people, each as wide as its widest cell. */
#ifndef TABLE_H
#define TABLE_H

struct table {
    const char **cells;
    int columns, count, room;
    unsigned right; /* a bit for each column that is set at its right */
};

struct table new_table(int columns);
void put_cell(struct table *table, const char *words);

/* Prints the lines on standard output. */
void print_table(const struct table *table);

#endif
