/* See help.h: what may come in the place of a word. */
#include "files.h"
#include "help.h"

#include <stdio.h>
#include <string.h>

static const char *typed; /* the begin of the word that is looked for */

static void offer(const char *word, const char *meaning)
{
    if (!strncmp(word, typed, strlen(typed)))
        printf("%s\t%s\n", word, meaning);
}

static void offer_option(const char *option, const struct meaning *meaning)
{
    offer(option, meaning->meaning);
}

/* What an option takes: "" where a word is no option, or takes nothing. */
static const char *value_of(const char *word)
{
    if (word[0] != '-')
        return "";
    return meaning_of(word + strspn(word, "-"), strlen(word) - strspn(word, "-"))->value;
}

static void offer_value(const char *value)
{
    if (!strcmp(value, "ROLE")) {
        offer("surveyor", "may append and load");
        offer("planner", "may do everything");
        offer("manager", "may draw and judge");
    } else if (!strcmp(value, "MARK")) {
        offer("live", "a block of the file");
        offer("deleted", "a block that was deleted");
    } else if (!strcmp(value, "FOLDER")) {
        puts(":folders");
    } else if (!strcmp(value, "FILE") || !strcmp(value, "RECEIPT")) {
        puts(":files");
    }
}

/* The first words of all commands, or the second ones that may follow a first. */
static void offer_names(const struct commands *commands, const char *first)
{
    const char *last = "";
    for (int i = 0; i < commands->count; i++) {
        const char *name = commands->all[i].name, *blank = strchr(name, ' ');
        const char *begin = blank ? text("%.*s", (int)(blank - name), name) : name;
        if (first && blank && !strcmp(begin, first))
            offer(blank + 1, commands->all[i].purpose);
        if (!first && strcmp(begin, last))
            offer(begin, blank ? text("%s ..", begin) : commands->all[i].purpose);
        last = begin;
    }
}

/* The command's name in the words before the last: up to two that are no options and no values. */
static int names_in(int count, char **words, const char **names)
{
    int found = 0;
    for (int i = 0; i + 1 < count && found < 2; i++)
        if (words[i][0] != '-')
            names[found++] = words[i];
        else if (*value_of(words[i]))
            i++;
    return found;
}

/* What may follow a command's name: its options, or the words that it takes. */
static void offer_rest(const struct commands *commands, const struct command *command)
{
    if (typed[0] == '-')
        each_option(command, offer_option);
    else if (!strcmp(command->name, "help"))
        offer_names(commands, NULL);
    else if (strstr(command->words, "FOLDER"))
        puts(":folders");
    else if (*command->words)
        puts(":files");
}

void complete_words(const struct commands *commands, int count, char **words)
{
    static const struct command any = {.name = "", .options = " "};
    const char *names[2], *value = count > 1 ? value_of(words[count - 2]) : "";
    int named = names_in(count, words, names);
    typed = count ? words[count - 1] : "";
    const struct command *one = named ? command_of(commands, names[0]) : NULL;
    const struct command *two =
        named > 1 ? command_of(commands, text("%s %s", names[0], names[1])) : NULL;
    if (*value)
        offer_value(value);
    else if (one || two)
        offer_rest(commands, two ? two : one);
    else if (named == 1)
        offer_names(commands, names[0]);
    else if (!named && typed[0] == '-')
        each_option(&any, offer_option);
    else if (!named)
        offer_names(commands, NULL);
}
