/* Lines of commands, and what each asks for. */
#include "office.h"

#include <stdio.h>
#include <string.h>
#include <strings.h>
#include <unistd.h>

/* ---- Verbs ---- */

enum verb {
    POST, SWAP, ASK, BOARD, SHOW, WHY, DUMP, LOG, CLOSE, KEEP, DROP, STEP, WORK, LIST, HELP, QUIT,
    VERBS
};

static const struct {
    const char *word, *arguments;
    size_t least, most; /* words, with the verb; a board counts its items itself */
    const char *help, *example;
} verbs[VERBS] = {
    [POST] = { "post", "ITEM NUMBER", 3, 3, "record a number, or null for none", "post A 1,000" },
    [SWAP] = { "swap", "FROM TO QUANTITY", 4, 4, "move grams between two entries", "swap A S 250" },
    [ASK] = { "ask", "ITEM", 2, 2, "catch up, and read an item", "ask B" },
    [BOARD] = { "board", "ITEM...", 2, SIZE_MAX, "catch up once, and read up to 64 items",
                "board A L B" },
    [SHOW] = { "show", "[PATTERN]", 1, 2, "read all items, or those that fit", "show A*" },
    [WHY] = { "why", "ITEM [DEPTH]", 2, 3, "explain the value of an item", "why B" },
    [DUMP] = { "dump", "", 1, 1, "show the posts that make all entries", "dump" },
    [LOG] = { "log", "[LINES]", 1, 2, "show what was posted, and when", "log 10" },
    [CLOSE] = { "close", "", 1, 1, "store every figure, and read all items", "close" },
    [KEEP] = { "keep", "ITEM", 2, 2, "store a figure", "keep T" },
    [DROP] = { "drop", "ITEM", 2, 2, "store a figure no longer", "drop T" },
    [STEP] = { "step", "ITEM", 2, 2, "do the work of an item's mark", "step A" },
    [WORK] = { "work", "", 1, 1, "do that of all marks; Ctrl-C stops it", "work" },
    [LIST] = { "list", "[ITEM]", 1, 2, "show what is stored, marked and owed", "list T" },
    [HELP] = { "help", "[COMMAND]", 1, 2, "show this, or a command", "help post" },
    [QUIT] = { "quit", "", 1, 1, "end", "quit" },
};

static const struct {
    const char *word, *meaning;
} notes[] = {
    { "ITEM", "a name, or # and an item's number, such as #3" },
    { "NUMBER", "a whole number of grams without blanks, such as 1000 or 1,000; null for nothing "
                "recorded" },
    { "FROM", "the entry that gives: its name, or # and its number" },
    { "TO", "the entry that takes, likewise" },
    { "QUANTITY", "a whole number of grams without blanks, at least 1, such as 1000 or 1,000" },
    { "PATTERN", "a name, in which * stands for any letters, ? for one, and [ab] for a or b" },
    { "DEPTH", "how many levels to go up, 1 to 64; 3 if it is left out" },
    { "LINES", "how many of the last lines; all if it is left out" },
    { "COMMAND", "the first word of a line, such as post" },
    /* What may stand for a value. */
    { "-", "nothing recorded" },
    { "OUT", "out of range, or worked out from an item that is: why says where that begins" },
    { "UNK", "what list shows for a figure that is not stored: ask works it out" },
};

/* ---- Help ---- */

/* The notes on the words that stand in the arguments; all notes for null. */
static void show_notes(const char *arguments)
{
    for (size_t k = 0; k < sizeof notes / sizeof *notes; k++) {
        if (arguments == NULL || strstr(arguments, notes[k].word) != NULL)
            printf("  %-8s  %s\n", notes[k].word, notes[k].meaning);
    }
}

static void show_help_row(const char *word, const char *arguments, const char *does,
                          const char *example)
{
    printf("%-5s %-16s  %-38s  %s\n", word, arguments, does, example);
}

static void show_verb(enum verb verb)
{
    show_help_row(verbs[verb].word, verbs[verb].arguments, verbs[verb].help, verbs[verb].example);
}

/* What other programs are ended with. */
static bool is_an_end(const char *word)
{
    static const char *const ends[] = { "exit", "q", "bye", "end" };
    size_t k = 0;
    while (k < sizeof ends / sizeof *ends && strcasecmp(ends[k], word) != 0)
        k++;
    return k < sizeof ends / sizeof *ends;
}

/* The verb that a word is; VERBS if it is none, and says so. */
static enum verb find_verb(const char *word)
{
    size_t k = 0, near = 0;
    while (k < VERBS && strcmp(verbs[k].word, word) != 0)
        k++;
    if (k < VERBS)
        return (enum verb)k;
    while (near < VERBS && !is_near(word, verbs[near].word))
        near++;
    print_word(word);
    if (word[0] == '#')
        puts(" is no command; a comment begins with # and a blank");
    else if (is_an_end(word))
        puts(" is no command; type quit to end");
    else if (near < VERBS)
        printf(" is no command; did you mean %s?\n", verbs[near].word);
    else
        puts(" is no command; try help");
    return VERBS;
}

bool show_help(const char *word)
{
    enum verb verb = word != NULL ? find_verb(word) : VERBS;
    if (word != NULL && verb == VERBS)
        return false;
    show_help_row("TYPE", "", "TO", "FOR EXAMPLE");
    for (size_t k = 0; k < VERBS; k++) {
        if (word == NULL || k == verb)
            show_verb((enum verb)k);
    }
    show_notes(word != NULL ? verbs[verb].arguments : NULL);
    if (word == NULL)
        puts("A line that begins with # and a blank is a comment, and is skipped.");
    return true;
}

/* The verb of a command with a right number of words; VERBS if there is none, and says so. */
static enum verb verb_of(char **words, size_t count)
{
    enum verb verb = find_verb(words[0]);
    if (verb == VERBS || (count >= verbs[verb].least && count <= verbs[verb].most))
        return verb;
    if (verbs[verb].most == 1)
        printf("%s stands alone: type just %s\n", words[0], words[0]);
    else
        printf("type %s %s, for example: %s\n", words[0], verbs[verb].arguments,
               verbs[verb].example);
    show_notes(verbs[verb].arguments);
    return VERBS;
}

/* A command on an item, with the value of a post or a depth. */
static bool command_on(struct office *office, enum verb verb, const char *word, const char *more)
{
    uint64_t item;
    if (!find_item(office, word, &item))
        return false;
    switch (verb) {
    case POST:
        return post(office, item, more);
    case ASK:
        return ask(office, item);
    case KEEP:
        return keep(office, item);
    case DROP:
        return drop(office, item);
    case STEP:
        return step(office, item);
    case WHY:
        return why(office, item, more);
    default:
        return list(office, item);
    }
}

/* Whether the command was done. */
static bool command(struct office *office, enum verb verb, char **words, size_t count)
{
    const char *first = count > 1 ? words[1] : NULL, *second = count > 2 ? words[2] : NULL;
    switch (verb) {
    case HELP:
        return show_help(first);
    case SWAP:
        return swap(office, words + 1);
    case BOARD:
        return board(office, words + 1, count - 1);
    case SHOW:
        return show(office, first);
    case DUMP:
        return dump(office);
    case LOG:
        return show_log(office, first);
    case CLOSE:
        return close_season(office);
    case WORK:
        return work(office);
    case LIST:
        if (first != NULL)
            return command_on(office, verb, first, NULL);
        show_items(office);
        return true;
    case QUIT:
        return true;
    case VERBS:
        return false;
    default:
        return command_on(office, verb, first, second);
    }
}

/* ---- Lines ---- */

/* Cuts a line into words, at most so many; more are counted, not kept. */
static size_t cut_words(char *line, char **words, size_t most)
{
    static const char blanks[] = " \t\r\n";
    size_t count = 0;
    for (char *word = line + strspn(line, blanks); *word != '\0'; count++) {
        char *end = word + strcspn(word, blanks);
        char *next = end + strspn(end, blanks);
        *end = '\0';
        if (count < most)
            words[count] = word;
        word = next;
    }
    return count;
}

/* Room for a board of the longest names. */
enum { LINE_MOST = 2000, WORDS_MOST = 1 + ROZHINAL_MAX_BOARD };
enum input { A_LINE, NO_COMMAND, CUT_OFF, THE_END };

/* The next line, without its end. What cannot be a command is read to its end and not kept. */
static enum input read_line(char line[LINE_MOST + 1])
{
    size_t length = 0;
    bool zero = false;
    int c;
    while ((c = getchar()) != EOF && c != '\n') {
        if (length < LINE_MOST)
            line[length] = (char)c;
        if (length <= LINE_MOST)
            length++;
        zero = zero || c == '\0';
    }
    if (c == EOF)
        return length == 0 ? THE_END : CUT_OFF;
    if (zero || length > LINE_MOST)
        return NO_COMMAND;
    line[length] = '\0';
    return A_LINE;
}

/*
 * Takes commands until quit or the end of the input, and counts those that were not done. False if
 * the input ends within a line.
 */
static bool take_lines(struct office *office, bool prompt, size_t *undone)
{
    char line[LINE_MOST + 1], *words[WORDS_MOST];
    for (;;) {
        if (prompt)
            fputs("> ", stdout);
        fflush(stdout);
        enum input input = read_line(line);
        if (input == THE_END || input == CUT_OFF)
            return input == THE_END;
        if (input == NO_COMMAND) {
            printf("that line is no command: it has a zero byte, or over %d bytes; try help\n",
                   LINE_MOST);
            ++*undone;
            continue;
        }
        size_t count = cut_words(line, words, WORDS_MOST);
        if (count == 0 || strcmp(words[0], "#") == 0)
            continue; /* a blank line or a comment */
        enum verb verb = verb_of(words, count);
        if (verb == QUIT)
            return true;
        *undone += !command(office, verb, words, count);
    }
}

int take_commands(struct office *office)
{
    bool terminal = isatty(STDIN_FILENO);
    size_t undone = 0;
    int status = 0;
    /* Of a post that was cut off the number may be another one. */
    if (!take_lines(office, terminal, &undone)) {
        puts("the last line has no end, and is not taken: type it again, and Enter after it");
        status = 1;
    }
    bool failed = ferror(stdin);
    if (fflush(stdout) != 0 || ferror(stdout) || failed) {
        fputs("office: input or output failed\n", stderr);
        status = 1;
    }
    return undone > 0 && !terminal ? 1 : status;
}
