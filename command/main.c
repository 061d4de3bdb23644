/* The words of the command line, and help. */
#include "mpt.h"

#include <fcntl.h>
#include <getopt.h>
#include <signal.h>
#include <stdlib.h>
#include <string.h>
#include <unistd.h>

static const struct verb {
    const char *name, *words, *help;
    const char *options;        /* their letters, below */
    int least, most;            /* how many words */
    int (*run)(const struct call *call);
    const char *more;
} verbs[] = {
    { "list", "DUMP", "the listing of a dump, as mplist writes it", "p", 1, 1, list, "" },
    { "judge", "[--table | --dump] FILE",
      "whether a table or a dump is accepted, or by which rule it is refused", "td", 1, 1, judge, "" },
    { "table", "DUMP [-o FILE]", "the table that a dump holds, as a file", "po", 1, 1, table, "" },
    { "entries", "TABLE", "each entry: its place, its bytes and its line; what edit takes", "p",
      1, 1, entries, "" },
    { "routes", "[--io | --local] TABLE TYPE BUS IRQ",
      "where an interrupt line goes; TYPE is INT, NMI, SMI, EXTINT or a number", "ilp",
      4, 4, routes, "" },
    { "slots", "TABLE", "each PCI slot that the table names, and where its interrupt goes", "p",
      1, 1, slots, "" },
    { "slot", "TABLE BUS DEVICE PIN",
      "where the interrupt of a PCI slot goes; PIN is A, B, C, D or a number, 0 for INTA#", "p",
      4, 4, slot,
      "DEVICE is 0 to 31. A, a, INTA, INTA# and 0 are one pin. 'mpt slots' prints the bus, device\n"
      "and pin of each slot.\n" },
    { "renumber", "TABLE", "each I/O APIC's number, and a new one where a processor that is on has it", "p",
      1, 1, renumber,
      "A new number is the lowest from 0 to 254 that is free; processors and I/O APICs that are off\n"
      "take none. The table stays as it is, and other verbs name its numbers.\n" },
    { "sees", "TABLE BUS KIND ADDRESS",
      "whether a bus sees an address; KIND is io, memory, prefetch or a number", "p", 4, 4, sees,
      "A subtractive bus sees what its parent sees, but not what another bus there claims; where none does,\n"
      "but one there has no map, no mod and no such bit, it is undeclared. Where such a bus decides, the\n"
      "answer names it.\n" },
    { "edit", "TABLE PLACE STATED WANTED, or TABLE PLACE STATED --set FIELD=VALUE ..",
      "one entry replaced in the file, if it still has the bytes stated", "s", 3, 4, edit,
      "Fields of a processor: id version enabled boot signature features; of a bus: id name;\n"
      "of an I/O APIC: id version enabled address; of an interrupt: type polarity trigger bus\n"
      "irq destination input. PLACE and STATED are what 'mpt entries' prints.\n" },
    { "parts", "TABLE [-o FILE]", "a table as a text that a person can edit", "po", 1, 1, parts, "" },
    { "make", "TEXT [-o FILE]", "the table that the writer makes of such a text", "o", 1, 1, make, "" },
    { "dump", "--memory IMAGE [-o FILE], or --region KIND:BASE:FILE .. [-o FILE]",
      "a dump, from the first MiB of a memory or from regions by hand", "mro", 0, 0, dump,
      "KIND is ebda (1), base (2), rom (3) or other (4); BASE is the address of its first byte.\n" },
    { "log", "[--check FIRST] TABLE",
      "who changed what, when; with FIRST, whether that makes the table of it", "c",
      1, 1, history, "" },
    { "book new", "BOOK", "a new book of earlier tables, with none in it", "", 1, 1, book_new, "" },
    { "book save", "BOOK MACHINE --began N TABLE",
      "a table as the machine's next edition, if N is still the latest", "b", 3, 3, book_save,
      "MACHINE is a number from 0 to 65,535 of your own. N is the edition that you began from, 0 for a\n"
      "new machine. Where another one is the latest, it says whose it is and what differs.\n" },
    { "book restore", "BOOK MACHINE EDITION --latest N",
      "an old edition once more as the next one, if N is still the latest", "n", 3, 3,
      book_restore, "" },
    { "book history", "BOOK [MACHINE]", "each edition, of all machines or of one: who saved it, when",
      "", 1, 2, book_history, "" },
    { "book show", "BOOK MACHINE EDITION [-o FILE]", "the table of an edition, as a file", "o",
      3, 3, book_show, "" },
    { "book diff", "BOOK MACHINE A B", "what differs between two editions, in the words of parts and entries",
      "", 4, 4, book_diff, "Lines of edition A begin with -, those of edition B with +.\n" },
};

static const struct option options[] = {
    { "help", no_argument, NULL, 'h' },         { "table", no_argument, NULL, 't' },
    { "dump", no_argument, NULL, 'd' },         { "io", no_argument, NULL, 'i' },
    { "local", no_argument, NULL, 'l' },        { "set", required_argument, NULL, 's' },
    { "memory", required_argument, NULL, 'm' }, { "region", required_argument, NULL, 'r' },
    { "check", required_argument, NULL, 'c' },  { "began", required_argument, NULL, 'b' },
    { "latest", required_argument, NULL, 'n' }, { "boot", required_argument, NULL, 'p' },
    { NULL, 0, NULL, 0 },
};

static const char notes[] =
    "\nA file '-' is standard input, but not one that is changed or has a log: the TABLE of edit and\n"
    "log, the BOOK of new, save, restore and history. Numbers are decimal, or hexadecimal with 0x;\n"
    "addresses and bytes are hexadecimal. -o FILE makes a new file, over none. With --boot 0 or 1 the\n"
    "verbs that show a table or ask about it take a dump, also one of a default configuration.\n"
    "Ends with 0 for an answer, 1 for a refusal, 2 for wrong words or a system error.\n"
    "docs/USING.md and mpt(1) say more.\n";

static const char of_boot[] =
    "With --boot N the file is a dump. Where that is of a default configuration, and so holds no table, the\n"
    "full table that it stands for is made, as it is when processor N booted, 0 or 1.\n";

static int help(const struct verb *verb)
{
    bool boot = strchr(verb->options, 'p') != NULL;

    printf("usage: mpt %s %s%s\n\n%s\n%s%s", verb->name, boot ? "[--boot N] " : "", verb->words, verb->help,
           verb->more, boot ? of_boot : "");
    return ANSWER;
}

static int help_of_all(void)
{
    printf("usage: mpt VERB WORD.., mpt VERB --help, mpt --help, mpt --version\n\n");
    for (size_t i = 0; i < sizeof verbs / sizeof *verbs; i++)
        printf("  %-12s %s\n", verbs[i].name, verbs[i].help);
    printf("%s", notes);
    return ANSWER;
}

static int help_of_book(void)
{
    printf("usage: mpt book VERB WORD.., mpt book VERB --help\n");
    for (size_t i = 0; i < sizeof verbs / sizeof *verbs; i++)
        if (strncmp(verbs[i].name, "book ", 5) == 0)
            printf("\n  mpt %s %s\n    %s\n", verbs[i].name, verbs[i].words, verbs[i].help);
    return ANSWER;
}

static bool is_help(const char *word)
{
    return strcmp(word, "--help") == 0 || strcmp(word, "-h") == 0;
}

static void take_option(struct call *call, int letter)
{
    switch (letter) {
    case 't': call->table = true; break;
    case 'd': call->dump = true; break;
    case 'i': call->io = true; break;
    case 'l': call->local = true; break;
    case 'o': call->out = optarg; break;
    case 'm': call->memory = optarg; break;
    case 'c': call->first = optarg; break;
    case 'b': call->began = optarg; break;
    case 'n': call->latest = optarg; break;
    case 'p': call->boot = optarg; break;
    case 's': call->set.at[call->set.count++] = optarg; break;
    case 'r': call->region.at[call->region.count++] = optarg; break;
    }
}

/* The words from the verb on; options may stand anywhere before --. */
static int run(const struct verb *verb, int count, char **word)
{
    struct call call = { .words = 0 };
    int letter;

    unsetenv("POSIXLY_CORRECT");        /* options may stand behind words */
    opterr = 0;
    while ((letter = getopt_long(count, word, ":ho:", options, NULL)) != -1) {
        if (letter == 'h')
            return help(verb);
        if (letter == ':')
            wrong("%s: %s wants a value", verb->name, word[optind - 1]);
        if (letter == '?' || strchr(verb->options, letter) == NULL)
            wrong("%s: a wrong option: see 'mpt %s --help'", verb->name, verb->name);
        take_option(&call, letter);
        if (call.set.count > REGIONS || call.region.count > REGIONS)
            wrong("%s: more than eight of one option", verb->name);
    }
    call.word = word + optind;
    call.words = count - optind;
    if (call.words < verb->least || call.words > verb->most)
        wrong("usage: mpt %s %s", verb->name, verb->words);
    return verb->run(&call);
}

/* How many words these have of a verb's name, which has one or two; 0 where it is another's. */
static int words_of_name(const char *name, int count, char **word)
{
    size_t first = strcspn(name, " ");

    if (strlen(word[0]) != first || strncmp(word[0], name, first) != 0)
        return 0;
    if (name[first] == '\0')
        return 1;
    return count > 1 && strcmp(word[1], name + first + 1) == 0 ? 2 : 0;
}

/* Of a book, and no verb. */
static int no_verb(int count, char **word)
{
    for (int i = 1; i < count; i++)
        if (is_help(word[i]))
            return help_of_book();
    if (count > 1)
        wrong("no verb 'book %s': see 'mpt book --help'", word[1]);
    wrong("usage: mpt book VERB WORD..: see 'mpt book --help'");
}

static int called(int count, char **word)
{
    if (count < 1)
        wrong("usage: mpt VERB WORD..: see 'mpt --help'");
    if (is_help(word[0]))
        return help_of_all();
    if (strcmp(word[0], "--version") == 0)
        return printf("mpt 1.0, for Intel MultiProcessor Specification 1.4\n"), ANSWER;
    for (size_t i = 0; i < sizeof verbs / sizeof *verbs; i++) {
        int named = words_of_name(verbs[i].name, count, word);
        if (named > 0)
            return run(&verbs[i], count - named + 1, word + named - 1);
    }
    if (strcmp(word[0], "book") == 0)
        return no_verb(count, word);
    wrong("no verb '%s': see 'mpt --help'", word[0]);
}

int main(int argc, char **argv)
{
    /* Where one of the three is closed, a table would be opened in its place. */
    for (int file = 0; file < 3; file++)
        if (fcntl(file, F_GETFD) < 0)
            open("/dev/null", file == 0 ? O_WRONLY : O_RDONLY);
    signal(SIGXFSZ, SIG_IGN);           /* a write past a limit fails, and is said */
    int status = called(argc - 1, argv + 1);
    if (fflush(stdout) != 0 || ferror(stdout))
        failed("standard output");
    return status;
}
