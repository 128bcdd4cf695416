#include "arguments.h"

#include <stdio.h>
#include <string.h>

const char usage[] =
    "usage: service [OPTIONS] SNAPSHOT\n"
    "       service [OPTIONS] SNAPSHOT ORIGIN read|write ADDRESS [REQUESTER]\n"
    "       service [OPTIONS] SNAPSHOT ORIGIN completion ID\n"
    "\n"
    "  SNAPSHOT        a snapshot's file; alone, it is checked and its records are listed\n"
    "  ORIGIN          who sends: an endpoint, by its record's index (in decimal) or as\n"
    "                  03:00.0; or host\n"
    "  ADDRESS         in hexadecimal: 80100000, 0x80100000 or 80100000h\n"
    "  REQUESTER, ID   bus, device and function: 03:00.0, 0000:03:00.0, or in hexadecimal\n"
    "                  0300, 0x0300 or 0300h. REQUESTER is the sender's own ID if not said\n"
    "\n"
    "  --now SECONDS      ask as of this time, not of the machine's clock\n"
    "  --at N             address type of a request: 0 untranslated (if not said),\n"
    "                     1 translation request, 2 translated, 3 reserved\n"
    "  --length N         length of a request in doublewords, 1 to 1024 (if not said, 1)\n"
    "  --relaxed          the completion has Relaxed Ordering\n"
    "  --no-data          the completion has no data\n"
    "  --room BYTES       room lent for the hops, 0 to 1028 (if not said, 1028)\n"
    "  --exit-by-outcome  let the exit status say how the way ends, see below\n"
    "  --for-acsroute     ask nothing: write the query to standard output as the program\n"
    "                     acsroute reads it\n"
    "  --version          the library's version\n"
    "\n"
    "Exit status: 0 answered, 1 refused by the library, 2 wrong usage or trouble with a\n"
    "file. With --exit-by-outcome an answered query gives instead\n"
    "  10  delivered unvalidated (also where the host sends: then it is no alarm)\n"
    "  11  delivered checked\n"
    "  12  reaches the host\n"
    "  13  unclaimed\n"
    "  14  undefined\n"
    "  15  violation\n"
    "\n"
    "Rules that are cited, as U4 or R5, are those of docs/RULES.md.\n";

static int fail(const char *what, const char *word)
{
    fprintf(stderr, "service: %s: %s\n", what, word);
    return 0;
}

static int same(const char *word, const char *other)
{
    return strcmp(word, other) == 0;
}

/* ---- Numbers ---- */

/* Digits of a base and nothing else, up to a limit. */
static int read_digits(const char *word, size_t length, unsigned base, uint64_t limit,
                       uint64_t *number)
{
    static const char digits[] = "0123456789abcdef";
    uint64_t sum = 0;
    if (length == 0)
        return 0;
    for (size_t i = 0; i < length; i++) {
        char c = word[i] >= 'A' && word[i] <= 'F' ? (char)(word[i] - 'A' + 'a') : word[i];
        const char *place = c == '\0' ? NULL : strchr(digits, c);
        uint64_t digit = place == NULL ? base : (uint64_t)(place - digits);
        if (digit >= base || digit > limit || sum > (limit - digit) / base)
            return 0;
        sum = base * sum + digit;
    }
    *number = sum;
    return 1;
}

static int read_decimal(const char *word, uint64_t limit, uint64_t *number)
{
    return read_digits(word, strlen(word), 10, limit, number);
}

/* As 300, 0x300 or 300h. */
static int read_hexadecimal(const char *word, uint64_t limit, uint64_t *number)
{
    size_t length = strlen(word);
    if (length > 2 && word[0] == '0' && (word[1] == 'x' || word[1] == 'X'))
        return read_digits(word + 2, length - 2, 16, limit, number);
    if (length > 1 && (word[length - 1] == 'h' || word[length - 1] == 'H'))
        length--;
    return read_digits(word, length, 16, limit, number);
}

/* As 03:00.0, with a domain in front or not. */
static int read_bus_id(const char *word, uint16_t *id, unsigned long *domain)
{
    const char *bus = word;
    const char *colon = strrchr(word, ':');
    const char *dot = strchr(word, '.');
    const char *first = strchr(word, ':');
    uint64_t numbers[4] = { 0, 0, 0, 0 };
    if (colon == NULL || dot == NULL || dot < colon)
        return 0;
    if (first != colon) {
        if (!read_digits(word, (size_t)(first - word), 16, 0xFFFFFFFF, &numbers[0]))
            return 0;
        bus = first + 1;
    }
    if (!read_digits(bus, (size_t)(colon - bus), 16, 0xFF, &numbers[1])
        || !read_digits(colon + 1, (size_t)(dot - colon - 1), 16, 0x1F, &numbers[2])
        || !read_digits(dot + 1, strlen(dot + 1), 16, 7, &numbers[3]))
        return 0;
    *id = acs_id((unsigned)numbers[1], (unsigned)numbers[2], (unsigned)numbers[3]);
    if (numbers[0] != 0)
        *domain = (unsigned long)numbers[0];
    return 1;
}

/* As 03:00.0, or a hexadecimal number. */
static int read_id(const char *word, uint16_t *id, unsigned long *domain)
{
    uint64_t number = 0;
    if (strchr(word, ':') != NULL)
        return read_bus_id(word, id, domain);
    if (!read_hexadecimal(word, 0xFFFF, &number))
        return 0;
    *id = (uint16_t)number;
    return 1;
}

/* ---- The query ---- */

static int read_origin(struct arguments *arguments, const char *word)
{
    uint64_t number = 0;
    if (same(word, "host")) {
        arguments->query.origin = ACS_HOST;
    } else if (strchr(word, ':') != NULL) {
        if (!read_bus_id(word, &arguments->origin_id, &arguments->domain))
            return fail("write an origin's ID as 03:00.0", word);
        arguments->has_origin_id = 1;
    } else if (read_decimal(word, 0xFFFF, &number)) {
        arguments->query.origin = (uint16_t)number;
    } else {
        return fail("the origin is host, a record's index of 0 to 65535, or an ID as 03:00.0",
                    word);
    }
    return 1;
}

static int read_completion(struct arguments *arguments, char **words, int count)
{
    struct query *query = &arguments->query;
    if (query->tlp != ACS_TLP_COMPLETION)
        query->tlp = ACS_TLP_COMPLETION_DATA;
    if (count != 1)
        return fail("a completion has an ID and nothing more", "completion");
    if (!read_id(words[0], &query->id, &arguments->domain))
        return fail("write an ID as 03:00.0, 0300, 0x0300 or 0300h", words[0]);
    return 1;
}

static int read_request(struct arguments *arguments, char **words, int count)
{
    struct query *query = &arguments->query;
    if (count < 1 || count > 2)
        return fail("a request has an address, a requester or none, and nothing more",
                    query->tlp == ACS_TLP_WRITE ? "write" : "read");
    if (!read_hexadecimal(words[0], UINT64_MAX, &query->address))
        return fail("write an address as 80100000, 0x80100000 or 80100000h", words[0]);
    arguments->has_requester = count == 2;
    if (count == 2 && !read_id(words[1], &query->id, &arguments->domain))
        return fail("write a requester as 03:00.0, 0300, 0x0300 or 0300h", words[1]);
    return 1;
}

static int read_query(struct arguments *arguments, char **words, int count)
{
    if (count < 2)
        return fail("a query has an origin and what is sent", words[0]);
    if (!read_origin(arguments, words[0]))
        return 0;
    if (same(words[1], "completion"))
        return read_completion(arguments, words + 2, count - 2);
    if (same(words[1], "read"))
        arguments->query.tlp = ACS_TLP_READ;
    else if (same(words[1], "write"))
        arguments->query.tlp = ACS_TLP_WRITE;
    else
        return fail("what is sent is read, write or completion", words[1]);
    return read_request(arguments, words + 2, count - 2);
}

/* ---- Options ---- */

enum option { NOW, AT, LENGTH, ROOM, RELAXED, NO_DATA, EXIT_BY_OUTCOME, FOR_ACSROUTE, OPTIONS };
enum what { ANY = 0, ANY_QUERY = 1, REQUEST = 2, COMPLETION = 3 };

/* Each option: what it goes with, and of one with a value the least, the most,
   and what it takes. */
static const struct {
    const char *name;
    enum what with;
    uint64_t least, most;
    const char *takes;
} options[OPTIONS] = {
    [NOW] = { "--now", ANY, 0, UINT64_MAX, "--now takes whole seconds" },
    [AT] = { "--at", REQUEST, 0, 3, "--at takes 0 to 3" },
    [LENGTH] = { "--length", REQUEST, 1, ACS_DOUBLEWORDS_MOST, "--length takes 1 to 1024" },
    [ROOM] = { "--room", ANY_QUERY, 0, ACS_HOPS_ROOM, "--room takes 0 to 1028" },
    [RELAXED] = { "--relaxed", COMPLETION, 0, 0, NULL },
    [NO_DATA] = { "--no-data", COMPLETION, 0, 0, NULL },
    [EXIT_BY_OUTCOME] = { "--exit-by-outcome", ANY, 0, 0, NULL },
    [FOR_ACSROUTE] = { "--for-acsroute", ANY_QUERY, 0, 0, NULL },
};

static void set_option(struct arguments *arguments, enum option option, uint64_t value)
{
    switch (option) {
    case NOW:
        arguments->has_now = 1;
        arguments->now = value;
        break;
    case AT:
        arguments->query.address_type = (enum acs_address_type)value;
        break;
    case LENGTH:
        arguments->query.doublewords = (unsigned)value;
        break;
    case ROOM:
        arguments->room = (size_t)value;
        break;
    case RELAXED:
        arguments->query.relaxed = 1;
        break;
    case NO_DATA:
        arguments->query.tlp = ACS_TLP_COMPLETION;
        break;
    case EXIT_BY_OUTCOME:
        arguments->exit_by_outcome = 1;
        break;
    case FOR_ACSROUTE:
        arguments->for_acsroute = 1;
        break;
    case OPTIONS:
        break;
    }
}

/* Reads the option at argv[at], marks it as given, and gives the number of words
   it took, 0 if it is wrong. */
static int read_option(struct arguments *arguments, char given[OPTIONS], int argc, char **argv,
                       int at)
{
    for (int i = 0; i < OPTIONS; i++) {
        const char *value = at + 1 < argc ? argv[at + 1] : "";
        uint64_t number = 0;
        if (!same(argv[at], options[i].name))
            continue;
        if (options[i].takes != NULL
            && (!read_decimal(value, options[i].most, &number) || number < options[i].least))
            return fail(options[i].takes, value);
        given[i] = 1;
        set_option(arguments, (enum option)i, number);
        return options[i].takes != NULL ? 2 : 1;
    }
    return fail("no such option", argv[at]);
}

/* Whether each option that was given goes with what is asked. */
static int options_fit(const struct arguments *arguments, const char given[OPTIONS])
{
    int completion = arguments->has_query && query_is_completion(&arguments->query);
    for (int i = 0; i < OPTIONS; i++) {
        enum what with = options[i].with;
        if (!given[i] || with == ANY)
            continue;
        if (with == ANY_QUERY && !arguments->has_query)
            return fail("only for a query", options[i].name);
        if (with == REQUEST && (!arguments->has_query || completion))
            return fail("only for read and write", options[i].name);
        if (with == COMPLETION && !completion)
            return fail("only for completion", options[i].name);
    }
    return 1;
}

int read_arguments(struct arguments *arguments, int argc, char **argv)
{
    char *words[5], given[OPTIONS] = { 0 };
    int count = 0, took = 1;
    memset(arguments, 0, sizeof *arguments);
    arguments->query.tlp = ACS_TLP_COMPLETION_DATA;
    arguments->query.doublewords = 1;
    arguments->room = ACS_HOPS_ROOM;
    for (int i = 1; i < argc; i += took) {
        took = 1;
        if (strncmp(argv[i], "--", 2) == 0) {
            took = read_option(arguments, given, argc, argv, i);
            if (took == 0)
                return 0;
        } else if (count == 5) {
            return fail("one word too many", argv[i]);
        } else {
            words[count++] = argv[i];
        }
    }
    if (count == 0)
        return fail("a snapshot's file is missing", "nothing to look at");
    arguments->path = words[0];
    arguments->has_query = count > 1;
    if (arguments->has_query && !read_query(arguments, words + 1, count - 1))
        return 0;
    return options_fit(arguments, given);
}
