/*
 * A small chassis service: it loads a snapshot, has it checked, says where one
 * transaction goes, and prints what the answer rests on.
 *
 * Exit status: see `service --help`.
 */
#include <string.h>
#include <time.h>

#include "arguments.h"
#include "evidence.h"

enum { ANSWERED = 0, REFUSED = 1, TROUBLE = 2, BY_OUTCOME = 10 };

/* ---- Answering ---- */

/* An accepted snapshot, and nothing asked of it. */
static int list(struct asked *asked)
{
    printf("Snapshot accepted: %u records.\n", snapshot_count(asked->snapshot));
    print_records(stdout, asked->snapshot);
    print_evidence(stdout, asked);
    return ANSWERED;
}

static int refuse(struct asked *asked)
{
    print_refusal(stdout, asked->snapshot, asked->now, asked->query, asked->answer);
    if (acs_answer_refusal(asked->answer) == ACS_REFUSAL_RECORD) {
        printf("  As the file has it, with its parent:\n");
        print_record(stdout, asked->snapshot, acs_answer_node(asked->answer));
    }
    print_evidence(stdout, asked);
    return REFUSED;
}

/* Finds the record that was given by its ID, and fills in who requests. */
static int find_sender(struct arguments *arguments, const struct snapshot *snapshot)
{
    struct query *query = &arguments->query;
    if (arguments->has_origin_id) {
        query->origin = (uint16_t)snapshot_find(snapshot, arguments->origin_id);
        if (query->origin == ACS_HOST) {
            char id[16];
            fprintf(stderr, "service: the snapshot has no record with the ID %s.\n",
                    id_words(id, arguments->origin_id));
            return 0;
        }
    }
    if (!query_is_completion(query) && !arguments->has_requester)
        query->id = query_sender(query, snapshot);
    if (arguments->domain != 0)
        fprintf(stderr, "service: a snapshot has no domain number: whether it was taken of "
                        "domain %04lx has to be known.\n", arguments->domain);
    return 1;
}

static int route(const struct arguments *arguments, struct asked *asked)
{
    const struct query *query = &arguments->query;
    uint8_t header[ACS_HEADER_ROOM], hops[ACS_HOPS_ROOM];
    size_t length = query_header(query, header);
    asked->query = query;
    asked->hops = hops;
    asked->answer = acs_route(asked->snapshot->bytes, asked->snapshot->length, asked->now,
                              query->origin, header, length, hops, arguments->room);
    print_query(stdout, asked->snapshot, query);
    if (acs_answer_refused(asked->answer))
        return refuse(asked);
    print_hops(stdout, "  ", asked->snapshot, query, asked->answer, hops);
    print_outcome(stdout, asked->snapshot, query, asked->answer);
    print_evidence(stdout, asked);
    return arguments->exit_by_outcome ? BY_OUTCOME + (int)acs_answer_kind(asked->answer) : ANSWERED;
}

static int answer(struct arguments *arguments, const struct snapshot *snapshot)
{
    struct asked asked = { arguments->path, snapshot, arguments->now, NULL, 0, NULL };
    asked.answer = acs_check(snapshot->bytes, snapshot->length, arguments->now);
    if (!acs_check_accepted(asked.answer))
        return refuse(&asked);
    if (!arguments->has_query)
        return list(&asked);
    if (!find_sender(arguments, snapshot))
        return TROUBLE;
    return route(arguments, &asked);
}

/* ---- For acsroute ---- */

/* A number of some bytes, little-endian. */
static void put(uint64_t number, int bytes)
{
    for (int i = 0; i < bytes; i++)
        putchar((int)(number >> 8 * i & 0xFF));
}

/* The query as acsroute reads it: docs/INTERFACE.md, "The program". */
static int write_for_acsroute(struct arguments *arguments, const struct snapshot *snapshot)
{
    uint8_t header[ACS_HEADER_ROOM];
    size_t length;
    if (!find_sender(arguments, snapshot))
        return TROUBLE;
    length = query_header(&arguments->query, header);
    put(snapshot->length, 2);
    fwrite(snapshot->bytes, 1, snapshot->length, stdout);
    put(arguments->now, 8);
    put(arguments->query.origin, 2);
    put(length, 1);
    fwrite(header, 1, length, stdout);
    return ANSWERED;
}

/* ---- The program ---- */

static int read_clock(struct arguments *arguments)
{
    time_t clock = time(NULL);
    if (arguments->has_now)
        return 1;
    if (clock == (time_t)-1 || clock < 0) {
        fprintf(stderr, "service: the machine's clock gives no time; use --now.\n");
        return 0;
    }
    arguments->now = (uint64_t)clock;
    return 1;
}

static int run(int argc, char **argv)
{
    static struct snapshot snapshot;
    struct arguments arguments;
    if (argc == 2 && (strcmp(argv[1], "--help") == 0 || strcmp(argv[1], "-h") == 0)) {
        fputs(usage, stdout);
        return ANSWERED;
    }
    if (argc == 2 && strcmp(argv[1], "--version") == 0) {
        printf("service of acs %s\n", ACS_VERSION);
        return ANSWERED;
    }
    if (argc == 1) {
        fputs(usage, stderr);
        return TROUBLE;
    }
    if (!read_arguments(&arguments, argc, argv)) {
        fprintf(stderr, "service --help says how to ask.\n");
        return TROUBLE;
    }
    if (!read_clock(&arguments) || !snapshot_load(&snapshot, arguments.path))
        return TROUBLE;
    return arguments.for_acsroute ? write_for_acsroute(&arguments, &snapshot)
                                  : answer(&arguments, &snapshot);
}

int main(int argc, char **argv)
{
    int status = run(argc, argv);
    if (fflush(stdout) != 0 || ferror(stdout)) {
        fprintf(stderr, "service: the answer could not be written.\n");
        return TROUBLE;
    }
    return status;
}
