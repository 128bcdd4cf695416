#define _POSIX_C_SOURCE 200809L

#include "words.h"

#include <inttypes.h>
#include <stdarg.h>
#include <string.h>
#include <time.h>

/* ---- Single things ---- */

const char *id_words(char words[16], unsigned id)
{
    snprintf(words, 16, "%02x:%02x.%u", id >> 8 & 0xFF, id >> 3 & 0x1F, id & 7);
    return words;
}

const char *node_words(char words[64], const struct snapshot *snapshot, unsigned index)
{
    const uint8_t *record = snapshot_record(snapshot, index);
    char id[16];
    if (record == NULL)
        snprintf(words, 64, "record %u", index);
    else if (record[0] < ACS_RECORD_ROOT_PORT || record[0] > ACS_RECORD_ENDPOINT)
        snprintf(words, 64, "record %u, of unknown kind %u", index, record[0]);
    else if (record_is_port(record))
        snprintf(words, 64, "record %u, %s %s, Port %u", index,
                 acs_record_kind_name(record_kind(record)), id_words(id, record_id(record)),
                 record_port_number(record));
    else
        snprintf(words, 64, "record %u, %s %s", index, acs_record_kind_name(record_kind(record)),
                 id_words(id, record_id(record)));
    return words;
}

const char *control_words(char words[16], unsigned capability, unsigned control)
{
    static const char letters[] = "VBRCUET";
    for (int bit = 0; bit < 7; bit++) {
        words[2 * bit] = control >> bit & 1 ? letters[bit] : capability >> bit & 1 ? '.' : '-';
        words[2 * bit + 1] = ' ';
    }
    words[13] = '\0';
    return words;
}

const char *flags_words(char words[96], unsigned flags)
{
    snprintf(words, 96, "root ports may %sreach each other; redirected requests are %s",
             flags & ACS_FLAG_ROOTS_REACH ? "" : "not ",
             flags & ACS_FLAG_REFLECT ? "reflected" : "blocked");
    return words;
}

const char *time_words(char words[64], uint64_t seconds)
{
    time_t clock = (time_t)seconds;
    struct tm parts;
    char date[32];
    /* Dates up to the year 9999 only. */
    if (seconds > UINT64_C(253402300799) || gmtime_r(&clock, &parts) == NULL
        || strftime(date, sizeof date, "%Y-%m-%d %H:%M:%S UTC", &parts) == 0)
        snprintf(words, 64, "%" PRIu64, seconds);
    else
        snprintf(words, 64, "%" PRIu64 " (%s)", seconds, date);
    return words;
}

/* What a TLP is routed by. */
static const char *target_words(const struct query *query)
{
    return query_is_completion(query) ? "ID" : "address";
}

/* ---- What is asked ---- */

void print_query(FILE *out, const struct snapshot *snapshot, const struct query *query)
{
    char node[64], id[16];
    const char *whose = "";
    if (query->origin == ACS_HOST)
        fprintf(out, "From the host: ");
    else
        fprintf(out, "From %s: ", node_words(node, snapshot, query->origin));
    if (query_is_completion(query)) {
        fprintf(out, "completion with%s data to %s, Relaxed Ordering %s.\n",
                query->tlp == ACS_TLP_COMPLETION ? "out" : "", id_words(id, query->id),
                query->relaxed ? "set" : "clear");
        return;
    }
    if (query->origin != ACS_HOST && snapshot_record(snapshot, query->origin) != NULL)
        whose = query->id == query_sender(query, snapshot) ? " (its own ID)" : " (NOT its own ID)";
    fprintf(out, "%s of %u doubleword%s at %08" PRIX64 "h, requester %s%s, address type %u (%s).\n",
            query->tlp == ACS_TLP_WRITE ? "write" : "read", query->doublewords,
            query->doublewords == 1 ? "" : "s", query->address & ~UINT64_C(3),
            id_words(id, query->id), whose, (unsigned)query->address_type,
            acs_address_type_name(query->address_type));
}

/* ---- The hops ---- */

static void print_end(FILE *out, const struct snapshot *snapshot, unsigned index,
                      uint64_t answer)
{
    char node[64];
    if (index != ACS_HOST)
        node_words(node, snapshot, index);
    switch (acs_answer_kind(answer)) {
    case ACS_KIND_DELIVERED_UNVALIDATED:
    case ACS_KIND_DELIVERED_CHECKED:
        fprintf(out, "reaches %s: delivered\n", node);
        break;
    case ACS_KIND_HOST:
        fprintf(out, "reaches the host\n");
        break;
    case ACS_KIND_UNCLAIMED:
        fprintf(out, "ends %s%s: unclaimed\n", index == ACS_HOST ? "in " : "at ",
                index == ACS_HOST ? "the root complex" : node);
        break;
    case ACS_KIND_UNDEFINED:
        fprintf(out, "enters %s: undefined from here\n", node);
        break;
    case ACS_KIND_VIOLATION:
        fprintf(out, "enters %s: stopped, violation %s (%s)\n", node,
                acs_letter_name(acs_answer_letter(answer)),
                acs_letter_text(acs_answer_letter(answer)));
        break;
    case ACS_KIND_REFUSED:
        break;
    }
}

void print_hops(FILE *out, const char *indent, const struct snapshot *snapshot,
                const struct query *query, uint64_t answer, const uint8_t *hops)
{
    unsigned count = acs_answer_hops(answer);
    for (unsigned number = 0; number < count; number++) {
        unsigned index = acs_hop_index(hops, number);
        enum acs_action action = acs_hop_action(hops, number);
        char node[64];
        fprintf(out, "%s%u. ", indent, number + 1);
        if (action == ACS_ACTION_END) {
            print_end(out, snapshot, index, answer);
            continue;
        }
        fprintf(out, "enters %s: %s", node_words(node, snapshot, index), acs_action_name(action));
        if (action == ACS_ACTION_UP_BY_U)
            fprintf(out, ", the %s being below this very port", target_words(query));
        fprintf(out, "\n");
    }
}

/* ---- The outcome ---- */

static void print_delivered(FILE *out, const struct snapshot *snapshot,
                            const struct query *query, uint64_t answer)
{
    int checked = acs_answer_kind(answer) == ACS_KIND_DELIVERED_CHECKED;
    char node[64];
    fprintf(out, "Delivered to %s", node_words(node, snapshot, acs_answer_node(answer)));
    if (query->origin == ACS_HOST)
        fprintf(out, ", from the host: access control has no part in what the host sends.\n");
    else if (query_is_completion(query))
        fprintf(out, checked ? ", checked: the root complex reflects it (a completion is never "
                               "validated).\n"
                             : ", unvalidated: the root complex does not reflect it.\n");
    else if (checked)
        fprintf(out, ", checked: the snapshot says that the root complex reflects it (flag bit 1); "
                     "what its validation finds is not modelled.\n");
    else
        fprintf(out, ", UNVALIDATED: it gets there without validation by the root complex.\n");
}

static void print_unclaimed(FILE *out, const struct snapshot *snapshot,
                            const struct query *query, unsigned index)
{
    const char *target = target_words(query);
    const uint8_t *record = index == ACS_HOST ? NULL : snapshot_record(snapshot, index);
    char node[64];
    fprintf(out, "Unclaimed: ");
    if (record == NULL) {
        if (query->origin == ACS_HOST)
            fprintf(out, "no root port covers the %s.\n", target);
        else
            fprintf(out, "another root port covers the %s, and root ports may not reach each "
                         "other (flag bit 0).\n", target);
        return;
    }
    node_words(node, snapshot, index);
    if (record_kind(record) == ACS_RECORD_ENDPOINT)
        fprintf(out, "%s has %s.\n", node,
                query_is_completion(query) ? "another ID" : "no range with that address");
    else if (record_kind(record) == ACS_RECORD_UPSTREAM_PORT)
        fprintf(out, "no port below %s covers the %s.\n", node, target);
    else
        fprintf(out, "nothing stands below %s.\n", node);
}

static void print_violation(FILE *out, const struct snapshot *snapshot,
                            const struct query *query, uint64_t answer)
{
    enum acs_letter letter = acs_answer_letter(answer);
    char node[64];
    fprintf(out, "Violation %s at %s: ", acs_letter_name(letter),
            node_words(node, snapshot, acs_answer_node(answer)));
    switch (letter) {
    case ACS_LETTER_V:
        fprintf(out, "Source Validation is on, and the requester's bus %02Xh is not below the port.",
                (unsigned)query->id >> 8);
        break;
    case ACS_LETTER_B:
        fprintf(out, "Translation Blocking is on, and the request's address type is %u (%s).",
                (unsigned)query->address_type, acs_address_type_name(query->address_type));
        break;
    case ACS_LETTER_E:
        fprintf(out, "P2P Egress Control forbids requests to this peer.");
        break;
    case ACS_LETTER_X:
        fprintf(out, "the snapshot says that the root complex blocks redirected requests "
                     "(flag bit 1).");
        break;
    case ACS_LETTER_NONE:
        break;
    }
    fprintf(out, acs_answer_abort(answer) ? " The read ends in a completer abort.\n"
                                          : " The write is dropped.\n");
}

void print_outcome(FILE *out, const struct snapshot *snapshot, const struct query *query,
                   uint64_t answer)
{
    char node[64];
    switch (acs_answer_kind(answer)) {
    case ACS_KIND_DELIVERED_UNVALIDATED:
    case ACS_KIND_DELIVERED_CHECKED:
        print_delivered(out, snapshot, query, answer);
        break;
    case ACS_KIND_HOST:
        fprintf(out, "Reaches the host.\n");
        break;
    case ACS_KIND_UNCLAIMED:
        print_unclaimed(out, snapshot, query, acs_answer_node(answer));
        break;
    case ACS_KIND_UNDEFINED:
        fprintf(out, "Undefined: the %s is below %s, which it entered from below, and Upstream "
                     "Forwarding (U) is off there; PCI Express leaves open what happens then.\n",
                target_words(query), node_words(node, snapshot, acs_answer_node(answer)));
        break;
    case ACS_KIND_VIOLATION:
        print_violation(out, snapshot, query, answer);
        break;
    case ACS_KIND_REFUSED:
        fprintf(out, "Refused: %s.\n", acs_refusal_text(acs_answer_refusal(answer)));
        break;
    }
}

/* ---- Refusals ---- */

/* Refusal 1 where the length is not what the records take. */
static void print_bad_length(FILE *out, const struct snapshot *snapshot)
{
    size_t wanted = ACS_SNAPSHOT_HEAD + (size_t)ACS_SNAPSHOT_RECORD * snapshot_count(snapshot);
    if (snapshot->length > ACS_SNAPSHOT_MOST)
        fprintf(out, "its %u records take %zu bytes, and the file has more than %d.",
                snapshot_count(snapshot), wanted, ACS_SNAPSHOT_MOST);
    else
        fprintf(out, "its %u records take %zu bytes, and the file has %zu.",
                snapshot_count(snapshot), wanted, snapshot->length);
    fprintf(out, " It was %s; fetch it again.\n",
            snapshot->length < wanted ? "cut off" : "added to");
}

static void print_bad_file(FILE *out, const struct snapshot *snapshot)
{
    char taken[64], until[64];
    fprintf(out, "this is not a whole snapshot: ");
    if (snapshot->length == 0)
        fprintf(out, "the file is empty.\n");
    else if (snapshot->length < ACS_SNAPSHOT_HEAD)
        fprintf(out, "the file has %zu bytes, and the snapshot's header alone has %d.\n",
                snapshot->length, ACS_SNAPSHOT_HEAD);
    else if (memcmp(snapshot->bytes, "ACS", 3) != 0)
        fprintf(out, "the file does not start with the mark ACS.\n");
    else if ((snapshot_flags(snapshot) & ~(unsigned)(ACS_FLAG_ROOTS_REACH | ACS_FLAG_REFLECT)) != 0)
        fprintf(out, "its flags are %02Xh, and only bits 0 and 1 have a meaning.\n",
                snapshot_flags(snapshot));
    else if (snapshot_count(snapshot) > ACS_SNAPSHOT_RECORDS_MOST)
        fprintf(out, "it announces %u records, and %d are the most.\n",
                snapshot_count(snapshot), ACS_SNAPSHOT_RECORDS_MOST);
    else if (snapshot_until(snapshot) < snapshot_taken(snapshot))
        fprintf(out, "it was taken at %s and good until %s, which is earlier.\n",
                time_words(taken, snapshot_taken(snapshot)),
                time_words(until, snapshot_until(snapshot)));
    else
        print_bad_length(out, snapshot);
}

static void print_bad_time(FILE *out, const struct snapshot *snapshot, uint64_t now)
{
    char then[64], here[64];
    if (now < snapshot_taken(snapshot))
        fprintf(out, "the snapshot was taken at %s, and it is only %s. Look at the clocks.\n",
                time_words(then, snapshot_taken(snapshot)), time_words(here, now));
    else
        fprintf(out, "the snapshot was good until %s, and it is now %s. Take a new one.\n",
                time_words(then, snapshot_until(snapshot)), time_words(here, now));
}

/* The rules of docs/RULES.md that a record of a kind can break. What is also
   against a sibling of kind 2 or 4 is against R3 already. */
static const char *record_rules(unsigned kind)
{
    switch ((enum acs_record_kind)kind) {
    case ACS_RECORD_ROOT_PORT:
        return "R1, R2, R5, R6, R7, R8, R9, R11, R12, R14 and R15";
    case ACS_RECORD_UPSTREAM_PORT:
        return "R1, R2, R3, R4, R5, R6, R9, R11 and R13";
    case ACS_RECORD_DOWNSTREAM_PORT:
        return "R1, R2, R5, R6, R7, R8, R9, R11, R12, R13, R14 and R15";
    case ACS_RECORD_ENDPOINT:
        return "R1, R2, R3, R4, R5, R10, R11 and R13";
    }
    return NULL;
}

static void print_bad_record(FILE *out, const struct snapshot *snapshot, unsigned index)
{
    const uint8_t *record = snapshot_record(snapshot, index);
    const char *rules = record_rules(record[0]);
    fprintf(out, "record %u of the file is not acceptable: it breaks a rule for records, by itself "
                 "or against a record before it. That is said of the file, not of the hardware.\n",
            index);
    if (rules == NULL)
        fprintf(out, "  Its kind is %u, which breaks R1 of docs/RULES.md: kinds are 1 to 4.\n",
                record[0]);
    else
        fprintf(out, "  It is given as %s %s; such a record can break %s of docs/RULES.md.\n",
                record_kind(record) == ACS_RECORD_ENDPOINT
                        || record_kind(record) == ACS_RECORD_UPSTREAM_PORT ? "an" : "a",
                acs_record_kind_name(record_kind(record)), rules);
    fprintf(out, "  If that is how the hardware is, see \"What a snapshot cannot describe\" in "
                 "docs/INTERFACE.md; else mend what wrote the file.\n");
}

static void print_bad_origin(FILE *out, const struct snapshot *snapshot,
                             const struct query *query)
{
    char node[64];
    if (snapshot_record(snapshot, query->origin) != NULL)
        fprintf(out, "%s cannot send; a query starts at an endpoint or at the host.\n",
                node_words(node, snapshot, query->origin));
    else
        fprintf(out, "there is no record %u; the snapshot has %u, counted from 0.\n",
                query->origin, snapshot_count(snapshot));
}

static void print_bad_header(FILE *out, const struct query *query)
{
    uint64_t start = query->address & 0xFFC;
    if (!query_is_completion(query) && start + 4 * query->doublewords > 4096)
        fprintf(out, "the request runs over a 4,096-byte boundary: %u bytes at %08" PRIX64 "h.\n",
                4 * query->doublewords, query->address & ~UINT64_C(3));
    else
        fprintf(out, "%s.\n", acs_refusal_text(ACS_REFUSAL_HEADER));
}

void print_refusal(FILE *out, const struct snapshot *snapshot, uint64_t now,
                   const struct query *query, uint64_t answer)
{
    enum acs_refusal refusal = acs_answer_refusal(answer);
    fprintf(out, "Refused (%u): ", (unsigned)refusal);
    switch (refusal) {
    case ACS_REFUSAL_FILE:
        print_bad_file(out, snapshot);
        break;
    case ACS_REFUSAL_VERSION:
        fprintf(out, "the snapshot is of version %u, and only version %d is understood.\n",
                snapshot_version(snapshot), ACS_SNAPSHOT_VERSION);
        break;
    case ACS_REFUSAL_TIME:
        print_bad_time(out, snapshot, now);
        break;
    case ACS_REFUSAL_RECORD:
        print_bad_record(out, snapshot, acs_answer_node(answer));
        break;
    case ACS_REFUSAL_ORIGIN:
        print_bad_origin(out, snapshot, query);
        break;
    case ACS_REFUSAL_HEADER:
        print_bad_header(out, query);
        break;
    case ACS_REFUSAL_ROOM:
    case ACS_REFUSAL_LENGTH: /* of acs_fill: examples/fill.c says more of it */
    case ACS_REFUSAL_CAPABILITIES:
    case ACS_REFUSAL_NONE:
        fprintf(out, "%s.\n", acs_refusal_text(refusal));
        break;
    }
}

/* ---- One line ---- */

static size_t add(char *line, size_t size, size_t used, const char *form, ...)
{
    va_list values;
    int more;
    va_start(values, form);
    more = vsnprintf(line + used, size - used, form, values);
    va_end(values);
    if (more < 0 || (size_t)more >= size - used)
        return size - 1;
    return used + (size_t)more;
}

const char *answer_line(char *line, size_t size, uint64_t answer, const uint8_t *hops)
{
    static const char *const names[7] = {
        "delivered", "delivered", "host", "unclaimed", "undefined", "violation", "refusal"
    };
    unsigned kind = acs_answer_kind(answer);
    unsigned count = acs_answer_hops(answer);
    size_t used = 0;
    if (acs_answer_refused(answer)) {
        add(line, size, 0, "refusal %u %u", acs_answer_refusal(answer), acs_answer_node(answer));
        return line;
    }
    used = add(line, size, used, "%s %u", names[kind < 7 ? kind : 6], acs_answer_node(answer));
    if (kind == ACS_KIND_DELIVERED_UNVALIDATED)
        used = add(line, size, used, " unvalidated");
    if (kind == ACS_KIND_DELIVERED_CHECKED)
        used = add(line, size, used, " checked");
    if (kind == ACS_KIND_VIOLATION)
        used = add(line, size, used, " %s %s", acs_letter_name(acs_answer_letter(answer)),
                   acs_answer_abort(answer) ? "abort" : "drop");
    for (unsigned number = 0; number < count; number++)
        used = add(line, size, used, " %u:%u", acs_hop_index(hops, number),
                   (unsigned)acs_hop_action(hops, number));
    return line;
}
