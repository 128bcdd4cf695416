#include "evidence.h"

#include <inttypes.h>

#include "sha256.h"

/* ---- The records ---- */

/* The numbers of the vector's set bits as 0-3,8: those that read 1, or those
   that are stored past the size and read 0. */
static void print_bits(FILE *out, const uint8_t *record, int past_the_size)
{
    const char *comma = "";
    unsigned size = record_vector_size(record);
    unsigned number = past_the_size ? size : 0, end = past_the_size ? 256 : size;
    while (number < end) {
        unsigned first = number;
        while (number < end && record_stored_bit(record, number))
            number++;
        if (number == first + 1)
            fprintf(out, "%s%u", comma, first);
        else if (number > first)
            fprintf(out, "%s%u-%u", comma, first, number - 1);
        if (number > first)
            comma = ",";
        number++;
    }
    if (*comma == '\0')
        fprintf(out, "none");
}

static int has_bits(const uint8_t *record, unsigned from)
{
    for (unsigned number = from; number < 256; number++)
        if (record_stored_bit(record, number))
            return 1;
    return 0;
}

/* The vector, where the record has one: its size, the bits that read 1, and
   those that the file sets in vain. */
static void print_vector(FILE *out, const uint8_t *record)
{
    unsigned size = record_vector_size(record);
    if (size == 0 && !has_bits(record, 0))
        return;
    fprintf(out, "  vector of %u: ", size);
    print_bits(out, record, 0);
    if (has_bits(record, size)) {
        fprintf(out, " (past the size, not read: ");
        print_bits(out, record, 1);
        fprintf(out, ")");
    }
}

/* Each range that isn't closed, or is closed wrongly. */
static void print_ranges(FILE *out, const uint8_t *record)
{
    for (unsigned k = 0; k < 6; k++)
        if (record_first(record, k) != 1 || record_last(record, k) != 0)
            fprintf(out, "  %u: %08" PRIX64 "h-%08" PRIX64 "h", k, record_first(record, k),
                    record_last(record, k));
}

static void print_numbers(FILE *out, const uint8_t *record)
{
    unsigned capability = record_capability(record), control = record_control(record);
    char letters[16];
    if (record_kind(record) == ACS_RECORD_ENDPOINT && record[6] == 0 && record[7] == 0)
        fprintf(out, "       ");
    else
        fprintf(out, "  %02X-%02X", record_secondary(record), record_subordinate(record));
    if (record_is_port(record) || record_port_number(record) != 0)
        fprintf(out, "  %4u", record_port_number(record));
    else
        fprintf(out, "      ");
    if (record_is_port(record) || capability != 0 || control != 0)
        fprintf(out, "  %04Xh       %04Xh %s", capability, control,
                control_words(letters, capability, control));
    else
        fprintf(out, "%33s", "");
}

static const char titles[] =
    "record  kind             ID       under  buses  Port  Capability  Control"
    "              ranges, vector\n";

static void print_row(FILE *out, const struct snapshot *snapshot, unsigned index)
{
    const uint8_t *record = snapshot_record(snapshot, index);
    char id[16];
    fprintf(out, "%6u  %-15s  %s", index, acs_record_kind_name(record_kind(record)),
            id_words(id, record_id(record)));
    if (record_parent(record) == ACS_NO_PARENT)
        fprintf(out, "      -");
    else
        fprintf(out, "  %5u", record_parent(record));
    print_numbers(out, record);
    print_ranges(out, record);
    print_vector(out, record);
    if ((record[12] | record[13] | record[14] | record[15]) != 0)
        fprintf(out, "  bytes 12-15 not 0");
    fprintf(out, "\n");
}

void print_records(FILE *out, const struct snapshot *snapshot)
{
    fputs(titles, out);
    for (unsigned index = 0; index < snapshot_count(snapshot); index++)
        print_row(out, snapshot, index);
}

void print_record(FILE *out, const struct snapshot *snapshot, unsigned index)
{
    unsigned parent = record_parent(snapshot_record(snapshot, index));
    fputs(titles, out);
    if (parent < index)
        print_row(out, snapshot, parent);
    print_row(out, snapshot, index);
}

/* ---- What decided at a port ---- */

/* Step 4: the peer, and of a request the vector bit that is read for it. */
static void print_peer(FILE *out, const struct asked *asked, const uint8_t *port, unsigned peer)
{
    const struct query *query = asked->query;
    unsigned number = record_port_number(snapshot_record(asked->snapshot, peer));
    unsigned control = record_control(port);
    char node[64];
    fprintf(out, "U4: its peer is %s; ", node_words(node, asked->snapshot, peer));
    if (query_is_completion(query)) {
        fprintf(out, "C is %s, Relaxed Ordering %s", control & ACS_BIT_C ? "on" : "off",
                query->relaxed ? "set" : "clear");
        return;
    }
    fprintf(out, "vector bit %u reads %d", number, record_vector_bit(port, number));
    if (control & ACS_BIT_T && query->address_type == ACS_AT_TRANSLATED)
        fprintf(out, " (not asked: T is on and the request translated)");
    else if ((control & ACS_BIT_E) == 0)
        fprintf(out, " (not asked: E is off)");
}

/* The step that decided at a port which the TLP entered from below, with what
   it looked at besides the registers. */
static void print_step(FILE *out, const struct asked *asked, unsigned index, int ends_here)
{
    const struct query *query = asked->query;
    const uint8_t *port = snapshot_record(asked->snapshot, index);
    const char *what = query_is_completion(query) ? "ID" : "address";
    enum acs_letter letter = ends_here ? acs_answer_letter(asked->answer) : ACS_LETTER_NONE;
    unsigned peer = query_peer(query, asked->snapshot, index);
    if (letter == ACS_LETTER_V)
        fprintf(out, "U1: requester's bus %02Xh, buses below %02Xh-%02Xh", query->id >> 8,
                record_secondary(port), record_subordinate(port));
    else if (letter == ACS_LETTER_B)
        fprintf(out, "U2: address type %u", (unsigned)query->address_type);
    else if (query_covered(query, port))
        fprintf(out, "U3: the %s is below this very port", what);
    else if (peer != ACS_HOST)
        print_peer(out, asked, port, peer);
    else if (record_kind(port) == ACS_RECORD_ROOT_PORT)
        fprintf(out, "U6: no root port covers the %s", what);
    else
        fprintf(out, "U5: no port of this switch covers the %s", what);
}

/* What a root port leaves to the root complex, which goes by the snapshot's flags. */
static void print_flag(FILE *out, const struct asked *asked, enum acs_action action)
{
    unsigned flags = snapshot_flags(asked->snapshot);
    if (action == ACS_ACTION_DIRECT)
        fprintf(out, "; then U9: flag bit 0 is %d", (flags & ACS_FLAG_ROOTS_REACH) != 0);
    else if (query_is_completion(asked->query))
        fprintf(out, "%s", action == ACS_ACTION_REFLECTED ? "; then U11: reflected" : "");
    else if (action == ACS_ACTION_REFLECTED || acs_answer_letter(asked->answer) == ACS_LETTER_X)
        fprintf(out, "; then U10: flag bit 1 is %d", (flags & ACS_FLAG_REFLECT) != 0);
}

/* One entry for each port that the TLP entered from below: only those decide. */
static void print_deciders(FILE *out, const struct asked *asked)
{
    unsigned count = acs_answer_hops(asked->answer);
    if (asked->query->origin == ACS_HOST) {
        fprintf(out, "  decided by   no port: going down, no access control applies (rule D1)\n");
        return;
    }
    for (unsigned number = 0; number < count; number++) {
        unsigned index = acs_hop_index(asked->hops, number);
        enum acs_action action = acs_hop_action(asked->hops, number);
        const uint8_t *record = index == ACS_HOST ? NULL : snapshot_record(asked->snapshot, index);
        char node[64], letters[16];
        if (record == NULL || !record_is_port(record))
            return;
        fprintf(out, "  decided by   %s: Capability %04Xh, Control %04Xh (%s)\n%15srule ",
                node_words(node, asked->snapshot, index), record_capability(record),
                record_control(record),
                control_words(letters, record_capability(record), record_control(record)), "");
        print_step(out, asked, index, action == ACS_ACTION_END);
        if (record_kind(record) == ACS_RECORD_ROOT_PORT)
            print_flag(out, asked, action);
        fprintf(out, "\n");
        if (action == ACS_ACTION_DIRECT || action == ACS_ACTION_REFLECTED
            || action == ACS_ACTION_END)
            return;
    }
}

/* ---- What an answer rests on ---- */

/* The TLP header that was asked about, byte by byte. */
static void print_header(FILE *out, const struct query *query)
{
    uint8_t header[ACS_HEADER_ROOM];
    size_t length = query_header(query, header);
    fprintf(out, "  TLP header  ");
    for (size_t i = 0; i < length; i++)
        fprintf(out, "%s%02X", i % 4 == 0 ? " " : "", header[i]);
    fprintf(out, "\n");
}

static void print_file(FILE *out, const struct asked *asked)
{
    char digest[65];
    if (asked->snapshot->length > ACS_SNAPSHOT_MOST) {
        fprintf(out, "  file         %s, more than %d bytes\n", asked->path, ACS_SNAPSHOT_MOST);
        return;
    }
    fprintf(out, "  file         %s, %zu bytes\n", asked->path, asked->snapshot->length);
    fprintf(out, "  SHA-256      %s\n",
            sha256_words(digest, asked->snapshot->bytes, asked->snapshot->length));
}

void print_evidence(FILE *out, const struct asked *asked)
{
    const struct snapshot *snapshot = asked->snapshot;
    enum acs_refusal refusal = acs_answer_refusal(asked->answer);
    char words[96], line[2400];
    fprintf(out, "This answer rests on\n");
    print_file(out, asked);
    if (refusal != ACS_REFUSAL_FILE && refusal != ACS_REFUSAL_VERSION) {
        fprintf(out, "  taken        %s\n", time_words(words, snapshot_taken(snapshot)));
        fprintf(out, "  good until   %s\n", time_words(words, snapshot_until(snapshot)));
    }
    fprintf(out, "  asked as of  %s\n", time_words(words, asked->now));
    if (asked->query != NULL)
        print_header(out, asked->query);
    if (refusal == ACS_REFUSAL_NONE)
        fprintf(out, "  flags        %02Xh: %s\n", snapshot_flags(snapshot),
                flags_words(words, snapshot_flags(snapshot)));
    if (refusal == ACS_REFUSAL_NONE && asked->query != NULL)
        print_deciders(out, asked);
    fprintf(out, "  library      acs %s (of acs.h); the rules are those of docs/RULES.md\n", ACS_VERSION);
    if (asked->query != NULL || refusal != ACS_REFUSAL_NONE)
        fprintf(out, "  in one line  %s\n",
                answer_line(line, sizeof line, asked->answer, asked->hops));
}
