/*
 * The demonstration: Fabric F in cases of docs/RULES.md, each asked of the
 * library, told in words and held to what that page says.
 *
 *     demo FOLDER      the folder of the sample snapshots
 *
 * Exit status: 0 all as the rules say, 1 something differs, 2 a file is
 * missing.
 */
#include <string.h>

#include "words.h"

/* All samples that are asked here are in force at this time: 2026-01-01. */
#define NOW UINT64_C(1767225600)

struct example {
    const char *name;
    const char *setting;
    const char *file;
    struct query query;
    const char *line; /* what docs/RULES.md says, as acsroute prints it */
};

static const struct example examples[] = {
    { "F1", "Nothing is on.", "fabric-f-00h.acs",
      { 4, ACS_TLP_WRITE, 0x80100000, 0, 1, 0x0300, 0 },
      "delivered 5 unvalidated 2:4 3:6 5:7" },
    { "F2", "Requests to a peer are redirected to the root complex, which reflects them.",
      "fabric-f-17h.acs",
      { 4, ACS_TLP_WRITE, 0x80100000, 0, 1, 0x0300, 0 },
      "delivered 5 checked 2:2 0:5 0:6 3:6 5:7" },
    { "F3", "As F2, but the root complex blocks redirected requests.",
      "fabric-f-17h-blocking.acs",
      { 4, ACS_TLP_WRITE, 0x80100000, 0, 1, 0x0300, 0 },
      "violation 0 X drop 2:2 0:7" },
    { "F4", "As F2, but U is off, at the root port too.", "fabric-f-07h.acs",
      { 4, ACS_TLP_WRITE, 0x80100000, 0, 1, 0x0300, 0 },
      "undefined 0 2:2 0:7" },
    { "F5", "Egress control with redirect; the vectors are clear, so peers are reached directly.",
      "fabric-f-37h.acs",
      { 4, ACS_TLP_WRITE, 0x80100000, 0, 1, 0x0300, 0 },
      "delivered 5 unvalidated 2:4 3:6 5:7" },
    { "F6", "As F5, with the vector bit of Port 2 set: with R on, a set bit redirects.",
      "fabric-f-37h-bit-2.acs",
      { 4, ACS_TLP_WRITE, 0x80100000, 0, 1, 0x0300, 0 },
      "delivered 5 checked 2:2 0:5 0:6 3:6 5:7" },
    { "F7", "Egress control alone, the bit of Port 2 set: with R off, a set bit forbids.",
      "fabric-f-20h-bit-2.acs",
      { 4, ACS_TLP_READ, 0x80100000, 0, 1, 0x0300, 0 },
      "violation 2 E abort 2:7" },
    { "F8", "As F2; the request is translated and bears the ID of another card.",
      "fabric-f-17h.acs",
      { 4, ACS_TLP_WRITE, 0x80100000, 2, 1, 0x0400, 0 },
      "violation 2 V drop 2:7" },
    { "F9", "As F2; the request is translated.", "fabric-f-17h.acs",
      { 4, ACS_TLP_WRITE, 0x80100000, 2, 1, 0x0300, 0 },
      "violation 2 B drop 2:7" },
    { "F10", "Translated requests may pass, B being off, and T sends them directly to a peer.",
      "fabric-f-55h.acs",
      { 4, ACS_TLP_WRITE, 0x80100000, 2, 1, 0x0300, 0 },
      "delivered 5 unvalidated 2:4 3:6 5:7" },
    { "F11", "Nothing is on; the address lies in the switch's window, but in no port's.",
      "fabric-f-00h.acs",
      { 4, ACS_TLP_WRITE, 0x80300000, 0, 1, 0x0300, 0 },
      "unclaimed 1 2:1 1:7" },
    { "F12", "Nothing is on; the address is outside every window, so it is the host's.",
      "fabric-f-00h.acs",
      { 4, ACS_TLP_WRITE, 0x1000, 0, 1, 0x0300, 0 },
      "host 65535 2:1 0:1 65535:7" },
    { "F13", "Nothing is on; the address is just past the last one of record 5.",
      "fabric-f-00h.acs",
      { 4, ACS_TLP_WRITE, 0x80101000, 0, 1, 0x0300, 0 },
      "unclaimed 5 2:4 3:6 5:7" },
    { "F13", "One doubleword up to a 4,096-byte boundary passes.", "fabric-f-00h.acs",
      { 4, ACS_TLP_WRITE, 0x80100FFC, 0, 1, 0x0300, 0 },
      "delivered 5 unvalidated 2:4 3:6 5:7" },
    { "F13", "Two would run over it.", "fabric-f-00h.acs",
      { 4, ACS_TLP_WRITE, 0x80100FFC, 0, 2, 0x0300, 0 },
      "refusal 6 0" },
    { "F14", "Completions to a peer are redirected.", "fabric-f-18h.acs",
      { 5, ACS_TLP_COMPLETION_DATA, 0, 0, 0, 0x0300, 0 },
      "delivered 4 checked 3:2 0:5 0:6 2:6 4:7" },
    { "F14", "Not those with Relaxed Ordering.", "fabric-f-18h.acs",
      { 5, ACS_TLP_COMPLETION_DATA, 0, 0, 0, 0x0300, 1 },
      "delivered 4 unvalidated 3:4 2:6 4:7" },
    { "F16", "As F6, with vectors of 256 bits: a size field of 00h beside E.",
      "fabric-f-37h-full-bit-2.acs",
      { 4, ACS_TLP_WRITE, 0x80100000, 0, 1, 0x0300, 0 },
      "delivered 5 checked 2:2 0:5 0:6 3:6 5:7" },
    { "F19", "As F7, where record 3 has Port Number 255: bit 255 of 256 forbids.",
      "fabric-f-20h-full-port-255.acs",
      { 4, ACS_TLP_READ, 0x80100000, 0, 1, 0x0300, 0 },
      "violation 2 E abort 2:7" },
    { "F19", "The same with vectors of 255 bits: bit 255 is past the size, and reads 0.",
      "fabric-f-20h-ffh-port-255.acs",
      { 4, ACS_TLP_READ, 0x80100000, 0, 1, 0x0300, 0 },
      "delivered 5 unvalidated 2:4 3:6 5:7" },
};

static const char fabric[] =
    "Fabric F: a switch with two cards below one root port. A number in front is a record's\n"
    "index; a Port Number is another thing, and the vector is read by Port Number.\n"
    "\n"
    "  0 root port 00:01.0, Port 0, buses 1-4              80000000h-803FFFFFh\n"
    "  +- 1 upstream port 01:00.0, buses 2-4               80000000h-803FFFFFh\n"
    "     +- 2 downstream port 02:00.0, Port 1, bus 3      80000000h-800FFFFFh\n"
    "     |  +- 4 endpoint 03:00.0                         80000000h-80000FFFh\n"
    "     +- 3 downstream port 02:01.0, Port 2, bus 4      80100000h-801FFFFFh\n"
    "        +- 5 endpoint 04:00.0                         80100000h-80100FFFh\n"
    "\n"
    "V Source Validation, B Translation Blocking, R Request Redirect, C Completion\n"
    "Redirect, U Upstream Forwarding, E Egress Control, T Direct Translated\n";

static int load(struct snapshot *snapshot, const char *folder, const char *file)
{
    char path[1024];
    if (snprintf(path, sizeof path, "%s/%s", folder, file) >= (int)sizeof path) {
        fprintf(stderr, "demo: the folder's name is too long\n");
        return 0;
    }
    return snapshot_load(snapshot, path);
}

/* Prints the case and its answer in words. */
static void show(const struct example *example, const struct snapshot *snapshot,
                 uint64_t answer, const uint8_t *hops)
{
    const uint8_t *root = snapshot_record(snapshot, 0);
    char letters[16];
    printf("\n%-4s %s\n", example->name, example->setting);
    if (root != NULL)
        printf("     Control %02Xh: %s\n", record_control(root),
               control_words(letters, record_capability(root), record_control(root)));
    printf("     ");
    print_query(stdout, snapshot, &example->query);
    printf("     -> ");
    if (acs_answer_refused(answer))
        print_refusal(stdout, snapshot, NOW, &example->query, answer);
    else
        print_outcome(stdout, snapshot, &example->query, answer);
    print_hops(stdout, "        ", snapshot, &example->query, answer, hops);
}

/* Asks one case. Gives 1 if the answer is as the rules say, 0 if not, and -1 if
   the file can't be read. */
static int ask(const struct example *example, const char *folder)
{
    static struct snapshot snapshot;
    uint8_t header[ACS_HEADER_ROOM], hops[ACS_HOPS_ROOM];
    char line[2400];
    size_t length = query_header(&example->query, header);
    uint64_t answer;
    int same;
    if (!load(&snapshot, folder, example->file))
        return -1;
    answer = acs_route(snapshot.bytes, snapshot.length, NOW, example->query.origin, header,
                       length, hops, sizeof hops);
    show(example, &snapshot, answer, hops);
    same = strcmp(answer_line(line, sizeof line, answer, hops), example->line) == 0;
    printf("     [%s] %s\n", line, same ? "as the rules say" : "DIFFERS");
    if (!same)
        printf("     [%s] is what the rules say\n", example->line);
    return same;
}

int main(int argc, char **argv)
{
    size_t count = sizeof examples / sizeof examples[0], right = 0;
    if (argc != 2) {
        fprintf(stderr, "usage: demo FOLDER\n");
        return 2;
    }
    fputs(fabric, stdout);
    for (size_t i = 0; i < count; i++) {
        int same = ask(&examples[i], argv[1]);
        if (same < 0)
            return 2;
        right += (size_t)same;
    }
    if (right == count)
        printf("\nAll %zu answers came out as docs/RULES.md says.\n", count);
    else
        printf("\n%zu of %zu answers DIFFER from docs/RULES.md.\n", count - right, count);
    return right == count && fflush(stdout) == 0 ? 0 : 1;
}
