/*
 * Fills a record of a snapshot from the configuration space of each bridge that
 * is given, and says in words what came of it.
 *
 *     fill CONFIG...
 *
 * Exit status: see `fill --help`.
 */
#include <inttypes.h>
#include <string.h>

#include "words.h"

enum { FILLED = 0, REFUSED = 1, TROUBLE = 2 };

static const char usage[] =
    "usage: fill CONFIG...\n"
    "\n"
    "  CONFIG     a file with the configuration space of one bridge, 4,096 bytes, like each\n"
    "             /sys/bus/pci/devices/*/config of Linux when root reads it\n"
    "  --help     what you read here\n"
    "  --version  the library's version\n"
    "\n"
    "From each file a record of a snapshot is filled by acs_fill, and printed: own bus,\n"
    "secondary and subordinate; range 0, the memory window, and range 1, the prefetchable\n"
    "window; ACS Capability and Control with their letters (a letter is on, . is off, - is\n"
    "not in the Capability); the Egress Control Vector, its bytes in hexadecimal; and where\n"
    "in the file the ACS structure stands.\n"
    "\n"
    "What else a record has stays as it was: kind, Port Number, parent, device and function,\n"
    "ranges 2 to 5. A filled record is not thereby acceptable: acs_check says that of a\n"
    "whole snapshot.\n"
    "\n"
    "Exit status: 0 all filled, 1 some refused by the library, 2 a file could not be read or\n"
    "the arguments are wrong.\n";

/* A configuration space as a file has it: room for one, and one byte more, which
   tells a file that is too long from one that just fits. */
struct image {
    uint8_t bytes[ACS_IMAGE_SIZE + 1];
    size_t length;
};

/* ---- What was filled ---- */

/* A record as it is lent: zeros, and each of its six ranges closed. */
static void clear(uint8_t record[ACS_SNAPSHOT_RECORD])
{
    memset(record, 0, ACS_SNAPSHOT_RECORD);
    for (int k = 0; k < 6; k++)
        record[48 + 16 * k] = 1;
}

static void print_range(const uint8_t *record, unsigned k, const char *window)
{
    if (record_first(record, k) > record_last(record, k))
        printf("  range %u      the %s window: closed\n", k, window);
    else
        printf("  range %u      the %s window: %08" PRIX64 "h-%08" PRIX64 "h\n", k, window,
               record_first(record, k), record_last(record, k));
}

/* The vector's size and the bytes of it that the structure has, which is whole
   doublewords: 16 bytes to a line. */
static void print_vector(const uint8_t *record, unsigned structure)
{
    unsigned size = record_vector_size(record);
    if (structure <= 8) {
        printf("  vector       none");
        if (size > 0)
            printf(": the Capability names %u bits, but has no E", size);
        printf("\n");
        return;
    }
    printf("  vector       %u bits:", size);
    for (unsigned i = 0; i < structure - 8; i++)
        printf("%s %02X", i > 0 && i % 16 == 0 ? "\n              " : "", record[16 + i]);
    printf("\n");
}

static void print_structure(uint64_t answer)
{
    if (acs_fill_length(answer) == 0)
        printf("  structure    none: the list of extended capabilities has no ACS\n");
    else
        printf("  structure    ACS stands at %03Xh and has %u bytes\n", acs_fill_offset(answer),
               acs_fill_length(answer));
}

/* acs_fill takes every image for a bridge's. */
static void print_header_type(const struct image *image)
{
    unsigned type = image->bytes[0x0E] & 0x7F;
    if (type != 1)
        printf("  NO BRIDGE: the header type (byte 0Eh) is %02Xh, and a bridge has 01h; acs_fill does "
               "not test it. What stands where a bridge has its bus numbers and windows means "
               "something else here.\n", type);
}

static void print_filled(const struct image *image, const uint8_t *record, uint64_t answer)
{
    unsigned capability = record_capability(record), control = record_control(record);
    char letters[16];
    printf("  own bus      %02Xh\n", record_id(record) >> 8);
    printf("  secondary    %02Xh\n", record_secondary(record));
    printf("  subordinate  %02Xh\n", record_subordinate(record));
    print_range(record, 0, "memory");
    print_range(record, 1, "prefetchable");
    printf("  ACS          Capability %04Xh, Control %04Xh (%s)\n", capability, control,
           control_words(letters, capability, control));
    print_vector(record, acs_fill_length(answer));
    print_structure(answer);
    print_header_type(image);
}

/* ---- Refusals ---- */

static int is_silent(const struct image *image)
{
    for (size_t i = 0; i < image->length; i++)
        if (image->bytes[i] != 0xFF)
            return 0;
    return image->length > 0;
}

/* Refusal 8: the record that is lent has its 144 bytes, so it is the file. */
static void print_bad_length(size_t length)
{
    if (length == 0)
        printf("the file is empty, and a configuration space has 4,096 bytes. Read it again, as "
               "root.\n");
    else if (length == 64)
        printf("the file has 64 bytes of 4,096: Linux gives no more to users other than root. Read "
               "it as root; 4,096 bytes are there only for a PCI Express device.\n");
    else if (length == 256)
        printf("the file has 256 bytes of 4,096: the extended part is missing, in which ACS stands. "
               "Read it as root; 4,096 bytes are there only for a PCI Express device, and 256 are all "
               "that another has.\n");
    else if (length < ACS_IMAGE_SIZE)
        printf("the file has %zu byte%s of 4,096: it was cut off. Read it again, whole and as "
               "root.\n", length, length == 1 ? "" : "s");
    else
        printf("the file has more than 4,096 bytes, so it is not the configuration space of one "
               "device. Give a file for each; a listing in text, as lspci prints it, is not "
               "understood.\n");
}

static void print_bad_list(int silent)
{
    if (silent)
        printf("%s.\n", acs_refusal_text(ACS_REFUSAL_CAPABILITIES));
    else
        printf("the list of extended capabilities is bad, in one of these ways: an offset that "
               "cannot be (below 100h and not 0, or no multiple of 4), an offset that comes back, an "
               "ACS structure of another version than 1, or one that runs past the end. Read it "
               "again; if it stays so, no record can be filled from this device.\n");
}

static void print_refused(const struct image *image, enum acs_refusal refusal)
{
    int silent = is_silent(image);
    if (silent)
        printf("  The device does not answer: every byte is FFh. It is gone, asleep or was "
               "pulled.\n");
    printf("  Refused (%u): ", (unsigned)refusal);
    if (refusal == ACS_REFUSAL_LENGTH)
        print_bad_length(image->length);
    else if (refusal == ACS_REFUSAL_CAPABILITIES)
        print_bad_list(silent);
    else
        printf("%s.\n", acs_refusal_text(refusal));
    printf("  Nothing was filled.\n");
}

/* ---- The program ---- */

/* Fills a record from one file and prints what came of it; gives the exit status
   that it calls for. */
static int fill(const char *path)
{
    struct image image;
    uint8_t record[ACS_SNAPSHOT_RECORD];
    uint64_t answer;
    if (!file_load(path, "image", image.bytes, sizeof image.bytes, &image.length))
        return TROUBLE;
    clear(record);
    answer = acs_fill(image.bytes, image.length, record, sizeof record);
    printf("%s\n", path);
    if (acs_answer_refused(answer)) {
        print_refused(&image, acs_answer_refusal(answer));
        return REFUSED;
    }
    print_filled(&image, record, answer);
    return FILLED;
}

/* All files, whatever becomes of one; gives the worst of their exit statuses. */
static int fill_all(char **paths, int count)
{
    int worst = FILLED, any = 0;
    for (int i = 0; i < count; i++) {
        int status = fill(paths[i]);
        any = any || status == FILLED;
        if (status > worst)
            worst = status;
    }
    if (any)
        printf("A filled record is not thereby acceptable: acs_check says that of a whole "
               "snapshot.\n");
    return worst;
}

/* Options go before all else; gives -1 where there is none. */
static int options(char **words, int count)
{
    for (int i = 0; i < count; i++) {
        if (strcmp(words[i], "--help") == 0 || strcmp(words[i], "-h") == 0) {
            fputs(usage, stdout);
            return FILLED;
        }
        if (strcmp(words[i], "--version") == 0) {
            printf("fill of acs %s\n", ACS_VERSION);
            return FILLED;
        }
        if (strncmp(words[i], "--", 2) == 0) {
            fprintf(stderr, "fill: no such option: %s\nfill --help says how to ask.\n", words[i]);
            return TROUBLE;
        }
    }
    return -1;
}

static int run(int argc, char **argv)
{
    int status;
    if (argc < 2) {
        fputs(usage, stderr);
        return TROUBLE;
    }
    status = options(argv + 1, argc - 1);
    return status >= 0 ? status : fill_all(argv + 1, argc - 1);
}

int main(int argc, char **argv)
{
    int status = run(argc, argv);
    if (fflush(stdout) != 0 || ferror(stdout)) {
        fprintf(stderr, "fill: the answer could not be written.\n");
        return TROUBLE;
    }
    return status;
}
