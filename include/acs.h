/*
 * acs.h: how PCI Express access control (ACS) routes a transaction.
 *
 * Two calls answer from a snapshot of one hierarchy, held in memory as bytes; a
 * third fills a record of such a snapshot from a bridge's configuration space.
 * They allocate nothing, keep nothing between calls and may run in any number
 * of threads at once. The rest of this file is names for numbers, readers for
 * answers, words for people and writers for TLP headers, all inline.
 *
 * docs/INTERFACE.md has the layouts and the calls in full, docs/RULES.md every
 * rule by which a snapshot is accepted, a TLP is routed and a record is filled;
 * acs(3) is the manual page. `make install` installs all three, the pages in
 * share/doc/acs.
 *
 * Before version 1.0 calls may change with ACS_VERSION_MINOR (INTERFACE.md,
 * "What is stable").
 *
 * C99, C11, C++98 or later. Link with libacs.a.
 */
#ifndef ACS_H
#define ACS_H

#include <stddef.h>
#include <stdint.h>

#ifdef __cplusplus
extern "C" {
#endif

/* ---- Version ------------------------------------------------------------ */

#define ACS_VERSION_MAJOR 0
#define ACS_VERSION_MINOR 4
#define ACS_VERSION_PATCH 0
#define ACS_VERSION "0.4.0"

/* ---- Sizes and numbers -------------------------------------------------- */

/* Origin or node: the host, or the root complex. */
#define ACS_HOST 0xFFFFu

/* The parent of a root port, which has none. */
#define ACS_NO_PARENT 0xFFFFu

enum {
    ACS_HOP_SIZE = 4,                 /* bytes of one hop in the buffer */
    ACS_HOPS_MOST = 257,              /* hops of the longest way there is */
    ACS_HOPS_ROOM = 1028,             /* bytes for 257 hops: always enough */
    ACS_HEADER_ROOM = 16,             /* bytes of the longest TLP header */
    ACS_DOUBLEWORDS_MOST = 1024,      /* length of the longest request */
    ACS_SNAPSHOT_VERSION = 1,         /* the version of snapshot that is read */
    ACS_SNAPSHOT_HEAD = 24,           /* bytes in front of the first record */
    ACS_SNAPSHOT_RECORD = 144,        /* bytes of one record */
    ACS_SNAPSHOT_RECORDS_MOST = 256,  /* records of the largest snapshot */
    ACS_SNAPSHOT_MOST = 36888,        /* bytes of the largest snapshot */
    ACS_IMAGE_SIZE = 4096             /* bytes of a configuration space image */
};

/* ---- Numbers of an answer ----------------------------------------------- */

/* Kind of an answer: byte 0 of the answer word.
   ZERO IS NO SUCCESS: kind 0 is the delivery that nobody validated. Use a switch. */
enum acs_kind {
    ACS_KIND_DELIVERED_UNVALIDATED = 0,  /* reaches an endpoint, not reflected by the root complex */
    ACS_KIND_DELIVERED_CHECKED = 1,      /* reaches an endpoint, reflected by the root complex */
    ACS_KIND_HOST = 2,                   /* reaches the host */
    ACS_KIND_UNCLAIMED = 3,              /* ends at a node from which nobody takes it on */
    ACS_KIND_UNDEFINED = 4,              /* ends at a port that covers it itself with U off */
    ACS_KIND_VIOLATION = 5,              /* stopped by access control, see the letters */
    ACS_KIND_REFUSED = 6                 /* no answer, see the refusal numbers */
};

/* Refusal number: byte 1 of the answer word of a refusal. Tested in the order
   short or mark 1, then 2, the rest of 1, then 3 to 7; of acs_fill 8, then 9. */
enum acs_refusal {
    ACS_REFUSAL_NONE = 0,     /* not refused */
    ACS_REFUSAL_FILE = 1,     /* under 24 bytes, wrong mark, bad flags, count, times or length */
    ACS_REFUSAL_VERSION = 2,  /* the snapshot's version is not 1 */
    ACS_REFUSAL_TIME = 3,     /* now is below the time taken or above good until */
    ACS_REFUSAL_RECORD = 4,   /* a record is not acceptable; the node is the lowest such index */
    ACS_REFUSAL_ORIGIN = 5,   /* the origin is neither ACS_HOST nor an endpoint's index */
    ACS_REFUSAL_HEADER = 6,   /* the TLP header is bad */
    ACS_REFUSAL_ROOM = 7,     /* the hops do not fit in the buffer */
    ACS_REFUSAL_LENGTH = 8,   /* the image has not 4,096 bytes, or the record not 144 */
    ACS_REFUSAL_CAPABILITIES = 9  /* the list of extended capabilities, or its ACS structure, is bad */
};

/* Violation letter: byte 1 of the answer word of a violation.
   ZERO IS A LETTER, V: read it by acs_answer_letter, which tells V from no violation. */
enum acs_letter {
    ACS_LETTER_V = 0,      /* Source Validation: the requester's bus is not below the port */
    ACS_LETTER_B = 1,      /* Translation Blocking: the address type is not 0 */
    ACS_LETTER_E = 5,      /* P2P Egress Control: the vector bit forbids the peer */
    ACS_LETTER_X = 7,      /* redirected request validation blocks */
    ACS_LETTER_NONE = 255  /* no violation; never in an answer word */
};

/* Action of a hop: byte 2 of a hop. */
enum acs_action {
    ACS_ACTION_UP = 1,          /* up as addressed */
    ACS_ACTION_REDIRECTED = 2,  /* redirected up */
    ACS_ACTION_UP_BY_U = 3,     /* up by U: the port covers it itself */
    ACS_ACTION_DIRECT = 4,      /* direct to a peer */
    ACS_ACTION_REFLECTED = 5,   /* reflected by the root complex */
    ACS_ACTION_DOWN = 6,        /* down */
    ACS_ACTION_END = 7          /* ends here: violation, undefined, unclaimed, delivered, host */
};

/* ---- Numbers of a snapshot ---------------------------------------------- */

/* Bits of the flags: byte 3 of the snapshot. */
enum acs_flag {
    ACS_FLAG_ROOTS_REACH = 0x01,  /* bit 0: root ports may reach each other */
    ACS_FLAG_REFLECT = 0x02       /* bit 1: redirected request validation reflects, else it blocks */
};

/* Kind of a record: byte 0 of the record. */
enum acs_record_kind {
    ACS_RECORD_ROOT_PORT = 1,        /* root port */
    ACS_RECORD_UPSTREAM_PORT = 2,    /* switch upstream port */
    ACS_RECORD_DOWNSTREAM_PORT = 3,  /* switch downstream port */
    ACS_RECORD_ENDPOINT = 4          /* single-function endpoint */
};

/* Bits of the ACS Capability and Control registers; Capability has the size of
   the Egress Control Vector in its high byte, where 00h means 256 bits if the
   Capability has E. */
enum acs_bit {
    ACS_BIT_V = 0x01,  /* bit 0: Source Validation */
    ACS_BIT_B = 0x02,  /* bit 1: Translation Blocking */
    ACS_BIT_R = 0x04,  /* bit 2: P2P Request Redirect */
    ACS_BIT_C = 0x08,  /* bit 3: P2P Completion Redirect */
    ACS_BIT_U = 0x10,  /* bit 4: Upstream Forwarding */
    ACS_BIT_E = 0x20,  /* bit 5: P2P Egress Control */
    ACS_BIT_T = 0x40   /* bit 6: Direct Translated P2P */
};

/* ---- Numbers of a TLP header -------------------------------------------- */

/* Byte 0 of a TLP header; the forms with a 64-bit address have 16 bytes, the others 12. */
enum acs_tlp {
    ACS_TLP_READ = 0x00,            /* memory read, 32-bit address */
    ACS_TLP_READ_64 = 0x20,         /* memory read, 64-bit address */
    ACS_TLP_WRITE = 0x40,           /* memory write, 32-bit address */
    ACS_TLP_WRITE_64 = 0x60,        /* memory write, 64-bit address */
    ACS_TLP_COMPLETION = 0x0A,      /* completion without data */
    ACS_TLP_COMPLETION_DATA = 0x4A  /* completion with data */
};

/* Address type of a request: bits 3:2 of byte 2. */
enum acs_address_type {
    ACS_AT_UNTRANSLATED = 0,
    ACS_AT_TRANSLATION_REQUEST = 1,
    ACS_AT_TRANSLATED = 2,
    ACS_AT_RESERVED = 3
};

/* ---- The calls ---------------------------------------------------------- */

/*
 * Is this snapshot whole, in order and in force?
 * Answers 0 if so, and else a refusal word, 1 to 4. Ask acs_check_accepted of
 * the answer: as the word of a route, 0 would be a delivery.
 *
 *   snapshot, snapshot_len  the snapshot's bytes, only read
 *   now                     the present time in seconds of the fleet's clock
 */
uint64_t acs_check(const uint8_t *snapshot, size_t snapshot_len, uint64_t now);

/*
 * Where does one TLP go? Answers the answer word and writes the hops to the
 * buffer from its start, and no byte after them. A refusal, 1 to 7, leaves
 * every byte of the buffer as it was. Ask acs_answer_kind of the answer: 0 is
 * the delivery that nobody validated.
 *
 *   snapshot, snapshot_len  the snapshot's bytes, only read
 *   now                     the present time in seconds of the fleet's clock
 *   origin                  the sender: an endpoint's index, or ACS_HOST
 *   header, header_len      the TLP header, 12 or 16 bytes, only read
 *   hops, hops_len          room for the hops; it overlaps neither input
 */
uint64_t acs_route(const uint8_t *snapshot, size_t snapshot_len, uint64_t now,
                   uint16_t origin, const uint8_t *header, size_t header_len,
                   uint8_t *hops, size_t hops_len);

/*
 * What do a bridge's own registers say? Fills bus numbers, ranges 0 and 1, ACS
 * Capability, Control and vector of one record of a snapshot from the bridge's
 * configuration space, and leaves its other bytes. Answers where the ACS
 * structure stands in the image (acs_fill_offset, acs_fill_length; both 0 where
 * the list of extended capabilities has none). A refusal, 8 or 9, leaves every
 * byte of the record as it was. 0 is a fill without ACS, not a fine record:
 * only acs_check says whether the record is acceptable.
 *
 *   image, image_len    the configuration space, 4,096 bytes, only read
 *   record, record_len  the record, 144 bytes; it does not overlap the image
 */
uint64_t acs_fill(const uint8_t *image, size_t image_len, uint8_t *record, size_t record_len);

/* ---- Reading what a call answered --------------------------------------- */

/* Whether a call was refused: of the answer of any call. */
static inline int acs_answer_refused(uint64_t answer)
{
    return (answer & 0xFFu) == ACS_KIND_REFUSED;
}

/* The refusal's number; ACS_REFUSAL_NONE where the call was not refused. */
static inline enum acs_refusal acs_answer_refusal(uint64_t answer)
{
    return acs_answer_refused(answer) ? (enum acs_refusal)(answer >> 8 & 0xFFu) : ACS_REFUSAL_NONE;
}

/* Whether acs_check accepted the snapshot: of the answer of acs_check only. */
static inline int acs_check_accepted(uint64_t answer)
{
    return answer == 0;
}

/* The kind, byte 0: of the answer of acs_route only (an accepted acs_check has none). */
static inline enum acs_kind acs_answer_kind(uint64_t answer)
{
    return (enum acs_kind)(answer & 0xFFu);
}

/* The violation's letter, byte 1; ACS_LETTER_NONE where the kind is another. */
static inline enum acs_letter acs_answer_letter(uint64_t answer)
{
    return acs_answer_kind(answer) == ACS_KIND_VIOLATION ? (enum acs_letter)(answer >> 8 & 0xFFu)
                                                         : ACS_LETTER_NONE;
}

/* Bytes 2-3: the node where it ended, ACS_HOST for host or complex; of a refusal its index. */
static inline uint16_t acs_answer_node(uint64_t answer)
{
    return (uint16_t)(answer >> 16 & 0xFFFFu);
}

/* Bytes 4-5: the number of hops written; 0 of a refusal. */
static inline unsigned acs_answer_hops(uint64_t answer)
{
    return (unsigned)(answer >> 32 & 0xFFFFu);
}

/* Byte 6: 1 where a violation ends in a completer abort (a read), else 0 (byte 7 is 0). */
static inline int acs_answer_abort(uint64_t answer)
{
    return (int)(answer >> 48 & 0xFFu);
}

/* Bytes 2-3: where in the image the ACS structure starts; 0 where there is none.
   Of the answer of acs_fill only, and not of a refusal. */
static inline unsigned acs_fill_offset(uint64_t answer)
{
    return (unsigned)(answer >> 16 & 0xFFFFu);
}

/* Bytes 4-5: how many bytes it has, its vector with it; 0 where there is none.
   Of the answer of acs_fill only, and not of a refusal. */
static inline unsigned acs_fill_length(uint64_t answer)
{
    return (unsigned)(answer >> 32 & 0xFFFFu);
}

/* ---- A hop in the buffer, number from 0 --------------------------------- */

/* Bytes 0-1, little-endian: the index of the node, ACS_HOST for host or complex. */
static inline uint16_t acs_hop_index(const uint8_t *hops, size_t number)
{
    const uint8_t *hop = hops + ACS_HOP_SIZE * number;
    return (uint16_t)(hop[0] | hop[1] << 8);
}

/* Byte 2: the action (byte 3 is 0); for a number below acs_answer_hops. */
static inline enum acs_action acs_hop_action(const uint8_t *hops, size_t number)
{
    return (enum acs_action)hops[ACS_HOP_SIZE * number + 2];
}

/* ---- Words for people: a name is a few words, a text a clause ----------- */

/* "delivered unvalidated" .. "refused". */
static inline const char *acs_kind_name(enum acs_kind kind)
{
    switch (kind) {
    case ACS_KIND_DELIVERED_UNVALIDATED: return "delivered unvalidated";
    case ACS_KIND_DELIVERED_CHECKED: return "delivered checked";
    case ACS_KIND_HOST: return "host";
    case ACS_KIND_UNCLAIMED: return "unclaimed";
    case ACS_KIND_UNDEFINED: return "undefined";
    case ACS_KIND_VIOLATION: return "violation";
    case ACS_KIND_REFUSED: return "refused";
    }
    return "unknown kind";
}

/* What is wrong, for any reader: "the snapshot's version is not 1". */
static inline const char *acs_refusal_text(enum acs_refusal refusal)
{
    switch (refusal) {
    case ACS_REFUSAL_NONE: return "not refused";
    case ACS_REFUSAL_FILE:
        return "the file is no whole snapshot: too short, no mark, or bad flags, count, times or length";
    case ACS_REFUSAL_VERSION: return "the snapshot's version is not 1";
    case ACS_REFUSAL_TIME: return "the time asked is before the time taken or after good until";
    case ACS_REFUSAL_RECORD: return "a record of the file is not acceptable; the index says which";
    case ACS_REFUSAL_ORIGIN: return "the origin is neither the host nor an endpoint's index";
    case ACS_REFUSAL_HEADER:
        return "the TLP header is bad: unknown byte 0, wrong length, or over a 4,096-byte boundary";
    case ACS_REFUSAL_ROOM: return "the hop buffer is too short; 1,028 bytes are always enough";
    case ACS_REFUSAL_LENGTH: return "the image has not 4,096 bytes, or the record not 144";
    case ACS_REFUSAL_CAPABILITIES:
        return "the image's list of extended capabilities is bad, or the ACS structure in it";
    }
    return "unknown refusal";
}

/* "V", "B", "E" or "X"; "none" where there is no violation. */
static inline const char *acs_letter_name(enum acs_letter letter)
{
    switch (letter) {
    case ACS_LETTER_V: return "V";
    case ACS_LETTER_B: return "B";
    case ACS_LETTER_E: return "E";
    case ACS_LETTER_X: return "X";
    case ACS_LETTER_NONE: return "none";
    }
    return "unknown letter";
}

/* What was violated: "Source Validation" .. */
static inline const char *acs_letter_text(enum acs_letter letter)
{
    switch (letter) {
    case ACS_LETTER_V: return "Source Validation";
    case ACS_LETTER_B: return "Translation Blocking";
    case ACS_LETTER_E: return "P2P Egress Control";
    case ACS_LETTER_X: return "redirected request validation";
    case ACS_LETTER_NONE: return "no violation";
    }
    return "unknown letter";
}

/* "up as addressed" .. "ends here". */
static inline const char *acs_action_name(enum acs_action action)
{
    switch (action) {
    case ACS_ACTION_UP: return "up as addressed";
    case ACS_ACTION_REDIRECTED: return "redirected up";
    case ACS_ACTION_UP_BY_U: return "up by Upstream Forwarding";
    case ACS_ACTION_DIRECT: return "direct to a peer";
    case ACS_ACTION_REFLECTED: return "reflected by the root complex";
    case ACS_ACTION_DOWN: return "down";
    case ACS_ACTION_END: return "ends here";
    }
    return "unknown action";
}

/* "root port", "upstream port", "downstream port" or "endpoint". */
static inline const char *acs_record_kind_name(enum acs_record_kind kind)
{
    switch (kind) {
    case ACS_RECORD_ROOT_PORT: return "root port";
    case ACS_RECORD_UPSTREAM_PORT: return "upstream port";
    case ACS_RECORD_DOWNSTREAM_PORT: return "downstream port";
    case ACS_RECORD_ENDPOINT: return "endpoint";
    }
    return "unknown kind";
}

/* "untranslated", "translation request", "translated" or "reserved". */
static inline const char *acs_address_type_name(enum acs_address_type type)
{
    switch (type) {
    case ACS_AT_UNTRANSLATED: return "untranslated";
    case ACS_AT_TRANSLATION_REQUEST: return "translation request";
    case ACS_AT_TRANSLATED: return "translated";
    case ACS_AT_RESERVED: return "reserved";
    }
    return "unknown address type";
}

/* ---- Writing a TLP header ----------------------------------------------- */

/* An ID from bus (0 to 255), device (0 to 31) and function (0 to 7). */
static inline uint16_t acs_id(unsigned bus, unsigned device, unsigned function)
{
    return (uint16_t)((bus & 0xFFu) << 8 | (device & 0x1Fu) << 3 | (function & 7u));
}

/*
 * Writes the header of a memory request into ACS_HEADER_ROOM bytes and gives
 * its length: 12, or 16 where the address needs more than 32 bits. Gives 0 and
 * writes nothing where an argument is out of range (as a header of length 0,
 * acs_route refuses it by 6).
 *
 *   tlp          ACS_TLP_READ or ACS_TLP_WRITE; the 64-bit forms always take 16 bytes
 *   address      its low two bits count as 0
 *   doublewords  the length, 1 to 1,024
 *   requester    the sender's ID, by acs_id
 */
static inline size_t acs_request_header(uint8_t *header, enum acs_tlp tlp, uint64_t address,
                                        unsigned doublewords, enum acs_address_type type,
                                        uint16_t requester)
{
    unsigned first = (unsigned)tlp | (address >> 32 != 0 ? 0x20u : 0u);
    size_t length = (first & 0x20u) != 0 ? 16 : 12;
    size_t i;
    if ((first & ~0x60u) != 0 || doublewords < 1 || doublewords > ACS_DOUBLEWORDS_MOST || (unsigned)type > 3)
        return 0;
    header[0] = (uint8_t)first;
    header[1] = 0;
    header[2] = (uint8_t)((unsigned)type << 2 | (doublewords >> 8 & 3u));
    header[3] = (uint8_t)(doublewords & 0xFFu);
    header[4] = (uint8_t)(requester >> 8);
    header[5] = (uint8_t)(requester & 0xFFu);
    header[6] = 0;
    header[7] = doublewords == 1 ? 0x0F : 0xFF; /* all bytes of the first and the last doubleword */
    for (i = 8; i < length; i++)
        header[i] = (uint8_t)(address >> 8 * (length - 1 - i) & 0xFFu);
    header[length - 1] = (uint8_t)(header[length - 1] & 0xFCu);
    return length;
}

/*
 * Writes the header of a successful completion into ACS_HEADER_ROOM bytes and
 * gives its length, 12; 0, with nothing written, where tlp is no completion.
 *
 *   tlp      ACS_TLP_COMPLETION or ACS_TLP_COMPLETION_DATA (one doubleword)
 *   target   the ID that it goes to, by acs_id
 *   relaxed  whether Relaxed Ordering is set
 */
static inline size_t acs_completion_header(uint8_t *header, enum acs_tlp tlp, uint16_t target,
                                           int relaxed)
{
    size_t i;
    if (tlp != ACS_TLP_COMPLETION && tlp != ACS_TLP_COMPLETION_DATA)
        return 0;
    for (i = 0; i < 12; i++)
        header[i] = 0;
    header[0] = (uint8_t)tlp;
    header[2] = relaxed ? 0x20 : 0;
    header[3] = tlp == ACS_TLP_COMPLETION_DATA ? 1 : 0;
    header[7] = 4; /* the count of bytes: one doubleword */
    header[8] = (uint8_t)(target >> 8);
    header[9] = (uint8_t)(target & 0xFFu);
    return 12;
}

#ifdef __cplusplus
}
#endif

#endif
