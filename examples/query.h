/*
 * One TLP and its sender, as they are asked about.
 */
#ifndef QUERY_H
#define QUERY_H

#include "snapshot.h"

struct query {
    uint16_t origin;                    /* an endpoint's index, or ACS_HOST */
    enum acs_tlp tlp;                   /* ACS_TLP_READ, _WRITE, _COMPLETION, _COMPLETION_DATA */
    uint64_t address;                   /* of a request */
    enum acs_address_type address_type; /* of a request */
    unsigned doublewords;               /* of a request: 1 to 1,024 */
    uint16_t id;                        /* a request's requester; where a completion goes */
    int relaxed;                        /* of a completion: Relaxed Ordering */
};

int query_is_completion(const struct query *query);

/* Writes the query's TLP header and gives its length, 12 or 16. */
size_t query_header(const struct query *query, uint8_t header[ACS_HEADER_ROOM]);

/* The ID of the query's sender: that of its record, and 00:00.0 for the host. */
uint16_t query_sender(const struct query *query, const struct snapshot *snapshot);

/* Whether a record covers the query's TLP (C1 to C3 of docs/RULES.md). */
int query_covered(const struct query *query, const uint8_t *record);
/* The index of the port's sibling port that covers it, or ACS_HOST if none does. */
unsigned query_peer(const struct query *query, const struct snapshot *snapshot, unsigned port);

#endif
