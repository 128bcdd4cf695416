/*
 * What an answer rests on, printed with it so that the answer can be kept: the
 * file, the times, the registers that decided, the library's version.
 */
#ifndef EVIDENCE_H
#define EVIDENCE_H

#include "words.h"

/* A question and what the library answered. */
struct asked {
    const char *path;
    const struct snapshot *snapshot;
    uint64_t now;
    const struct query *query; /* NULL where only acs_check was asked */
    uint64_t answer;
    const uint8_t *hops;
};

/* What the answer or the refusal rests on. */
void print_evidence(FILE *out, const struct asked *asked);

/* All records of an accepted snapshot, one to a line, under a line of titles. */
void print_records(FILE *out, const struct snapshot *snapshot);
/* One record, whatever is in it, below its parent if that stands before it. */
void print_record(FILE *out, const struct snapshot *snapshot, unsigned index);

#endif
