/*
 * Queries, answers and refusals in words, for a technician. The words for single
 * numbers are those of acs.h; here they become sentences about one snapshot.
 */
#ifndef WORDS_H
#define WORDS_H

#include <stdio.h>

#include "query.h"

/* "03:00.0" for 0300h. */
const char *id_words(char words[16], unsigned id);
/* "record 2, downstream port 02:00.0, Port 1": the index, what it is, its ID, and
   its Port Number where it has one. */
const char *node_words(char words[64], const struct snapshot *snapshot, unsigned index);
/* "V B R . U - -" for 17h: on, "." off, "-" not in the Capability. */
const char *control_words(char words[16], unsigned capability, unsigned control);
/* "root ports may not reach each other; redirected requests are reflected" */
const char *flags_words(char words[96], unsigned flags);
/* Seconds, and the date in brackets where they are seconds since 1970. */
const char *time_words(char words[64], uint64_t seconds);

/* What is asked, in a sentence. */
void print_query(FILE *out, const struct snapshot *snapshot, const struct query *query);
/* The hops, one to a line. */
void print_hops(FILE *out, const char *indent, const struct snapshot *snapshot,
                const struct query *query, uint64_t answer, const uint8_t *hops);
/* The outcome in one or two sentences. */
void print_outcome(FILE *out, const struct snapshot *snapshot, const struct query *query,
                   uint64_t answer);
/* A refusal in some sentences; acs_check has no query: NULL. */
void print_refusal(FILE *out, const struct snapshot *snapshot, uint64_t now,
                   const struct query *query, uint64_t answer);
/* The answer in one line, as the program acsroute prints it; hops may be NULL if
   the answer counts none. */
const char *answer_line(char *line, size_t size, uint64_t answer, const uint8_t *hops);

#endif
