/*
 * The command line of the example service.
 */
#ifndef ARGUMENTS_H
#define ARGUMENTS_H

#include "query.h"

/* What the command line asks. */
struct arguments {
    const char *path;
    int has_query;
    struct query query;
    int has_origin_id;     /* the origin was given as an ID: query.origin is to be looked up */
    uint16_t origin_id;
    int has_requester;     /* else the requester is the sender's own ID */
    unsigned long domain;  /* the domain in front of an ID, as in 0001:03:00.0 */
    int has_now;
    uint64_t now;
    size_t room;
    int exit_by_outcome;
    int for_acsroute;      /* write the query as acsroute reads it, and ask nothing */
};

extern const char usage[];

/* Reads the command line. Says what is wrong on standard error and gives 0 if
   it can't be understood. */
int read_arguments(struct arguments *arguments, int argc, char **argv);

#endif
