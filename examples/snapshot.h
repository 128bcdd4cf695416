/*
 * A snapshot in a file, and the fields of its records, by the layout of
 * docs/INTERFACE.md.
 */
#ifndef SNAPSHOT_H
#define SNAPSHOT_H

#include "acs.h"

/* A snapshot's bytes: room for the largest there is, and one byte more, which
   tells a file that is too long from one that just fits. */
struct snapshot {
    uint8_t bytes[ACS_SNAPSHOT_MOST + 1];
    size_t length;
};

/* Reads the first bytes of a file, as many as there is room for, and counts them.
   Says what is wrong on standard error and gives 0 if it can't be read; there it
   calls the file what it was meant to be, as in "snapshot". */
int file_load(const char *path, const char *what, uint8_t *bytes, size_t room, size_t *length);

/* Reads a snapshot's file in that way. */
int snapshot_load(struct snapshot *snapshot, const char *path);

/* Fields of the header, for a snapshot of at least 24 bytes. */
unsigned snapshot_flags(const struct snapshot *snapshot);
unsigned snapshot_version(const struct snapshot *snapshot);
unsigned snapshot_count(const struct snapshot *snapshot);
uint64_t snapshot_taken(const struct snapshot *snapshot);
uint64_t snapshot_until(const struct snapshot *snapshot);

/* The 144 bytes of a record, or NULL if the snapshot hasn't got it whole. */
const uint8_t *snapshot_record(const struct snapshot *snapshot, unsigned index);
/* The index of the record with this ID, or ACS_HOST if there is none. */
unsigned snapshot_find(const struct snapshot *snapshot, unsigned id);

/* Fields of a record. */
enum acs_record_kind record_kind(const uint8_t *record);
int record_is_port(const uint8_t *record); /* a root port or a downstream port */
unsigned record_port_number(const uint8_t *record);
unsigned record_parent(const uint8_t *record);
unsigned record_id(const uint8_t *record); /* own bus, device and function */
unsigned record_secondary(const uint8_t *record);
unsigned record_subordinate(const uint8_t *record);
unsigned record_capability(const uint8_t *record);
unsigned record_control(const uint8_t *record);
/* Range k, 0 to 5; one that is closed has its first address above its last. */
uint64_t record_first(const uint8_t *record, unsigned k);
uint64_t record_last(const uint8_t *record, unsigned k);
/* The Egress Control Vector: its size in bits; a bit as the file has it; a bit
   as it reads, 0 from the size upwards. */
unsigned record_vector_size(const uint8_t *record);
int record_stored_bit(const uint8_t *record, unsigned number);
int record_vector_bit(const uint8_t *record, unsigned number);

#endif
