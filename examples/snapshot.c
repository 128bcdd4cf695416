#include "snapshot.h"

#include <errno.h>
#include <stdio.h>
#include <string.h>

int file_load(const char *path, const char *what, uint8_t *bytes, size_t room, size_t *length)
{
    FILE *file = fopen(path, "rb");
    if (file == NULL) {
        fprintf(stderr, "%s: cannot open the %s: %s\n", path, what, strerror(errno));
        return 0;
    }
    errno = 0;
    *length = fread(bytes, 1, room, file);
    if (ferror(file)) {
        fprintf(stderr, "%s: cannot read the %s: %s\n", path, what, strerror(errno));
        fclose(file);
        return 0;
    }
    fclose(file);
    return 1;
}

int snapshot_load(struct snapshot *snapshot, const char *path)
{
    /* A file longer than every snapshot is refused whatever comes after, so the
       first byte too many is enough. */
    return file_load(path, "snapshot", snapshot->bytes, sizeof snapshot->bytes,
                     &snapshot->length);
}

/* ---- Little-endian numbers ---- */

static unsigned get16(const uint8_t *bytes)
{
    return bytes[0] | (unsigned)bytes[1] << 8;
}

static uint64_t get64(const uint8_t *bytes)
{
    uint64_t number = 0;
    for (int i = 7; i >= 0; i--)
        number = number << 8 | bytes[i];
    return number;
}

/* ---- The header ---- */

unsigned snapshot_flags(const struct snapshot *snapshot)
{
    return snapshot->bytes[3];
}

unsigned snapshot_version(const struct snapshot *snapshot)
{
    return get16(snapshot->bytes + 4);
}

unsigned snapshot_count(const struct snapshot *snapshot)
{
    return get16(snapshot->bytes + 6);
}

uint64_t snapshot_taken(const struct snapshot *snapshot)
{
    return get64(snapshot->bytes + 8);
}

uint64_t snapshot_until(const struct snapshot *snapshot)
{
    return get64(snapshot->bytes + 16);
}

/* ---- The records ---- */

const uint8_t *snapshot_record(const struct snapshot *snapshot, unsigned index)
{
    size_t first = ACS_SNAPSHOT_HEAD + (size_t)index * ACS_SNAPSHOT_RECORD;
    if (snapshot->length < ACS_SNAPSHOT_HEAD || index >= snapshot_count(snapshot))
        return NULL;
    if (first + ACS_SNAPSHOT_RECORD > snapshot->length)
        return NULL;
    return snapshot->bytes + first;
}

unsigned snapshot_find(const struct snapshot *snapshot, unsigned id)
{
    for (unsigned index = 0; index < snapshot_count(snapshot); index++) {
        const uint8_t *record = snapshot_record(snapshot, index);
        if (record != NULL && record_id(record) == id)
            return index;
    }
    return ACS_HOST;
}

enum acs_record_kind record_kind(const uint8_t *record)
{
    return (enum acs_record_kind)record[0];
}

int record_is_port(const uint8_t *record)
{
    return record_kind(record) == ACS_RECORD_ROOT_PORT
        || record_kind(record) == ACS_RECORD_DOWNSTREAM_PORT;
}

unsigned record_port_number(const uint8_t *record)
{
    return record[1];
}

unsigned record_parent(const uint8_t *record)
{
    return get16(record + 2);
}

unsigned record_id(const uint8_t *record)
{
    return (unsigned)record[4] << 8 | record[5];
}

unsigned record_secondary(const uint8_t *record)
{
    return record[6];
}

unsigned record_subordinate(const uint8_t *record)
{
    return record[7];
}

unsigned record_capability(const uint8_t *record)
{
    return get16(record + 8);
}

unsigned record_control(const uint8_t *record)
{
    return get16(record + 10);
}

uint64_t record_first(const uint8_t *record, unsigned k)
{
    return get64(record + 48 + 16 * k);
}

uint64_t record_last(const uint8_t *record, unsigned k)
{
    return get64(record + 56 + 16 * k);
}

unsigned record_vector_size(const uint8_t *record)
{
    unsigned capability = record_capability(record), field = capability >> 8;
    return field == 0 && capability & ACS_BIT_E ? 256 : field;
}

int record_stored_bit(const uint8_t *record, unsigned number)
{
    return record[16 + number / 8] >> number % 8 & 1;
}

int record_vector_bit(const uint8_t *record, unsigned number)
{
    return number < record_vector_size(record) && record_stored_bit(record, number);
}
