#include "query.h"

int query_is_completion(const struct query *query)
{
    return query->tlp == ACS_TLP_COMPLETION || query->tlp == ACS_TLP_COMPLETION_DATA;
}

size_t query_header(const struct query *query, uint8_t header[ACS_HEADER_ROOM])
{
    if (query_is_completion(query))
        return acs_completion_header(header, query->tlp, query->id, query->relaxed);
    return acs_request_header(header, query->tlp, query->address, query->doublewords,
                              query->address_type, query->id);
}

uint16_t query_sender(const struct query *query, const struct snapshot *snapshot)
{
    const uint8_t *record = NULL;
    if (query->origin != ACS_HOST)
        record = snapshot_record(snapshot, query->origin);
    return record == NULL ? 0 : (uint16_t)record_id(record);
}

int query_covered(const struct query *query, const uint8_t *record)
{
    if (query_is_completion(query)) {
        unsigned bus = query->id >> 8;
        if (record_kind(record) == ACS_RECORD_ENDPOINT)
            return record_id(record) == query->id;
        return record_secondary(record) <= bus && bus <= record_subordinate(record);
    }
    for (unsigned k = 0; k < 6; k++)
        if (record_first(record, k) <= (query->address & ~UINT64_C(3))
            && (query->address & ~UINT64_C(3)) <= record_last(record, k))
            return 1;
    return 0;
}

unsigned query_peer(const struct query *query, const struct snapshot *snapshot, unsigned port)
{
    const uint8_t *own = snapshot_record(snapshot, port);
    for (unsigned index = 0; index < snapshot_count(snapshot); index++) {
        const uint8_t *record = snapshot_record(snapshot, index);
        if (index != port && record_is_port(record)
            && record_parent(record) == record_parent(own) && query_covered(query, record))
            return index;
    }
    return ACS_HOST;
}
