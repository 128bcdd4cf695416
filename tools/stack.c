/*
 * How much stack acs_check, acs_route and acs_fill need.
 *
 *     stack SNAPSHOTS IMAGES      the folders of the samples
 *
 * Each call is made in a thread whose stack is painted first; afterwards the
 * deepest byte that was overwritten tells how far down the call went. That is
 * done with two paints, so that a byte which happens to equal one of them is
 * seen by the other. The bytes are counted from the stack pointer before the
 * call, so what the call itself pushes is in the figure.
 *
 * x86-64 only, as the archive is.
 */
#define _GNU_SOURCE

#include <pthread.h>
#include <stdlib.h>
#include <string.h>
#include <sys/mman.h>

#include "words.h"

#define STACK_SIZE ((size_t)8 << 20)

/* What is asked: an image, a query of a snapshot, or a snapshot alone. */
struct question {
    const char *name, *what;
    const uint8_t *image; /* NULL: not acs_fill */
    const struct snapshot *snapshot;
    const struct query *query; /* NULL: acs_check */
};

/* One call, and what came of it. */
struct call {
    const struct question *question;
    uint8_t *base; /* the lowest byte of the stack */
    uint8_t paint;
    uint64_t answer;
    size_t used;
};

/* In force in every sample that is asked here: 2026-01-01. */
#define NOW UINT64_C(1767225600)

static void *measure(void *given)
{
    struct call *call = given;
    const uint8_t *image = call->question->image;
    const struct snapshot *snapshot = call->question->snapshot;
    const struct query *query = call->question->query;
    static uint8_t header[ACS_HEADER_ROOM], hops[ACS_HOPS_ROOM], record[ACS_SNAPSHOT_RECORD];
    size_t header_length = query == NULL ? 0 : query_header(query, header);
    uint8_t *top;
    volatile uint8_t *place;
    /* Below the stack pointer nothing is in use here, so all of it is painted. */
    __asm__ volatile("mov %%rsp, %0" : "=r"(top));
    for (place = call->base; place < top; place++)
        *place = call->paint;
    if (image != NULL)
        call->answer = acs_fill(image, ACS_IMAGE_SIZE, record, sizeof record);
    else if (query == NULL)
        call->answer = acs_check(snapshot->bytes, snapshot->length, NOW);
    else
        call->answer = acs_route(snapshot->bytes, snapshot->length, NOW, query->origin,
                                 header, header_length, hops, sizeof hops);
    for (place = call->base; place < top && *place == call->paint; place++)
        ;
    call->used = (size_t)(top - (uint8_t *)place);
    return NULL;
}

static void run(struct call *call)
{
    pthread_attr_t attributes;
    pthread_t thread;
    call->base = mmap(NULL, STACK_SIZE, PROT_READ | PROT_WRITE,
                      MAP_PRIVATE | MAP_ANONYMOUS | MAP_STACK, -1, 0);
    if (call->base == MAP_FAILED || pthread_attr_init(&attributes) != 0
        || pthread_attr_setstack(&attributes, call->base, STACK_SIZE) != 0
        || pthread_create(&thread, &attributes, measure, call) != 0
        || pthread_join(thread, NULL) != 0) {
        fprintf(stderr, "stack: no thread could be started\n");
        exit(2);
    }
    pthread_attr_destroy(&attributes);
    munmap(call->base, STACK_SIZE);
}

/* What came of a call: the outcome and the number of hops are enough here. */
static const char *outcome(char *line, size_t size, const struct question *question,
                           uint64_t answer)
{
    char *end;
    if (acs_answer_refused(answer)) {
        answer_line(line, size, answer, NULL);
    } else if (question->image != NULL) {
        snprintf(line, size, "filled, %u bytes of ACS", acs_fill_length(answer));
    } else if (question->query == NULL) {
        snprintf(line, size, "accepted");
    } else {
        answer_line(line, size, answer & ~(UINT64_C(0xFFFF) << 32), NULL);
        end = line + strlen(line);
        snprintf(end, size - (size_t)(end - line), ", %u hops", acs_answer_hops(answer));
    }
    return line;
}

/* Bytes that a call takes; prints its row. */
static size_t row(const struct question *question)
{
    static const uint8_t paints[2] = { 0xA5, 0x5A };
    char line[128];
    size_t most = 0;
    struct call call;
    for (int i = 0; i < 2; i++) {
        memset(&call, 0, sizeof call);
        call.question = question;
        call.paint = paints[i];
        run(&call);
        if (call.used > most)
            most = call.used;
    }
    printf("%7zu  %-8s %-36s %s\n", most, question->name, question->what,
           outcome(line, sizeof line, question, call.answer));
    return most;
}

/* ---- The samples ---- */

static const char *path_to(char path[1024], const char *folder, const char *file)
{
    if (snprintf(path, 1024, "%s/%s", folder, file) >= 1024) {
        fprintf(stderr, "stack: the folder's name is too long\n");
        exit(2);
    }
    return path;
}

static void load(struct snapshot *snapshot, const char *folder, const char *file)
{
    char path[1024];
    if (!snapshot_load(snapshot, path_to(path, folder, file)))
        exit(2);
}

static void load_image(uint8_t image[ACS_IMAGE_SIZE], const char *folder, const char *file)
{
    char path[1024];
    size_t length;
    if (!file_load(path_to(path, folder, file), "image", image, ACS_IMAGE_SIZE, &length))
        exit(2);
}

/* The longest list there is: from 100h each doubleword is a header that leads to
   the next, the last one to none. */
static void make_longest(uint8_t image[ACS_IMAGE_SIZE])
{
    memset(image, 0, ACS_IMAGE_SIZE);
    for (unsigned offset = 0x100; offset < ACS_IMAGE_SIZE; offset += 4) {
        unsigned next = offset + 4 < ACS_IMAGE_SIZE ? offset + 4 : 0;
        image[offset] = 0x01;
        image[offset + 2] = (uint8_t)(0x01 | (next & 0xF) << 4);
        image[offset + 3] = (uint8_t)(next >> 4);
    }
}

int main(int argc, char **argv)
{
    static struct snapshot small, chassis, deepest;
    static uint8_t port[ACS_IMAGE_SIZE], longest[ACS_IMAGE_SIZE], silent[ACS_IMAGE_SIZE];
    static const struct query f2 = { 4, ACS_TLP_WRITE, 0x80100000, 0, 1, 0x0300, 0 };
    static const struct query across = { 3, ACS_TLP_WRITE, 0x7800000000, 0, 1, 0x0300, 0 };
    static const struct query up = { 255, ACS_TLP_READ, 0x1000, 0, 1, 0xFF00, 0 };
    static const struct query down = { ACS_HOST, ACS_TLP_READ, 0x80000000, 0, 1, 0, 0 };
    static const struct query both = { 255, ACS_TLP_WRITE, 0x80000000, 0, 1, 0xFF00, 0 };
    static const struct query answer = { 255, ACS_TLP_COMPLETION_DATA, 0, 0, 0, 0xFF00, 0 };
    static const struct question questions[] = {
        { "F", "acs_check", NULL, &small, NULL },
        { "chassis", "acs_check", NULL, &chassis, NULL },
        { "deepest", "acs_check", NULL, &deepest, NULL },
        { "F", "acs_route, case F2", NULL, &small, &f2 },
        { "chassis", "acs_route, to another root port", NULL, &chassis, &across },
        { "deepest", "acs_route, up to the host", NULL, &deepest, &up },
        { "deepest", "acs_route, down from the host", NULL, &deepest, &down },
        { "deepest", "acs_route, up and down again", NULL, &deepest, &both },
        { "deepest", "acs_route, a completion's same way", NULL, &deepest, &answer },
        { "port", "acs_fill, ACS after two others", port, NULL, NULL },
        { "longest", "acs_fill, 960 others and no ACS", longest, NULL, NULL },
        { "silent", "acs_fill, all FFh", silent, NULL, NULL },
    };
    size_t check = 0, route = 0, fill = 0;
    if (argc != 3) {
        fprintf(stderr, "usage: stack SNAPSHOTS IMAGES\n");
        return 2;
    }
    load(&small, argv[1], "fabric-f-17h.acs");
    load(&chassis, argv[1], "chassis.acs");
    load(&deepest, argv[1], "deepest.acs");
    load_image(port, argv[2], "downstream-port.config");
    load_image(silent, argv[2], "silent.config");
    make_longest(longest);
    printf("  bytes  %-8s %-36s answer\n", "of", "call");
    for (size_t i = 0; i < sizeof questions / sizeof questions[0]; i++) {
        const struct question *question = &questions[i];
        size_t used = row(question);
        size_t *most = question->image != NULL ? &fill : question->query == NULL ? &check : &route;
        if (used > *most)
            *most = used;
    }
    printf("\nThe most stack measured: acs_check %zu bytes, acs_route %zu bytes, acs_fill %zu "
           "bytes.\n", check, route, fill);
    return 0;
}
