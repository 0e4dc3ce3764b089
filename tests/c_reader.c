/*
 * The program of tests/c_library.py, on libmesosev. It reads standard input.
 *
 * Events are decoded by mes_decoder_many, ROOM at a time, or by mes_decoder_next if ROOM is 0.
 *
 *   stream FRAMING LIMIT PIECE ROOM [FLAGS]
 *       prints each event's text as a record, then on standard error the counts or the fault
 *   cuts FRAMING LIMIT STEP ROOM
 *       checks that cuts in two, and pieces of 1, 7 and 512 bytes, give the same as the whole
 *   check FRAMING LIMIT ROOM   prints the status, the counts and the line
 *   call ROOM                  prints the status, the size and the text
 *   handles COUNT              uses COUNT decoders at once, each freed at another offset
 *   refuse FRAMING ROOM        makes each allocation of the library fail in turn; built with
 *                              REFUSING and the linker's --wrap
 *   misuse                     passes null pointers and invalid arguments, and calls after the end
 */
#include <inttypes.h>
#include <stdio.h>
#include <stdlib.h>
#include <string.h>

#include "mesosev.h"

struct bytes {
    char *at;
    size_t length, room;
};

/* The outcome of a stream. */
struct outcome {
    struct bytes texts; /* each event's type and text */
    uint64_t events, used;
    uint32_t status;
    char line[MES_LINE_ROOM];
};

/* The number of events that mes_decoder_many decodes at a time; 0 for mes_decoder_next. */
static size_t room;

/* Whether a call of the library runs; the number of allocations so far, the one that fails, and
 * whether all later ones fail too. */
static int inside, refuses_later;
static long allocations, refused = -1;

#ifdef REFUSING
void *__real_malloc(size_t size);
void *__real_realloc(void *at, size_t size);
void *__wrap_malloc(size_t size);
void *__wrap_realloc(void *at, size_t size);

static int is_refused(void)
{
    long number = allocations;
    allocations += inside;
    return inside && (number == refused || (refuses_later && number > refused));
}

void *__wrap_malloc(size_t size)
{
    return is_refused() ? NULL : __real_malloc(size);
}

void *__wrap_realloc(void *at, size_t size)
{
    return is_refused() ? NULL : __real_realloc(at, size);
}
#endif

_Noreturn static void fail(const char *what)
{
    fprintf(stderr, "c_reader: %s\n", what);
    exit(3);
}

static void expect(int holds, const char *what)
{
    if (!holds)
        fail(what);
}

static void append(struct bytes *to, const char *from, size_t length)
{
    while (to->length + length > to->room) {
        to->room = to->room > 0 ? 2 * to->room : 4096;
        to->at = realloc(to->at, to->room);
        expect(to->at != NULL, "no memory");
    }
    if (length > 0)
        memcpy(to->at + to->length, from, length);
    to->length += length;
}

static struct bytes standard_input(void)
{
    struct bytes all = {NULL, 0, 0};
    char piece[65536];
    size_t length;

    while ((length = fread(piece, 1, sizeof piece, stdin)) > 0)
        append(&all, piece, length);
    return all;
}

/* Copies to an allocation of the same size, so that valgrind detects a read past the end. */
static char *alone(const char *from, size_t length)
{
    char *to = malloc(length > 0 ? length : 1);
    expect(to != NULL, "no memory");
    if (length > 0)
        memcpy(to, from, length);
    return to;
}

static void keep_end(struct outcome *to, uint32_t status, const mes_event *event)
{
    to->status = status;
    expect(event->type == 0, "a type without an event");
    expect(event->length < sizeof to->line, "a line that is too long");
    if (event->length > 0)
        memcpy(to->line, event->text, event->length);
    to->line[event->length] = '\0';
    if (status == MES_END)
        snprintf(to->line, sizeof to->line, "events %" PRIu64 " bytes %" PRIu64, to->events, to->used);
}

static void keep_event(struct outcome *to, const mes_event *event)
{
    char head[64];
    int length = snprintf(head, sizeof head, "%u %zu ", event->type, event->length);

    append(&to->texts, head, (size_t)length);
    append(&to->texts, event->text, event->length);
    to->events++;
}

static uint32_t take_next(mes_decoder *decoder, const char *bytes, size_t length, size_t *used, struct outcome *to, mes_event *last)
{
    inside = 1;
    uint32_t status = mes_decoder_next(decoder, bytes, length, used, last);
    inside = 0;
    if (status != MES_EVENT && status != MES_NO_TEXT)
        return status;
    keep_event(to, last);
    return MES_EVENT;
}

/* Decodes up to `room` events, and checks that their texts are consecutive. */
static uint32_t take_many(mes_decoder *decoder, const char *bytes, size_t length, size_t *used, struct outcome *to, mes_event *last)
{
    mes_event *events = malloc(room * sizeof *events);
    const char *next_text = NULL;
    size_t count = room + 1;

    expect(events != NULL, "no memory");
    inside = 1;
    uint32_t status = mes_decoder_many(decoder, bytes, length, used, events, room, &count);
    inside = 0;
    expect(count <= room && (count == room) == (status == MES_EVENT), "the count does not match the room");
    for (size_t i = 0; i < count; i++) {
        expect((events[i].text == NULL) == (events[i].length == 0), "a text without a length, or a length without a text");
        expect(next_text == NULL || events[i].text == NULL || events[i].text == next_text, "the texts are not consecutive");
        if (events[i].text != NULL)
            next_text = events[i].text + events[i].length;
        keep_event(to, &events[i]);
    }
    free(events);
    if (status == MES_MORE || status == MES_EVENT)
        return status;
    inside = 1;
    uint32_t again = mes_decoder_finish(decoder, last);
    inside = 0;
    expect(again == status, "mes_decoder_finish returns another status than mes_decoder_many");
    return status;
}

/* Returns whether the decoder needs more input. */
static int feed(mes_decoder *decoder, const char *bytes, size_t length, struct outcome *to)
{
    char *piece = alone(bytes, length);
    size_t at = 0, used = 0;
    mes_event last;
    uint32_t status;

    do {
        status = (room > 0 ? take_many : take_next)(decoder, piece + at, length - at, &used, to, &last);
        expect(used <= length - at, "more bytes used than passed");
        at += used;
        to->used += used;
    } while (status == MES_EVENT);
    free(piece);
    if (status == MES_MORE) {
        expect(at == length, "MES_MORE, but bytes are left");
        return 1;
    }
    keep_end(to, status, &last);
    return 0;
}

/* Returns null if the allocation was made to fail. */
static mes_decoder *made(uint32_t framing, uint32_t limit, uint32_t flags)
{
    mes_decoder *decoder;
    inside = 1;
    uint32_t status = mes_decoder_new(limit, framing, flags, &decoder);
    inside = 0;
    expect(status == MES_GOOD || (refused >= 0 && status == MES_NO_MEMORY && decoder == NULL), "no decoder");
    return decoder;
}

/* Decodes a stream whose first piece has `first` bytes, and each other one `piece`. */
static struct outcome outcome_of(const struct bytes *all, size_t first, size_t piece, uint32_t framing, uint32_t limit, uint32_t flags)
{
    struct outcome to = {{NULL, 0, 0}, 0, 0, 0, ""};
    mes_decoder *decoder = made(framing, limit, flags);
    size_t at = 0, next = first;
    int goes_on = 1;
    mes_event event;

    if (decoder == NULL) {
        to.status = MES_NO_MEMORY;
        return to;
    }
    while (goes_on && at < all->length) {
        size_t length = next < all->length - at ? next : all->length - at;
        goes_on = feed(decoder, all->at + at, length, &to);
        at += length;
        next = piece;
    }
    inside = 1;
    uint32_t status = mes_decoder_finish(decoder, &event);
    inside = 0;
    if (goes_on)
        keep_end(&to, status, &event);
    expect(status == to.status, "mes_decoder_finish returns another status");
    mes_decoder_free(decoder);
    return to;
}

static int is_same(const struct outcome *one, const struct outcome *other)
{
    return one->status == other->status && one->events == other->events && one->used == other->used
        && strcmp(one->line, other->line) == 0 && one->texts.length == other->texts.length
        && (one->texts.length == 0 || memcmp(one->texts.at, other->texts.at, one->texts.length) == 0);
}

static void print_records(const struct bytes *texts)
{
    const char *at = texts->at, *end = texts->at + texts->length;
    while (at < end) {
        char *next;
        strtoul(at, &next, 10);
        size_t length = strtoul(next, &next, 10);
        printf("%zu\n", length);
        fwrite(next + 1, 1, length, stdout);
        at = next + 1 + length;
    }
}

static int stream(uint32_t framing, uint32_t limit, size_t piece, uint32_t flags)
{
    struct bytes all = standard_input();
    struct outcome got = outcome_of(&all, piece, piece, framing, limit, flags);

    print_records(&got.texts);
    fprintf(stderr, "%s\n", got.line);
    free(got.texts.at);
    free(all.at);
    return got.status == MES_END ? 0 : 1;
}

static int cuts(uint32_t framing, uint32_t limit, size_t step)
{
    struct bytes all = standard_input();
    struct outcome whole = outcome_of(&all, all.length, all.length, framing, limit, 0);
    size_t pieces[] = {1, 7, 512}, count = 0;

    for (size_t first = 1; first < all.length; first += step, count++) {
        struct outcome got = outcome_of(&all, first, all.length, framing, limit, 0);
        expect(is_same(&got, &whole), "a cut changes the outcome");
        free(got.texts.at);
    }
    for (size_t i = 0; i < 3; i++, count++) {
        struct outcome got = outcome_of(&all, pieces[i], pieces[i], framing, limit, 0);
        expect(is_same(&got, &whole), "pieces change the outcome");
        free(got.texts.at);
    }
    printf("%zu cuts: %s\n", count, whole.line);
    free(whole.texts.at);
    free(all.at);
    return 0;
}

static int check(uint32_t framing, uint32_t limit, size_t size)
{
    struct bytes all = standard_input();
    char *bytes = alone(all.at, all.length), *line = alone("", 0);
    uint64_t events = 0, used = 0;

    if (size > 0) {
        free(line);
        line = malloc(size);
        expect(line != NULL, "no memory");
        memset(line, 'x', size);
    }
    uint32_t status = mes_check(bytes, all.length, limit, framing, &events, &used, line, size);
    printf("%u %" PRIu64 " %" PRIu64 " %s\n", status, events, used, size > 0 ? line : "");
    free(line);
    free(bytes);
    free(all.at);
    return 0;
}

static int call(size_t limit)
{
    struct bytes all = standard_input();
    char *bytes = alone(all.at, all.length), *text = limit > 0 ? malloc(limit) : NULL;
    size_t size = 0;

    uint32_t status = mes_call(bytes, all.length, text, limit, &size);
    printf("%u %zu %s\n", status, size, text != NULL ? text : "");
    free(text);
    free(bytes);
    free(all.at);
    return 0;
}

static int handles(size_t count)
{
    struct bytes all = standard_input();
    mes_decoder **decoders = calloc(count, sizeof *decoders);
    size_t used;
    mes_event event;

    expect(decoders != NULL, "no memory");
    for (size_t i = 0; i < count; i++)
        decoders[i] = made(MES_PLAIN, MES_LIMIT_USUAL, i % 2);
    for (size_t i = 0; i < count; i++) {
        size_t at = 0, length = i * 37 % (all.length + 1);
        while (at < length) {
            uint32_t status = mes_decoder_next(decoders[i], all.at + at, length - at, &used, &event);
            expect(status == MES_EVENT || status == MES_MORE, "a fault");
            at += used;
        }
    }
    for (size_t i = 0; i < count; i++)
        mes_decoder_free(decoders[count - 1 - i]);
    free(decoders);
    free(all.at);
    printf("%zu decoders\n", count);
    return 0;
}
/* After a failed allocation the stream stops, or an event has no text, or the fault no line. A
 * single failed allocation may be retried, and then the outcome is the same. */
static void expect_refused(const struct outcome *got, const struct outcome *whole)
{
    if (got->status == MES_NO_MEMORY) {
        expect(got->events <= whole->events && got->used <= whole->used, "more events or bytes than with ample memory");
        expect(got->line[0] == '\0' || strncmp(got->line, "fault F13 NoMemory after ", 25) == 0, "not the line of F13");
    } else {
        expect(got->status == whole->status && got->events == whole->events && got->used == whole->used, "another outcome");
        expect(!refuses_later || !is_same(got, whole), "all allocations have failed, but the outcome is the same");
        expect(got->texts.length <= whole->texts.length, "longer texts");
    }
}

static int refuse(uint32_t framing)
{
    struct bytes all = standard_input();
    struct outcome whole = outcome_of(&all, 512, 512, framing, MES_LIMIT_USUAL, 0);
    int goes_on;

    for (refuses_later = 0; refuses_later < 2; refuses_later++)
        for (refused = 0, goes_on = 1; goes_on; refused++) {
            allocations = 0;
            struct outcome got = outcome_of(&all, 512, 512, framing, MES_LIMIT_USUAL, 0);
            goes_on = allocations > refused;
            if (goes_on)
                expect_refused(&got, &whole);
            else
                expect(is_same(&got, &whole), "another outcome without a failed allocation");
            free(got.texts.at);
        }
    printf("%s\n", refused > 1 ? "each allocation has failed" : "no allocation");
    free(whole.texts.at);
    free(all.at);
    return 0;
}

static void misuse_decoder(uint32_t framing)
{
    static const char beat[] = "20\n{\"type\":\"HEARTBEAT\"}";
    static const char line[] = "fault F6 EndsInsideChunks after 0";
    mes_decoder *decoder = made(framing, MES_LIMIT_USUAL, 0);
    size_t used = 5, count = 7;
    mes_event event;

    expect(mes_decoder_next(NULL, beat, 1, &used, &event) == MES_BAD_POINTER, "a null decoder");
    expect(mes_decoder_finish(NULL, &event) == MES_BAD_POINTER, "a null decoder at the end");
    expect(mes_decoder_next(decoder, NULL, 1, &used, &event) == MES_BAD_POINTER, "null bytes");
    expect(mes_decoder_next(decoder, beat, 1, NULL, &event) == MES_BAD_POINTER, "a null pointer for the bytes used");
    expect(mes_decoder_next(decoder, beat, 1, &used, NULL) == MES_BAD_POINTER, "a null event");
    expect(mes_decoder_finish(decoder, NULL) == MES_BAD_POINTER, "a null event at the end");
    expect(mes_decoder_many(NULL, beat, 1, &used, &event, 1, &count) == MES_BAD_POINTER, "a null decoder of many");
    expect(mes_decoder_many(decoder, NULL, 1, &used, &event, 1, &count) == MES_BAD_POINTER, "null bytes of many");
    expect(mes_decoder_many(decoder, beat, 1, NULL, &event, 1, &count) == MES_BAD_POINTER, "a null pointer for the bytes that many used");
    expect(mes_decoder_many(decoder, beat, 1, &used, NULL, 1, &count) == MES_BAD_POINTER, "null events of many");
    expect(mes_decoder_many(decoder, beat, 1, &used, &event, 1, NULL) == MES_BAD_POINTER, "a null count of many");
    expect(count == 7, "a rejected call changes the count");
    expect(used == 5, "a rejected call changes the bytes used");
    expect(mes_decoder_next(decoder, NULL, 0, &used, &event) == MES_MORE && used == 0, "no bytes");
    expect(event.text == NULL && event.length == 0 && event.type == 0, "no event");
    event.type = 9;
    expect(mes_decoder_many(decoder, NULL, 0, &used, &event, 1, &count) == MES_MORE && used == 0 && count == 0, "no bytes of many");
    expect(mes_decoder_many(decoder, beat, sizeof beat - 1, &used, &event, 0, &count) == MES_EVENT && used == 0 && count == 0, "no room");
    expect(event.type == 9, "an event without room for it");
    /* After the end each call returns the same end. */
    uint32_t end = mes_decoder_finish(decoder, &event);
    expect(end == (framing == MES_PLAIN ? MES_END : 6u), "the end of no bytes");
    for (int i = 0; i < 3; i++) {
        expect(mes_decoder_next(decoder, beat, sizeof beat - 1, &used, &event) == end && used == 0, "the end again");
        expect(mes_decoder_many(decoder, beat, sizeof beat - 1, &used, &event, 1, &count) == end && used == 0 && count == 0, "the end of many");
        expect(mes_decoder_finish(decoder, &event) == end, "the end of the input again");
        expect(end == MES_END || (event.length == sizeof line - 1 && memcmp(event.text, line, event.length) == 0), "its line again");
    }
    mes_decoder_free(decoder);
}

static int misuse(void)
{
    mes_decoder *decoder = (mes_decoder *)&decoder;
    uint64_t events = 7;
    char line[4] = "abc";
    size_t size = 0;

    expect(mes_decoder_new(MES_LIMIT_USUAL, MES_PLAIN, 0, NULL) == MES_BAD_POINTER, "a null pointer for the decoder");
    expect(mes_decoder_new(0, MES_PLAIN, 0, &decoder) == MES_BAD_LIMIT && decoder == NULL, "a limit of 0");
    expect(mes_decoder_new(MES_LIMIT_MOST + 1, 9, 0, &decoder) == MES_BAD_LIMIT, "a limit that is too large");
    expect(mes_decoder_new(1, 2, 0, &decoder) == MES_BAD_FRAMING && decoder == NULL, "an invalid framing");
    mes_decoder_free(NULL);
    misuse_decoder(MES_PLAIN);
    misuse_decoder(MES_CHUNKED);
    expect(mes_check(NULL, 1, 1, 0, NULL, NULL, NULL, 0) == MES_BAD_POINTER, "null bytes of a check");
    expect(mes_check("", 0, 1, 0, NULL, NULL, NULL, 1) == MES_BAD_POINTER, "a null line");
    expect(mes_check("", 0, 0, 0, &events, NULL, line, 4) == MES_BAD_LIMIT && events == 7, "a check with a limit of 0");
    expect(mes_check("", 0, 1, 2, &events, NULL, line, 4) == MES_BAD_FRAMING && strcmp(line, "abc") == 0, "a check of no framing");
    expect(mes_check(NULL, 0, 1, 0, NULL, NULL, NULL, 0) == MES_GOOD, "a check of no bytes");
    expect(mes_check(NULL, 0, 1, 1, &events, NULL, line, 4) == 6 && events == 0 && strcmp(line, "fau") == 0, "no chunked bytes");
    expect(mes_call(NULL, 1, NULL, 0, NULL) == MES_BAD_POINTER, "null bytes of a call");
    expect(mes_call(NULL, 0, NULL, 0, &size) == 11 && size > 0, "a call of no bytes");
    expect(mes_call("", 0, NULL, 1, &size) == MES_BAD_POINTER, "a null text");
    expect(strlen(mes_version()) >= 5, "the version");
    puts("all misuse rejected");
    return 0;
}

static uint32_t number(const char *text)
{
    return (uint32_t)strtoul(text, NULL, 10);
}

int main(int count, char **args)
{
    const char *what = count > 1 ? args[1] : "";

    if (strcmp(what, "stream") == 0 && count >= 6) {
        room = number(args[5]);
        return stream(number(args[2]), number(args[3]), number(args[4]), count > 6 ? number(args[6]) : 0);
    }
    if (strcmp(what, "cuts") == 0 && count == 6) {
        room = number(args[5]);
        return cuts(number(args[2]), number(args[3]), number(args[4]));
    }
    if (strcmp(what, "check") == 0 && count == 5)
        return check(number(args[2]), number(args[3]), number(args[4]));
    if (strcmp(what, "call") == 0 && count == 3)
        return call(number(args[2]));
    if (strcmp(what, "handles") == 0 && count == 3)
        return handles(number(args[2]));
    if (strcmp(what, "refuse") == 0 && count == 4) {
        room = number(args[3]);
        return refuse(number(args[2]));
    }
    if (strcmp(what, "misuse") == 0 && count == 2)
        return misuse();
    fail("usage error");
}
