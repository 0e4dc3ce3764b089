/* The functions of mesosev.h over the proved ones of crates/mesosev_c: they reject null pointers,
 * and end texts with a NUL. */
#include "mesosev.h"

#include <string.h>

#define PUBLIC __attribute__((visibility("default")))

/* The types of the proved functions (crates/mesosev_c/src/exports.rt, rows.rt, handle.rt). */
struct counts {
    uint64_t events;
    uint64_t used;
    uint64_t line;
};

struct result {
    uint64_t used;
    const uint8_t *text;
    uint64_t length;
    uint32_t kind;
};

struct results {
    uint64_t used;
    uint64_t count;
    const uint8_t *texts;
};

/* A mes_event that has the offset of its text in place of the pointer to it. */
struct row {
    uint32_t kind;
    uint64_t start;
    uint64_t size;
};

_Static_assert(sizeof(struct row) == sizeof(mes_event) && sizeof(uint64_t) == sizeof(const char *), "a row has the size of an event");
_Static_assert(offsetof(struct row, start) == offsetof(mes_event, text), "start has the offset of text");
_Static_assert(offsetof(struct row, size) == offsetof(mes_event, length), "size has the offset of length");

struct handle {
    uint8_t *at;
};

uint32_t mes_c_check(const uint8_t *bytes, size_t length, uint32_t limit, uint32_t framing, struct counts *counts,
                     uint8_t *line, size_t room);
uint32_t mes_c_call(const uint8_t *bytes, size_t length, uint64_t *size, uint8_t *text, size_t room);
uint32_t mes_c_decoder_new(uint32_t limit, uint32_t framing, uint32_t texts, struct handle *slot);
uint32_t mes_c_decoder_next(struct handle *handle, const uint8_t *bytes, size_t length, struct result *result);
uint32_t mes_c_decoder_many(struct handle *handle, const uint8_t *bytes, size_t length, struct row *rows, size_t most,
                            struct results *results);
uint32_t mes_c_decoder_finish(struct handle *handle, struct result *result);
void mes_c_decoder_free(struct handle handle);

uint32_t mes_c_session_new(struct handle *slot);
uint32_t mes_c_session_heard(struct handle *handle, const uint8_t *bytes, size_t length, uint64_t *size, uint8_t *text, size_t room);
uint32_t mes_c_session_said(struct handle *handle, const uint8_t *bytes, size_t length, uint64_t *size, uint8_t *text, size_t room);
uint32_t mes_c_session_check(struct handle *handle, const uint8_t *bytes, size_t length, uint64_t *size, uint8_t *text, size_t room);
uint32_t mes_c_session_subscribe(struct handle *handle, const uint8_t *bytes, size_t length, uint64_t *size, uint8_t *text, size_t room);
uint32_t mes_c_session_acknowledge(struct handle *handle, size_t index, uint64_t *size, uint8_t *text, size_t room);
void mes_c_session_broken(struct handle *handle);
uint32_t mes_c_session_connected(struct handle *handle);
uint64_t mes_c_session_entries(struct handle *handle);
uint32_t mes_c_session_framework(struct handle *handle, uint64_t *size, uint8_t *text, size_t room);
uint64_t mes_c_session_offer_count(struct handle *handle);
uint32_t mes_c_session_offer_at(struct handle *handle, size_t index, uint64_t *size, uint8_t *text, size_t room);
uint32_t mes_c_session_offer(struct handle *handle, const uint8_t *id, size_t length, uint64_t *size, uint8_t *text, size_t room);
uint64_t mes_c_session_owed_count(struct handle *handle);
uint32_t mes_c_session_owed_at(struct handle *handle, size_t index, uint64_t *size, uint8_t *text, size_t room);
void mes_c_session_free(struct handle handle);
uint32_t mes_c_log_header(uint64_t *size, uint8_t *text, size_t room);
uint32_t mes_c_log_event(const uint8_t *bytes, size_t length, uint64_t *size, uint8_t *text, size_t room);
uint32_t mes_c_log_call(const uint8_t *bytes, size_t length, uint64_t *size, uint8_t *text, size_t room);
uint32_t mes_c_log_broken(uint64_t *size, uint8_t *text, size_t room);
uint32_t mes_c_log_replay(const uint8_t *bytes, size_t length, struct handle *slot, uint64_t *size, uint8_t *text, size_t room);
uint32_t mes_c_write_event(const uint8_t *bytes, size_t length, uint64_t *size, uint8_t *text, size_t room);
uint32_t mes_c_write_chunk(const uint8_t *bytes, size_t length, uint64_t *size, uint8_t *text, size_t room);
uint32_t mes_c_fits(const uint8_t *offers, size_t offers_length, const uint8_t *tasks, size_t tasks_length, uint64_t *size,
                    uint8_t *text, size_t room);

static int is_null(const void *bytes, size_t length)
{
    return bytes == NULL && length > 0;
}

/* Replaces a null pointer, since the proved functions require a valid one. */
static uint8_t nothing;

static const uint8_t *readable(const void *bytes)
{
    return bytes != NULL ? bytes : &nothing;
}

static void end_text(char *text, size_t room, uint64_t length)
{
    if (room > 0)
        text[length < room ? length : room - 1] = '\0';
}

PUBLIC const char *mes_version(void)
{
    return MES_VERSION;
}

PUBLIC uint32_t mes_check(const void *bytes, size_t length, uint32_t limit, uint32_t framing,
                          uint64_t *events, uint64_t *used, char *line, size_t room)
{
    struct counts counts = {0, 0, 0};
    uint8_t *to = line != NULL ? (uint8_t *)line : &nothing;

    if (is_null(bytes, length) || is_null(line, room))
        return MES_BAD_POINTER;
    uint32_t status = mes_c_check(readable(bytes), length, limit, framing, &counts, to, room > 0 ? room - 1 : 0);
    if (status == MES_BAD_LIMIT || status == MES_BAD_FRAMING)
        return status;
    if (events != NULL)
        *events = counts.events;
    if (used != NULL)
        *used = counts.used;
    end_text(line, room, counts.line);
    return status;
}

PUBLIC uint32_t mes_call(const void *bytes, size_t length, char *text, size_t room, size_t *size)
{
    uint64_t counted = 0;
    uint8_t *to = text != NULL ? (uint8_t *)text : &nothing;

    if (is_null(bytes, length) || is_null(text, room))
        return MES_BAD_POINTER;
    uint32_t status = mes_c_call(readable(bytes), length, &counted, to, room > 0 ? room - 1 : 0);
    if (size != NULL)
        *size = counted;
    end_text(text, room, counted);
    return status;
}

PUBLIC uint32_t mes_decoder_new(uint32_t limit, uint32_t framing, uint32_t flags, mes_decoder **decoder)
{
    struct handle slot = {NULL};

    if (decoder == NULL)
        return MES_BAD_POINTER;
    uint32_t status = mes_c_decoder_new(limit, framing, !(flags & MES_WITHOUT_TEXTS), &slot);
    *decoder = (mes_decoder *)slot.at;
    return status;
}

static void set_event(mes_event *event, const struct result *result)
{
    event->type = result->kind;
    event->text = result->length > 0 ? (const char *)result->text : NULL;
    event->length = result->length;
}

PUBLIC uint32_t mes_decoder_next(mes_decoder *decoder, const void *bytes, size_t length, size_t *used, mes_event *event)
{
    struct handle handle = {(uint8_t *)decoder};
    struct result result = {0, NULL, 0, 0};

    if (decoder == NULL || is_null(bytes, length) || used == NULL || event == NULL)
        return MES_BAD_POINTER;
    uint32_t status = mes_c_decoder_next(&handle, readable(bytes), length, &result);
    *used = result.used;
    set_event(event, &result);
    return status;
}

/* Converts the rows into events in place. */
static void place_texts(mes_event *events, uint64_t count, const uint8_t *texts)
{
    struct row row;

    for (uint64_t i = 0; i < count; i++) {
        memcpy(&row, &events[i], sizeof row);
        events[i].type = row.kind;
        events[i].text = row.size > 0 ? (const char *)texts + row.start : NULL;
        events[i].length = row.size;
    }
}

PUBLIC uint32_t mes_decoder_many(mes_decoder *decoder, const void *bytes, size_t length, size_t *used,
                                 mes_event *events, size_t most, size_t *count)
{
    struct handle handle = {(uint8_t *)decoder};
    struct results results = {0, 0, NULL};

    if (decoder == NULL || is_null(bytes, length) || used == NULL || events == NULL || count == NULL)
        return MES_BAD_POINTER;
    uint32_t status = mes_c_decoder_many(&handle, readable(bytes), length, (struct row *)events, most, &results);
    *used = results.used;
    *count = results.count;
    place_texts(events, results.count, results.texts);
    return status;
}

PUBLIC uint32_t mes_decoder_finish(mes_decoder *decoder, mes_event *event)
{
    struct handle handle = {(uint8_t *)decoder};
    struct result result = {0, NULL, 0, 0};

    if (decoder == NULL || event == NULL)
        return MES_BAD_POINTER;
    uint32_t status = mes_c_decoder_finish(&handle, &result);
    set_event(event, &result);
    return status;
}

PUBLIC void mes_decoder_free(mes_decoder *decoder)
{
    struct handle handle = {(uint8_t *)decoder};

    if (decoder != NULL)
        mes_c_decoder_free(handle);
}

PUBLIC uint32_t mes_session_new(mes_session **session)
{
    struct handle slot = {NULL};

    if (session == NULL)
        return MES_BAD_POINTER;
    uint32_t status = mes_c_session_new(&slot);
    *session = (mes_session *)slot.at;
    return status;
}

/* A proved function of a session that reads bytes, and one that reads an index. */
typedef uint32_t of_bytes(struct handle *, const uint8_t *, size_t, uint64_t *, uint8_t *, size_t);
typedef uint32_t of_index(struct handle *, size_t, uint64_t *, uint8_t *, size_t);

/* Returns the length of a text to the caller, and ends the text, or none, with a NUL. */
static uint32_t give_text(uint32_t status, char *text, size_t room, size_t *size, uint64_t length)
{
    if (size != NULL)
        *size = length;
    end_text(text, room, status != MES_NO_ROOM ? length : 0);
    return status;
}

static uint32_t with_bytes(of_bytes *call, mes_session *session, const void *bytes, size_t length, char *text, size_t room, size_t *size)
{
    struct handle handle = {(uint8_t *)session};
    uint8_t *to = text != NULL ? (uint8_t *)text : &nothing;
    uint64_t counted = 0;

    if (session == NULL || is_null(bytes, length) || is_null(text, room))
        return MES_BAD_POINTER;
    uint32_t status = call(&handle, readable(bytes), length, &counted, to, room > 0 ? room - 1 : 0);
    return give_text(status, text, room, size, counted);
}

static uint32_t with_index(of_index *call, mes_session *session, size_t index, char *text, size_t room, size_t *size)
{
    struct handle handle = {(uint8_t *)session};
    uint8_t *to = text != NULL ? (uint8_t *)text : &nothing;
    uint64_t counted = 0;

    if (session == NULL || is_null(text, room))
        return MES_BAD_POINTER;
    uint32_t status = call(&handle, index, &counted, to, room > 0 ? room - 1 : 0);
    return give_text(status, text, room, size, counted);
}

PUBLIC uint32_t mes_session_heard(mes_session *session, const void *event, size_t length, char *text, size_t room, size_t *size)
{
    return with_bytes(mes_c_session_heard, session, event, length, text, room, size);
}

/* Returns the length of the first line. size: receives that of its text, without CR and LF. */
static size_t first_line(const char *lines, size_t length, size_t *size)
{
    const char *feed = memchr(lines, '\n', length);
    size_t used = feed != NULL ? (size_t)(feed - lines) : length;

    *size = feed != NULL && used > 0 && lines[used - 1] == '\r' ? used - 1 : used;
    return used + (feed != NULL);
}

PUBLIC uint32_t mes_session_heard_lines(mes_session *session, const void *lines, size_t length, size_t *heard,
                                        char *text, size_t room, size_t *size)
{
    const char *at = lines;
    size_t applied = 0, event;
    uint32_t status = MES_GOOD;

    if (session == NULL || is_null(lines, length) || is_null(text, room))
        return MES_BAD_POINTER;
    give_text(status, text, room, size, 0);
    for (size_t used = 0, line; used < length && status == MES_GOOD; used += line) {
        line = first_line(at + used, length - used, &event);
        if (event > 0) {
            status = mes_session_heard(session, at + used, event, text, room, size);
            applied += status == MES_GOOD;
        }
    }
    if (heard != NULL)
        *heard = applied;
    return status;
}

PUBLIC uint32_t mes_session_said(mes_session *session, const void *call, size_t length, char *text, size_t room, size_t *size)
{
    return with_bytes(mes_c_session_said, session, call, length, text, room, size);
}

PUBLIC uint32_t mes_session_check(mes_session *session, const void *call, size_t length, char *text, size_t room, size_t *size)
{
    return with_bytes(mes_c_session_check, session, call, length, text, room, size);
}

PUBLIC uint32_t mes_session_subscribe(mes_session *session, const void *info, size_t length, char *text, size_t room, size_t *size)
{
    return with_bytes(mes_c_session_subscribe, session, info, length, text, room, size);
}

PUBLIC uint32_t mes_session_acknowledge(mes_session *session, size_t index, char *text, size_t room, size_t *size)
{
    return with_index(mes_c_session_acknowledge, session, index, text, room, size);
}

PUBLIC uint32_t mes_session_acknowledge_lines(mes_session *session, char *text, size_t room, size_t *size)
{
    size_t used = 0, call;
    uint32_t status;

    if (session == NULL || is_null(text, room))
        return MES_BAD_POINTER;
    /* A byte is kept for the NUL: the line feed takes the place of that of the call. */
    while ((status = mes_session_acknowledge(session, 0, room > 1 ? text + used : NULL, room > 1 ? room - used - 1 : 0, &call)) == MES_GOOD) {
        text[used + call] = '\n';
        used += call + 1;
    }
    if (used > 0 || status == MES_ABSENT)
        return give_text(MES_GOOD, text, room, size, used);
    return give_text(status, text, room, size, status == MES_NO_ROOM ? call + 1 : call);
}

PUBLIC void mes_session_broken(mes_session *session)
{
    struct handle handle = {(uint8_t *)session};

    if (session != NULL)
        mes_c_session_broken(&handle);
}

PUBLIC uint32_t mes_session_connected(mes_session *session)
{
    struct handle handle = {(uint8_t *)session};

    return session != NULL ? mes_c_session_connected(&handle) : 0;
}

PUBLIC uint64_t mes_session_entries(mes_session *session)
{
    struct handle handle = {(uint8_t *)session};

    return session != NULL ? mes_c_session_entries(&handle) : 0;
}

PUBLIC uint32_t mes_session_framework(mes_session *session, char *text, size_t room, size_t *size)
{
    struct handle handle = {(uint8_t *)session};
    uint8_t *to = text != NULL ? (uint8_t *)text : &nothing;
    uint64_t counted = 0;

    if (session == NULL || is_null(text, room))
        return MES_BAD_POINTER;
    uint32_t status = mes_c_session_framework(&handle, &counted, to, room > 0 ? room - 1 : 0);
    return give_text(status, text, room, size, counted);
}

PUBLIC size_t mes_session_offer_count(mes_session *session)
{
    struct handle handle = {(uint8_t *)session};

    return session != NULL ? mes_c_session_offer_count(&handle) : 0;
}

PUBLIC uint32_t mes_session_offer_at(mes_session *session, size_t index, char *text, size_t room, size_t *size)
{
    return with_index(mes_c_session_offer_at, session, index, text, room, size);
}

PUBLIC uint32_t mes_session_offer(mes_session *session, const void *id, size_t length, char *text, size_t room, size_t *size)
{
    return with_bytes(mes_c_session_offer, session, id, length, text, room, size);
}

PUBLIC size_t mes_session_owed_count(mes_session *session)
{
    struct handle handle = {(uint8_t *)session};

    return session != NULL ? mes_c_session_owed_count(&handle) : 0;
}

PUBLIC uint32_t mes_session_owed_at(mes_session *session, size_t index, char *text, size_t room, size_t *size)
{
    return with_index(mes_c_session_owed_at, session, index, text, room, size);
}

PUBLIC void mes_session_free(mes_session *session)
{
    struct handle handle = {(uint8_t *)session};

    if (session != NULL)
        mes_c_session_free(handle);
}

/* A proved function that makes a record of bytes, and one that makes a record of nothing. */
typedef uint32_t of_text(const uint8_t *, size_t, uint64_t *, uint8_t *, size_t);
typedef uint32_t of_nothing(uint64_t *, uint8_t *, size_t);

static uint32_t record_of(of_text *call, const void *bytes, size_t length, char *text, size_t room, size_t *size)
{
    uint8_t *to = text != NULL ? (uint8_t *)text : &nothing;
    uint64_t counted = 0;

    if (is_null(bytes, length) || is_null(text, room))
        return MES_BAD_POINTER;
    uint32_t status = call(readable(bytes), length, &counted, to, room > 0 ? room - 1 : 0);
    return give_text(status, text, room, size, counted);
}

static uint32_t record_alone(of_nothing *call, char *text, size_t room, size_t *size)
{
    uint8_t *to = text != NULL ? (uint8_t *)text : &nothing;
    uint64_t counted = 0;

    if (is_null(text, room))
        return MES_BAD_POINTER;
    uint32_t status = call(&counted, to, room > 0 ? room - 1 : 0);
    return give_text(status, text, room, size, counted);
}

PUBLIC uint32_t mes_log_header(char *text, size_t room, size_t *size)
{
    return record_alone(mes_c_log_header, text, room, size);
}

PUBLIC uint32_t mes_log_event(const void *event, size_t length, char *text, size_t room, size_t *size)
{
    return record_of(mes_c_log_event, event, length, text, room, size);
}

PUBLIC uint32_t mes_log_call(const void *call, size_t length, char *text, size_t room, size_t *size)
{
    return record_of(mes_c_log_call, call, length, text, room, size);
}

PUBLIC uint32_t mes_log_broken(char *text, size_t room, size_t *size)
{
    return record_alone(mes_c_log_broken, text, room, size);
}

PUBLIC uint32_t mes_log_replay(const void *bytes, size_t length, mes_session **session, char *text, size_t room, size_t *size)
{
    struct handle slot = {NULL};
    uint8_t *to = text != NULL ? (uint8_t *)text : &nothing;
    uint64_t counted = 0;

    if (session == NULL || is_null(bytes, length) || is_null(text, room))
        return MES_BAD_POINTER;
    uint32_t status = mes_c_log_replay(readable(bytes), length, &slot, &counted, to, room > 0 ? room - 1 : 0);
    *session = (mes_session *)slot.at;
    return give_text(status, text, room, size, counted);
}

PUBLIC uint32_t mes_write_event(const void *event, size_t length, char *text, size_t room, size_t *size)
{
    return record_of(mes_c_write_event, event, length, text, room, size);
}

PUBLIC uint32_t mes_write_chunk(const void *bytes, size_t length, char *text, size_t room, size_t *size)
{
    return record_of(mes_c_write_chunk, bytes, length, text, room, size);
}

PUBLIC uint32_t mes_fits(const void *offers, size_t offers_length, const void *tasks, size_t tasks_length, char *text, size_t room,
                         size_t *size)
{
    uint8_t *to = text != NULL ? (uint8_t *)text : &nothing;
    uint64_t counted = 0;

    if (is_null(offers, offers_length) || is_null(tasks, tasks_length) || is_null(text, room))
        return MES_BAD_POINTER;
    uint32_t status = mes_c_fits(readable(offers), offers_length, readable(tasks), tasks_length, &counted, to, room > 0 ? room - 1 : 0);
    return give_text(status, text, room, size, counted);
}
