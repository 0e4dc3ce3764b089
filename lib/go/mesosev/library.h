/* Calls of the functions of mesosev.h that take bytes, by the types of these functions. Go passes
 * bytes as `const char *`: for a `const void *` cgo would also examine the memory around them. */
#include <mesosev.h>
#include <stdlib.h>

typedef uint32_t (*session_function)(mes_session *, const void *, size_t, char *, size_t, size_t *);
typedef uint32_t (*index_function)(mes_session *, size_t, char *, size_t, size_t *);
typedef uint32_t (*record_function)(const void *, size_t, char *, size_t, size_t *);
typedef uint32_t (*text_function)(char *, size_t, size_t *);

static inline uint32_t call_session(session_function function, mes_session *session, const char *bytes, size_t length,
                                    char *text, size_t room, size_t *size)
{
    return function(session, bytes, length, text, room, size);
}

static inline uint32_t call_index(index_function function, mes_session *session, size_t index, char *text, size_t room,
                                  size_t *size)
{
    return function(session, index, text, room, size);
}

static inline uint32_t call_record(record_function function, const char *bytes, size_t length, char *text, size_t room,
                                   size_t *size)
{
    return function(bytes, length, text, room, size);
}

static inline uint32_t call_text(text_function function, char *text, size_t room, size_t *size)
{
    return function(text, room, size);
}

static inline uint32_t call_replay(const char *bytes, size_t length, mes_session **session, char *text, size_t room,
                                   size_t *size)
{
    return mes_log_replay(bytes, length, session, text, room, size);
}

static inline uint32_t call_fits(const char *offers, size_t offers_length, const char *tasks, size_t tasks_length,
                                 char *text, size_t room, size_t *size)
{
    return mes_fits(offers, offers_length, tasks, tasks_length, text, room, size);
}

static inline uint32_t call_many(mes_decoder *decoder, const char *bytes, size_t length, size_t *used,
                                 mes_event *events, size_t most, size_t *count)
{
    return mes_decoder_many(decoder, bytes, length, used, events, most, count);
}
