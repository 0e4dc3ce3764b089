/*
 * mesosev.h: a proved decoder for the event stream of the Apache Mesos v1 scheduler API, and the
 * proved session of a scheduler.
 *
 * Obligations of the caller, which no function checks:
 * - Input is `length` readable bytes that nothing writes during the call. Each output is writable,
 *   aligned and separate from all other arguments. A null pointer is valid if its length is 0.
 * - A decoder was created by mes_decoder_new with MES_GOOD, and is freed once by mes_decoder_free; a
 *   session likewise, by mes_session_new and mes_session_free. One call at a time uses it, on any
 *   thread. Different decoders and sessions are independent.
 * - The calling thread has 64 KiB of stack left.
 * - malloc, realloc and free belong to one allocator, which aligns to 16 bytes. No call is made
 *   from a signal handler, or in the child after a fork of a process with threads.
 *
 * Texts are UTF-8. Those of mes_event have no NUL at the end. They are in the decoder's memory, and
 * are valid until the next call on that decoder.
 */
#ifndef MESOSEV_H
#define MESOSEV_H

#include <stddef.h>
#include <stdint.h>

#ifdef __cplusplus
extern "C" {
#endif

/* The statuses that the functions return. 1 to 16 are the faults F1 to F16 of docs/FORMAT.md. */
enum {
    MES_GOOD = 0,         /* a whole stream or a call was read, or a decoder created */
    MES_NO_MEMORY = 13,   /* F13: an allocation failed */
    MES_MORE = 32,        /* all bytes were used; more input is needed */
    MES_EVENT = 33,       /* an event was decoded; from mes_decoder_many: `most` events */
    MES_END = 34,         /* the stream has ended */
    MES_NO_TEXT = 35,     /* an event or call whose text is too large, too deep or not allocated */
    MES_NO_ROOM = 36,     /* the text does not fit `room`, and nothing was applied */
    MES_ABSENT = 37,      /* the session has no framework, or no such offer or update */
    MES_BAD_LIMIT = 100,  /* the limit is not 1 to MES_LIMIT_MOST */
    MES_BAD_FRAMING = 101, /* the framing is neither MES_PLAIN nor MES_CHUNKED */
    MES_BAD_POINTER = 102, /* a pointer is null that must not be */
    MES_NOT_SUBSCRIBED = 201, /* S1: not subscribed, or the call names another framework */
    MES_NAMED_TWICE = 202,    /* S2: an offer or a task is named twice */
    MES_NO_SUCH_OFFER = 203,  /* S3: an offer is not outstanding */
    MES_TWO_AGENTS = 204,     /* S4: the offers are of more than one agent */
    MES_WRONG_AGENT = 205,    /* S5: a task is for another agent than the offers */
    MES_EXCEEDS = 206,        /* S6: the tasks take more than the offers have */
    MES_NOT_OWED = 207,       /* S7: no such update is unacknowledged */
    MES_REFUSED_NO_MEMORY = 208 /* S8: an allocation failed for an event */
};

/* Is true if a status is the number of a fault. */
#define MES_IS_FAULT(status) ((status) >= 1 && (status) <= 16)

/* Is true if a status is the number of a refusal, S1 to S8. */
#define MES_IS_REFUSAL(status) ((status) >= 201 && (status) <= 208)

/* Is true if a status of mes_decoder_next reports an event, with or without a text. */
#define MES_IS_EVENT(status) ((status) == MES_EVENT || (status) == MES_NO_TEXT)

/* The framings: concatenated records (RecordIO), or records in a chunked HTTP body. */
enum { MES_PLAIN = 0, MES_CHUNKED = 1 };

/* The types of events, as in scheduler.proto; MES_OTHER is a type that is stored by its name. */
enum {
    MES_OTHER = 0,
    MES_SUBSCRIBED = 1,
    MES_OFFERS = 2,
    MES_RESCIND = 3,
    MES_UPDATE = 4,
    MES_MESSAGE = 5,
    MES_FAILURE = 6,
    MES_ERROR = 7,
    MES_HEARTBEAT = 8
};

/* The default and the largest record limit, in bytes. */
#define MES_LIMIT_USUAL 4194304u
#define MES_LIMIT_MOST 67108864u

/* A size in bytes that fits each line of a fault or of counts, with its NUL. */
#define MES_LINE_ROOM 641u

/* A size in bytes that fits each line of a fault or a refusal, with its NUL. */
#define MES_REFUSAL_ROOM MES_LINE_ROOM

/* A flag of mes_decoder_new: events get no texts. */
#define MES_WITHOUT_TEXTS 1u

/* A decoder of a stream. */
typedef struct mes_decoder mes_decoder;

/* A result of a decoder. */
typedef struct mes_event {
    uint32_t type;    /* the type of the event; 0 if there is none */
    const char *text; /* the event's canonical JSON text, or the fault's line; null if none */
    size_t length;    /* the length of the text in bytes */
} mes_event;

/* Returns the version, such as `0.1.0`. */
const char *mes_version(void);

/*
 * Decodes the bytes of a whole stream. Returns MES_GOOD, or the number of the first fault.
 * MES_BAD_LIMIT, MES_BAD_FRAMING and MES_BAD_POINTER leave all outputs unchanged.
 * events: receives the number of events. used: receives the number of bytes used, up to the end of
 * the stream or the fault. Either may be null.
 * line: `room` bytes, which receive the line that `mesosev check` prints, as far as it fits, with a
 * NUL. May be null if `room` is 0.
 */
uint32_t mes_check(const void *bytes, size_t length, uint32_t limit, uint32_t framing,
                   uint64_t *events, uint64_t *used, char *line, size_t room);

/*
 * Decodes a scheduler's call. Returns MES_GOOD with its canonical text; or the number of its fault,
 * 11 to 13, with the fault's line, as that of record 1; or MES_NO_TEXT, with an empty text; or
 * MES_BAD_POINTER.
 * text: `room` bytes, which receive the text or line, as far as it fits, with a NUL. May be null if
 * `room` is 0. size: receives the length of the whole text or line, without the NUL. May be null.
 */
uint32_t mes_call(const void *bytes, size_t length, char *text, size_t room, size_t *size);

/*
 * Creates a decoder before the first byte of a stream. Returns MES_GOOD, and the caller owns
 * *decoder; or MES_NO_MEMORY, MES_BAD_LIMIT or MES_BAD_FRAMING, and *decoder is null; or
 * MES_BAD_POINTER if `decoder` is null.
 * flags: 0 or MES_WITHOUT_TEXTS. Other bits are ignored; they are reserved for later versions.
 */
uint32_t mes_decoder_new(uint32_t limit, uint32_t framing, uint32_t flags, mes_decoder **decoder);

/*
 * Decodes bytes up to the first of these: the end of a record, of the stream or of the bytes, or a
 * fault. *used receives the number of bytes used; pass the rest to the next call.
 * Returns MES_MORE if all bytes were used; or, with at least one used, MES_EVENT, MES_NO_TEXT,
 * MES_END or the number of a fault. Later calls return the same end or fault, and use no byte.
 * MES_BAD_POINTER leaves the decoder and the outputs unchanged.
 */
uint32_t mes_decoder_next(mes_decoder *decoder, const void *bytes, size_t length, size_t *used, mes_event *event);

/*
 * Decodes many events in one call, as repeated calls of mes_decoder_next do: for languages in which
 * a call of C is expensive. Stops once all bytes are used, `most` events were decoded, or the
 * stream ended.
 * events: space for `most` events; the first *count are written, in order. `most` is at least 1:
 * with 0 each call returns MES_EVENT and uses no byte, even after the end.
 * *used receives the number of bytes used; pass the rest to the next call.
 * Returns MES_EVENT if `most` events were decoded, even if all bytes were used; else MES_MORE if
 * all bytes were used; else MES_END or the number of a fault, after the events that precede it.
 * MES_BAD_POINTER leaves the decoder and the outputs unchanged.
 * mes_decoder_finish returns the line of the fault. It invalidates the texts, so use them before.
 * An event for which mes_decoder_next returns MES_NO_TEXT has a null text and the length 0, as has
 * each event of a decoder without texts.
 * The texts of a call are concatenated, and are valid until the next call on the decoder. If one of
 * them cannot be allocated, the earlier events of the same call lose theirs too.
 */
uint32_t mes_decoder_many(mes_decoder *decoder, const void *bytes, size_t length, size_t *used,
                          mes_event *events, size_t most, size_t *count);

/*
 * Ends the input. Returns MES_END, or the number of a fault: 6 if a chunked body has not ended, 10
 * if a record has not, or that of an earlier fault. Later calls on the decoder return the same.
 */
uint32_t mes_decoder_finish(mes_decoder *decoder, mes_event *event);

/* Frees a decoder and its texts. Accepts a null pointer. */
void mes_decoder_free(mes_decoder *decoder);

/*
 * The session of a framework with its master: the outstanding offers, the unacknowledged updates,
 * and which calls are allowed. Events and calls are JSON texts.
 *
 * The functions below that have the parameters `text`, `room` and `size` return:
 * - MES_GOOD, with the text that the function describes, or an empty one;
 * - the number of a fault, 11 to 13, with its line, as that of record 1;
 * - the number of a refusal, 201 to 208, with its line, as `mesosev replay` prints it;
 * - MES_NO_TEXT, if the text is too large or too deep for any record;
 * - MES_NO_ROOM, if the text with its NUL has more than `room` bytes; *size is its length;
 * - MES_ABSENT; or MES_BAD_POINTER.
 * Except for MES_GOOD the session is unchanged.
 * text: `room` bytes, which receive the text or line with a NUL; a line that does not fit is cut.
 * May be null if `room` is 0. size: receives the length of the whole text or line, without the NUL.
 * May be null.
 */
typedef struct mes_session mes_session;

/*
 * Creates a session without a history. Returns MES_GOOD, and the caller owns *session; or
 * MES_NO_MEMORY, and *session is null; or MES_BAD_POINTER if `session` is null.
 */
uint32_t mes_session_new(mes_session **session);

/* Applies an event received from the master. The text is empty. */
uint32_t mes_session_heard(mes_session *session, const void *event, size_t length, char *text, size_t room, size_t *size);

/*
 * Applies events in order, for languages in which each call of C is slow. lines: the events as JSON
 * Lines, each the text of an event. Empty lines are passed over. Ends at the first event that is not
 * applied, with the result of mes_session_heard for it. heard: receives the number of events that were
 * applied, and stay so. May be null.
 */
uint32_t mes_session_heard_lines(mes_session *session, const void *lines, size_t length, size_t *heard,
                                 char *text, size_t room, size_t *size);

/*
 * Checks a call, and applies it if it is allowed (S1 to S7). The text is the canonical text of the
 * call, to be posted to the master.
 */
uint32_t mes_session_said(mes_session *session, const void *call, size_t length, char *text, size_t room, size_t *size);

/* Like mes_session_said, but does not apply the call. */
uint32_t mes_session_check(mes_session *session, const void *call, size_t length, char *text, size_t room, size_t *size);

/*
 * Makes and applies the SUBSCRIBE of a framework, whose FrameworkInfo is the text `info`. It names the
 * framework of the session, if there is one. The text is the canonical text of the SUBSCRIBE.
 */
uint32_t mes_session_subscribe(mes_session *session, const void *info, size_t length, char *text, size_t room, size_t *size);

/*
 * Makes and applies the ACKNOWLEDGE of the unacknowledged update at an index, in the order of arrival.
 * The text is the canonical text of the ACKNOWLEDGE.
 */
uint32_t mes_session_acknowledge(mes_session *session, size_t index, char *text, size_t room, size_t *size);

/*
 * Makes and applies the ACKNOWLEDGE of each unacknowledged update, in the order of arrival, as far as
 * there is room. The text is the calls as JSON Lines: the canonical text and a line feed of each. It is
 * empty if no update is unacknowledged. An update that has no ACKNOWLEDGE is reported, as by
 * mes_session_acknowledge, only if it is the first. So call this again until the text is empty.
 */
uint32_t mes_session_acknowledge_lines(mes_session *session, char *text, size_t room, size_t *size);

/*
 * Records that the stream of events broke: no offer is outstanding until the next SUBSCRIBED. A null
 * session is left alone; the functions below that return a number return 0 for it.
 */
void mes_session_broken(mes_session *session);

/* Returns 1 if a SUBSCRIBED was received since the stream last broke, else 0. */
uint32_t mes_session_connected(mes_session *session);

/* Returns the number of entries of the history: events, calls and breaks. */
uint64_t mes_session_entries(mes_session *session);

/* The text is the identifier of the framework; one that does not fit is cut. */
uint32_t mes_session_framework(mes_session *session, char *text, size_t room, size_t *size);

/* Returns the number of outstanding offers. */
size_t mes_session_offer_count(mes_session *session);

/* The text is the canonical text of the outstanding offer at an index, in the order of arrival. */
uint32_t mes_session_offer_at(mes_session *session, size_t index, char *text, size_t room, size_t *size);

/* Like mes_session_offer_at, for the outstanding offer with the identifier `id` of `length` bytes. */
uint32_t mes_session_offer(mes_session *session, const void *id, size_t length, char *text, size_t room, size_t *size);

/* Returns the number of unacknowledged updates. */
size_t mes_session_owed_count(mes_session *session);

/*
 * The text is the `acknowledge` of the ACKNOWLEDGE for the unacknowledged update at an index, in the
 * order of arrival: a JSON object with its agent_id, its task_id and its uuid.
 */
uint32_t mes_session_owed_at(mes_session *session, size_t index, char *text, size_t room, size_t *size);

/* Frees a session. Accepts a null pointer. */
void mes_session_free(mes_session *session);

/*
 * The records of a session log of version 2, which `mesosev replay` reads: first the header, then a
 * record for each event received, each call sent, and each break of the stream, in order. These
 * functions return what those of a session return; the text is the record, with a NUL.
 */
uint32_t mes_log_header(char *text, size_t room, size_t *size);
uint32_t mes_log_event(const void *event, size_t length, char *text, size_t room, size_t *size);
uint32_t mes_log_call(const void *call, size_t length, char *text, size_t room, size_t *size);
uint32_t mes_log_broken(char *text, size_t room, size_t *size);

/*
 * Creates the session to which a log leads. Returns MES_GOOD, and the caller owns *session; or the
 * number of a fault or a refusal, with the line that `mesosev replay` prints, and *session is null;
 * or MES_BAD_POINTER, and *session is unchanged. There is no line if the session itself could not be
 * allocated. Records may have MES_LIMIT_MOST bytes: for `mesosev replay` that is --limit 67108864.
 */
uint32_t mes_log_replay(const void *bytes, size_t length, mes_session **session, char *text, size_t room, size_t *size);

/*
 * For programs that send events: the text is the record of an event in a stream; or a chunk of a body
 * with the `length` bytes as its data (RFC 9112, section 7.1). Without bytes it is the last chunk,
 * which ends the body. Both functions return what those of a session return.
 */
uint32_t mes_write_event(const void *event, size_t length, char *text, size_t room, size_t *size);
uint32_t mes_write_chunk(const void *bytes, size_t length, char *text, size_t room, size_t *size);

/*
 * Checks without a session whether tasks fit the offers on which they would be launched. All tasks
 * are counted together, as in S6.
 * offers: a JSON array of offers. tasks: a JSON array of TaskInfos.
 * Returns MES_GOOD with an empty text, if they fit; MES_EXCEEDS with the line of the refusal S6, as
 * that of record 1; the number of a fault, 11 to 13, with its line, as that of record 1 for `offers`
 * and of record 2 for `tasks`; or MES_BAD_POINTER. `text`, `room` and `size` are those of a session.
 */
uint32_t mes_fits(const void *offers, size_t offers_length, const void *tasks, size_t tasks_length,
                  char *text, size_t room, size_t *size);

#ifdef __cplusplus
}
#endif

#endif
