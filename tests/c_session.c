/* Runs a script on a session of libmesosev, and prints the status and the text of each line:
 * c_session ROOM SESSIONS [bare]
 * A line of standard input is a letter, a space and an argument: E event, L events with a bar after each
 * line of JSON Lines, C call, K call that is only checked, A index of an update that is acknowledged,
 * S FrameworkInfo, O index of an offer, N identifier of an offer, U index of an update, W event to be
 * written, H data of a chunk, T offers, a space and tasks; M, B, F and I have none: all updates are
 * acknowledged, a break, the framework, and the counts. A line break in a text is printed as a bar. L
 * also prints the number of events that were applied. ROOM is the first size of the buffer, which grows if
 * a text does not fit. The script runs on SESSIONS sessions one after the other; the first one prints. Each
 * entry is also written to a log, and the session to which the log leads must have the same counts. A line
 * whose status is not MES_GOOD must leave the counts of its session as they were, but for the events that L
 * has applied. A third argument is for
 * runs in which an allocation fails: no log is written. */
#include <mesosev.h>
#include <stdio.h>
#include <stdlib.h>
#include <string.h>

static char *room;
static size_t room_size, text_size;

static void grow(size_t size)
{
    room = realloc(room, size);
    if (room == NULL)
        exit(2);
    room_size = size;
}

/* Calls a function with the bytes of an argument, again with more room if its text does not fit. */
#define WITH_ROOM(status, call)                          \
    do {                                                 \
        status = call;                                   \
        if (text_size < room_size)                       \
            break;                                       \
        grow(text_size + 1);                             \
    } while (1)

struct log {
    char *bytes;
    size_t size;
};

static void append(struct log *log)
{
    log->bytes = realloc(log->bytes, log->size + text_size + 1);
    if (log->bytes == NULL)
        exit(2);
    memcpy(log->bytes + log->size, room, text_size);
    log->size += text_size;
}

static void print(int is_first, char letter, uint32_t status)
{
    for (char *at = room; *at != '\0'; at++)
        if (*at == '\n' || *at == '\r')
            *at = '|';
    if (is_first)
        printf("%c %u %s\n", letter, (unsigned)status, text_size < room_size ? room : "");
}

/* Empties the text, for a function that was called before another one. */
static void clear_text(void)
{
    text_size = 0;
    room[0] = '\0';
}

/* Writes the text in the buffer to the log, as a call, and puts it back into the buffer. Returns the status. */
static uint32_t log_call(struct log *log)
{
    if (log == NULL)
        return MES_GOOD;
    char *text = strdup(room);
    size_t size = text_size;
    uint32_t status;

    WITH_ROOM(status, mes_log_call(text, size, room, room_size, &text_size));
    append(log);
    WITH_ROOM(status, mes_call(text, size, room, room_size, &text_size));
    free(text);
    return status;
}

static uint32_t run_event(mes_session *session, const char *argument, size_t length, struct log *log)
{
    uint32_t status;

    WITH_ROOM(status, mes_session_heard(session, argument, length, room, room_size, &text_size));
    if (status == MES_GOOD && log != NULL) {
        WITH_ROOM(status, mes_log_event(argument, length, room, room_size, &text_size));
        append(log);
        clear_text();
    }
    return status;
}

/* Replaces each bar by a line feed, and each @ by a carriage return. Returns a copy. */
static char *lines_of(const char *argument)
{
    char *lines = strdup(argument);

    if (lines == NULL)
        exit(2);
    for (char *at = lines; *at != '\0'; at++)
        *at = *at == '|' ? '\n' : *at == '@' ? '\r' : *at;
    return lines;
}

/* Writes the first lines that are not empty to the log, as entries that `entry` makes. */
static void log_lines(char *lines, size_t count, uint32_t (*entry)(const void *, size_t, char *, size_t, size_t *), struct log *log)
{
    uint32_t status = MES_GOOD;

    for (char *rest, *line = strtok_r(lines, "\r\n", &rest); line != NULL && count > 0; line = strtok_r(NULL, "\r\n", &rest), count--) {
        WITH_ROOM(status, entry(line, strlen(line), room, room_size, &text_size));
        if (status != MES_GOOD)
            exit(2);
        append(log);
    }
}

static uint32_t run_lines(mes_session *session, const char *argument, struct log *log)
{
    char *lines = lines_of(argument), line[1000];
    uint64_t before = mes_session_entries(session);
    size_t heard;
    /* A line may be cut here, since a second call would apply the events again. */
    uint32_t status = mes_session_heard_lines(session, lines, strlen(lines), &heard, line, sizeof line, &text_size);

    if (mes_session_entries(session) != before + heard || text_size >= sizeof line)
        exit(3);
    if (log != NULL)
        log_lines(lines, heard, mes_log_event, log);
    free(lines);
    if (room_size < sizeof line + 30)
        grow(sizeof line + 30);
    text_size = (size_t)snprintf(room, room_size, "%zu %s", heard, line);
    return status;
}

static uint32_t run_acknowledge_lines(mes_session *session, struct log *log)
{
    char all[4096] = "", copy[4096];
    uint32_t status;

    do {
        WITH_ROOM(status, mes_session_acknowledge_lines(session, room, room_size, &text_size));
        if (status == MES_GOOD)
            strcat(all, room);
    } while (status == MES_GOOD && text_size > 0);
    if (all[0] == '\0')
        return status;
    if (log != NULL)
        log_lines(strcpy(copy, all), sizeof copy, mes_log_call, log);
    text_size = strlen(all);
    if (room_size <= text_size)
        grow(text_size + 1);
    strcpy(room, all);
    return MES_GOOD;
}

static uint32_t run_call(mes_session *session, const char *argument, size_t length, struct log *log)
{
    uint32_t status;

    WITH_ROOM(status, mes_session_said(session, argument, length, room, room_size, &text_size));
    return status == MES_GOOD ? log_call(log) : status;
}

static uint32_t run_subscribe(mes_session *session, const char *argument, size_t length, struct log *log)
{
    uint32_t status;

    WITH_ROOM(status, mes_session_subscribe(session, argument, length, room, room_size, &text_size));
    return status == MES_GOOD ? log_call(log) : status;
}

static uint32_t run_acknowledge(mes_session *session, size_t index, struct log *log)
{
    uint32_t status;

    WITH_ROOM(status, mes_session_acknowledge(session, index, room, room_size, &text_size));
    return status == MES_GOOD ? log_call(log) : status;
}

static uint32_t run_break(mes_session *session, struct log *log)
{
    uint32_t status;

    mes_session_broken(session);
    if (log == NULL)
        return MES_GOOD;
    WITH_ROOM(status, mes_log_broken(room, room_size, &text_size));
    append(log);
    clear_text();
    return status;
}

static void print_counts(mes_session *session)
{
    if (room_size < 200)
        grow(200);
    text_size = (size_t)snprintf(room, room_size, "%u %llu %zu %zu", (unsigned)mes_session_connected(session),
                                 (unsigned long long)mes_session_entries(session), mes_session_offer_count(session), mes_session_owed_count(session));
}

static uint32_t run_fits(const char *offers, size_t length)
{
    const char *tasks = strchr(offers, ' ');
    size_t first = tasks != NULL ? (size_t)(tasks - offers) : length;
    uint32_t status;

    WITH_ROOM(status, mes_fits(offers, first, tasks, length - first, room, room_size, &text_size));
    return status;
}

/* Returns whether a session has the same counts as before. */
static int is_same(mes_session *session, const uint64_t counts[4])
{
    return mes_session_connected(session) == counts[0] && mes_session_entries(session) == counts[1] &&
           mes_session_offer_count(session) == counts[2] && mes_session_owed_count(session) == counts[3];
}

/* Runs one line. Returns the status. */
static uint32_t run_line(mes_session *session, char letter, const char *argument, struct log *log)
{
    size_t length = strlen(argument);
    uint32_t status = MES_GOOD;

    clear_text();
    switch (letter) {
    case 'E': return run_event(session, argument, length, log);
    case 'L': return run_lines(session, argument, log);
    case 'M': return run_acknowledge_lines(session, log);
    case 'C': return run_call(session, argument, length, log);
    case 'S': return run_subscribe(session, argument, length, log);
    case 'B': return run_break(session, log);
    case 'I': print_counts(session); return status;
    case 'T': return run_fits(argument, length);
    case 'A': return run_acknowledge(session, strtoul(argument, NULL, 10), log);
    case 'K': WITH_ROOM(status, mes_session_check(session, argument, length, room, room_size, &text_size)); return status;
    case 'F': WITH_ROOM(status, mes_session_framework(session, room, room_size, &text_size)); return status;
    case 'O': WITH_ROOM(status, mes_session_offer_at(session, strtoul(argument, NULL, 10), room, room_size, &text_size)); return status;
    case 'N': WITH_ROOM(status, mes_session_offer(session, argument, length, room, room_size, &text_size)); return status;
    case 'U': WITH_ROOM(status, mes_session_owed_at(session, strtoul(argument, NULL, 10), room, room_size, &text_size)); return status;
    case 'W': WITH_ROOM(status, mes_write_event(argument, length, room, room_size, &text_size)); return status;
    case 'H': WITH_ROOM(status, mes_write_chunk(argument, length, room, room_size, &text_size)); return status;
    default: exit(2);
    }
}

/* Returns whether the log leads to a session with the same counts. */
static int is_replayed(mes_session *session, const struct log *log)
{
    mes_session *again = NULL;
    uint32_t status;

    WITH_ROOM(status, (mes_session_free(again), again = NULL, mes_log_replay(log->bytes, log->size, &again, room, room_size, &text_size)));
    int same = status == MES_GOOD && mes_session_entries(again) == mes_session_entries(session) &&
               mes_session_connected(again) == mes_session_connected(session) &&
               mes_session_offer_count(again) == mes_session_offer_count(session) && mes_session_owed_count(again) == mes_session_owed_count(session);
    mes_session_free(again);
    return same;
}

static int refuses_null_pointers(mes_session *session)
{
    size_t size;
    char text[8];

    return mes_session_new(NULL) == MES_BAD_POINTER && mes_session_heard(NULL, "", 0, text, 8, &size) == MES_BAD_POINTER &&
           mes_session_said(session, NULL, 1, text, 8, &size) == MES_BAD_POINTER && mes_session_check(session, "", 0, NULL, 8, &size) == MES_BAD_POINTER &&
           mes_session_offer_at(NULL, 0, text, 8, &size) == MES_BAD_POINTER && mes_session_framework(NULL, text, 8, &size) == MES_BAD_POINTER &&
           mes_session_acknowledge(NULL, 0, text, 8, &size) == MES_BAD_POINTER &&
           mes_session_acknowledge_lines(NULL, text, 8, &size) == MES_BAD_POINTER &&
           mes_session_acknowledge_lines(session, NULL, 8, &size) == MES_BAD_POINTER &&
           mes_session_heard_lines(NULL, "", 0, &size, text, 8, &size) == MES_BAD_POINTER &&
           mes_session_heard_lines(session, NULL, 1, NULL, text, 8, &size) == MES_BAD_POINTER &&
           mes_session_heard_lines(session, "\n", 1, NULL, NULL, 8, NULL) == MES_BAD_POINTER &&
           mes_session_heard_lines(session, NULL, 0, NULL, NULL, 0, NULL) == MES_GOOD &&
           mes_log_replay("", 0, NULL, text, 8, &size) == MES_BAD_POINTER && mes_log_event(NULL, 1, text, 8, &size) == MES_BAD_POINTER &&
           mes_log_header(NULL, 8, &size) == MES_BAD_POINTER && mes_session_entries(NULL) == 0 && mes_session_offer_count(NULL) == 0 &&
           mes_session_owed_count(NULL) == 0 && mes_session_connected(NULL) == 0 &&
           mes_write_event(NULL, 1, text, 8, &size) == MES_BAD_POINTER && mes_write_chunk("", 0, NULL, 1, &size) == MES_BAD_POINTER &&
           mes_fits(NULL, 1, "[]", 2, text, 8, &size) == MES_BAD_POINTER && mes_fits("[]", 2, NULL, 1, text, 8, &size) == MES_BAD_POINTER &&
           mes_fits("[]", 2, "[]", 2, NULL, 8, &size) == MES_BAD_POINTER && mes_write_chunk("", 0, NULL, 0, NULL) == MES_NO_ROOM;
}

/* Runs the script on one session. Returns whether all is as promised, or ends the program without memory. */
static int run_script(const char *script, size_t length, int is_first, int is_bare)
{
    struct log log = {NULL, 0};
    mes_session *session;
    uint32_t status;
    int good = 1;

    char *copy = malloc(length + 1);
    if (copy == NULL || mes_session_new(&session) != MES_GOOD)
        exit(2);
    memcpy(copy, script, length + 1);
    if (!is_bare) {
        WITH_ROOM(status, mes_log_header(room, room_size, &text_size));
        append(&log);
    }
    for (char *line = strtok(copy, "\n"); line != NULL; line = strtok(NULL, "\n")) {
        const uint64_t counts[4] = {mes_session_connected(session), mes_session_entries(session),
                                    mes_session_offer_count(session), mes_session_owed_count(session)};
        status = run_line(session, line[0], line[1] == ' ' ? line + 2 : "", is_bare ? NULL : &log);
        good = good && (status == MES_GOOD || line[0] == 'L' || is_same(session, counts));
        print(is_first, line[0], status);
    }
    good = good && (is_bare || (is_replayed(session, &log) && refuses_null_pointers(session)));
    free(copy);
    free(log.bytes);
    mes_session_free(session);
    return good;
}

int main(int count, char **words)
{
    static char script[1 << 20];
    size_t length = fread(script, 1, sizeof script - 1, stdin);
    int sessions = count > 2 ? atoi(words[2]) : 1, good = 1;

    grow(count > 1 ? (size_t)atoi(words[1]) : 1000);
    for (int number = 0; number < sessions; number++)
        good = run_script(script, length, number == 0, count > 3) && good;
    mes_session_free(NULL);
    free(room);
    return good ? 0 : 1;
}
