/* c_session: applies the entries of standard input to a session of libmesosev, and prints the number of
 * entries, of outstanding offers and of unacknowledged updates. Each line is `E `, an event, or `C `, a call.
 * bench/c_session compares it with `mesosev replay`. */
#include <mesosev.h>
#include <stdio.h>
#include <stdlib.h>
#include <string.h>

enum { ROOM = 65536 };

static char *read_input(size_t *length)
{
    size_t room = 0, more;
    char *bytes = NULL;

    *length = 0;
    do {
        if (room - *length < ROOM && (bytes = realloc(bytes, room = 2 * room + ROOM)) == NULL)
            exit(2);
        more = fread(bytes + *length, 1, room - *length, stdin);
        *length += more;
    } while (more > 0);
    return bytes;
}

int main(void)
{
    static char text[ROOM];
    size_t length, size;
    char *bytes = read_input(&length), *line, *end;
    mes_session *session;

    if (mes_session_new(&session) != MES_GOOD)
        return 2;
    for (line = bytes; (end = memchr(line, '\n', length - (size_t)(line - bytes))) != NULL; line = end + 1) {
        size_t used = (size_t)(end - line) - 2;
        uint32_t status = line[0] == 'E' ? mes_session_heard(session, line + 2, used, text, ROOM, &size)
                                         : mes_session_said(session, line + 2, used, text, ROOM, &size);
        if (status != MES_GOOD) {
            puts(text);
            return 1;
        }
    }
    printf("entries %llu offers %zu updates %zu\n", (unsigned long long)mes_session_entries(session),
           mes_session_offer_count(session), mes_session_owed_count(session));
    mes_session_free(session);
    free(bytes);
    return 0;
}
