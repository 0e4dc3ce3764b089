/* c_stream [without-texts | whole]: decodes a plain stream from standard input with libmesosev, and
 * prints what `mesosev check` prints. bench/c_library compares it with mesosev. It uses a decoder
 * on pieces, or with `whole` one call on all bytes. */
#include <mesosev.h>
#include <stdio.h>
#include <stdlib.h>
#include <string.h>
#include <unistd.h>

enum { PIECE = 65536, ROOM = 256 };

static char piece[PIECE];
static mes_event events[ROOM];

static int read_whole(void)
{
    char *bytes = NULL, line[MES_LINE_ROOM];
    size_t length = 0, room = 0;
    ssize_t more;

    do {
        if (room - length < PIECE && (bytes = realloc(bytes, room = 2 * room + PIECE)) == NULL)
            return 2;
        more = read(0, bytes + length, PIECE);
        length += more > 0 ? (size_t)more : 0;
    } while (more > 0);
    uint32_t status = mes_check(bytes, length, MES_LIMIT_USUAL, MES_PLAIN, NULL, NULL, line, sizeof line);
    puts(line);
    free(bytes);
    return status != MES_GOOD;
}

static int read_pieces(uint32_t flags)
{
    uint64_t total = 0, used_all = 0;
    mes_decoder *decoder;
    mes_event end;
    ssize_t length;

    if (mes_decoder_new(MES_LIMIT_USUAL, MES_PLAIN, flags, &decoder) != MES_GOOD)
        return 2;
    uint32_t status = MES_MORE;
    while (status == MES_MORE && (length = read(0, piece, sizeof piece)) > 0) {
        size_t at = 0, used, count;
        do {
            status = mes_decoder_many(decoder, piece + at, (size_t)length - at, &used, events, ROOM, &count);
            at += used;
            total += count;
        } while (status == MES_EVENT);
        used_all += at;
    }
    status = mes_decoder_finish(decoder, &end);
    if (status == MES_END)
        printf("events %llu bytes %llu\n", (unsigned long long)total, (unsigned long long)used_all);
    else
        printf("%.*s\n", (int)end.length, end.text);
    mes_decoder_free(decoder);
    return status != MES_END;
}

int main(int count, char **args)
{
    const char *mode = count > 1 ? args[1] : "";

    if (strcmp(mode, "whole") == 0)
        return read_whole();
    return read_pieces(strcmp(mode, "without-texts") == 0 ? MES_WITHOUT_TEXTS : 0);
}
