/* Prints the canonical text of each event of a plain stream on a line of its own, and then the
 * fault, if there is one:
 * cc reader.c $(pkg-config --cflags --libs mesosev) */
#include <mesosev.h>
#include <stdio.h>

/* Prints a line, which is empty for an event without a text. */
static void print_text(const mes_event *event)
{
    if (event->length > 0)
        fwrite(event->text, 1, event->length, stdout);
    putchar('\n');
}

int main(void)
{
    char piece[4096];
    size_t length, at, used;
    mes_decoder *decoder;
    mes_event event;

    if (mes_decoder_new(MES_LIMIT_USUAL, MES_PLAIN, 0, &decoder) != MES_GOOD)
        return 2;
    uint32_t status = MES_MORE;
    while (status == MES_MORE && (length = fread(piece, 1, sizeof piece, stdin)) > 0)
        for (at = 0, status = MES_EVENT; MES_IS_EVENT(status); at += used) {
            status = mes_decoder_next(decoder, piece + at, length - at, &used, &event);
            if (MES_IS_EVENT(status))
                print_text(&event);
        }
    if (status == MES_MORE && !ferror(stdin))
        status = mes_decoder_finish(decoder, &event);
    if (MES_IS_FAULT(status))
        print_text(&event);
    mes_decoder_free(decoder);
    return status == MES_END ? 0 : 1;
}
