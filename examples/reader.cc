// Like reader.c: c++ reader.cc $(pkg-config --cflags --libs mesosev)
#include <mesosev.h>

#include <cstdio>
#include <iostream>
#include <memory>
#include <string_view>
#include <vector>

// Prints a line, which is empty for an event without a text.
static void print_text(const mes_event &event) { std::cout << std::string_view(event.text, event.length) << '\n'; }

int main() {
    mes_decoder *made = nullptr;
    if (mes_decoder_new(MES_LIMIT_USUAL, MES_PLAIN, 0, &made) != MES_GOOD) return 2;
    std::unique_ptr<mes_decoder, decltype(&mes_decoder_free)> decoder(made, mes_decoder_free);
    std::vector<char> piece(4096);
    mes_event event;
    uint32_t status = MES_MORE;
    while (status == MES_MORE && (std::cin.read(piece.data(), piece.size()), std::cin.gcount() > 0)) {
        std::string_view rest(piece.data(), std::cin.gcount());
        do {
            size_t used = 0;
            status = mes_decoder_next(decoder.get(), rest.data(), rest.size(), &used, &event);
            rest.remove_prefix(used);
            if (MES_IS_EVENT(status)) print_text(event);
        } while (MES_IS_EVENT(status));
    }
    // std::cin does not distinguish a failed read from the end; its C stream does.
    if (status == MES_MORE && !std::ferror(stdin)) status = mes_decoder_finish(decoder.get(), &event);
    if (MES_IS_FAULT(status)) print_text(event);
    return status == MES_END ? 0 : 1;
}
