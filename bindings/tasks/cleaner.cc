// SPDX-License-Identifier: MIT
// Cleans a log in a std::string, by the call that takes a stream whole and by a sanitizer, line by
// line, and prints both.
#include "escape_stream.h"
#include <cstdio>
#include <iostream>
#include <iterator>
#include <stdexcept>
#include <string>

namespace {

const std::uint8_t *bytes_of(const std::string &text)
{
    return reinterpret_cast<const std::uint8_t *>(text.data());
}

std::string cleaned(const std::string &text)
{
    std::string out(text.size() + 64, '\0');
    size_t needed = 0;
    for (;;) {
        auto *room = reinterpret_cast<std::uint8_t *>(&out[0]);
        if (escape_stream_filter(ESCAPE_STREAM_POLICY_TEXT, 65536, bytes_of(text), text.size(), room,
                                 out.size(), &needed) != ESCAPE_STREAM_DONE)
            throw std::bad_alloc();
        bool is_whole = needed <= out.size();
        out.resize(needed);
        if (is_whole)
            return out;
    }
}

class Sanitizer {
public:
    Sanitizer()
    {
        escape_stream_sanitizer_options options = ESCAPE_STREAM_SANITIZER_OPTIONS_INIT;
        if (escape_stream_sanitizer_begin(&it, &options) != ESCAPE_STREAM_DONE)
            throw std::bad_alloc();
    }
    ~Sanitizer() { escape_stream_sanitizer_end(&it); }
    Sanitizer(const Sanitizer &) = delete;
    Sanitizer &operator=(const Sanitizer &) = delete;

    void feed(const std::string &text, std::string &out)
    {
        add(escape_stream_sanitizer_feed(&it, bytes_of(text), text.size()), out);
    }
    void finish(std::string &out) { add(escape_stream_sanitizer_finish(&it), out); }

private:
    void add(std::uint32_t status, std::string &out)
    {
        std::uint8_t room[256] = {};
        size_t count = 0;
        if (status != ESCAPE_STREAM_DONE)
            throw std::bad_alloc();
        for (size_t at = 0;
             (count = escape_stream_sanitizer_output(&it, at, room, sizeof room)) > 0; at += count)
            out.append(reinterpret_cast<const char *>(room), count);
    }

    escape_stream_sanitizer it = ESCAPE_STREAM_SANITIZER_INIT;
};

} // namespace

int main()
{
    std::string text((std::istreambuf_iterator<char>(std::cin)), std::istreambuf_iterator<char>());
    std::string lines;
    Sanitizer sanitizer;
    for (size_t at = 0; at < text.size(); at += 3)
        sanitizer.feed(text.substr(at, 3), lines);
    sanitizer.finish(lines);
    std::cout << cleaned(text) << "--\n" << lines;
}
