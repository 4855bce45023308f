/* SPDX-License-Identifier: MIT */
/*
 * Checks the sanitizer of escape_stream.h.
 *
 *     sanitizer
 *
 * A string that nobody ends loses one line; streams in chunks of each size give the same text and
 * the same account, whose sums add up to the length, in UTF-8 for a stream in UTF-16, whose
 * characters are those of the Unicode Standard; by the policy TEXT the text is plain; each
 * request for memory is refused in turn; each option that is none has its status; sanitizers that
 * are not begun, ended twice or begun again. Prints a line for each difference; the status is 1
 * where there is one. Link it with -Wl,--wrap=malloc,--wrap=realloc,--wrap=free, by which it
 * counts, refuses, and sees that all was given back.
 */
#define PROGRAM "sanitizer"
#define IN_CHUNKS escape_stream_sanitizer
#define OUTPUT escape_stream_sanitizer_output
#include "output.h"
#include "streams.h"

static const struct escape_stream_sanitizer_options INIT = ESCAPE_STREAM_SANITIZER_OPTIONS_INIT;

/* The text for a stream, and its account. */
struct written {
    uint8_t text[MOST];
    size_t count;
    struct escape_stream_account account;
};

/* The stream in chunks of this size. Returns the first status that is not DONE, or DONE. */
static uint32_t feed_all(
    const struct escape_stream_sanitizer_options *options, const uint8_t *bytes, size_t length,
    size_t size, size_t capacity, struct written *written) {
    struct escape_stream_sanitizer it = {0};
    uint32_t status = escape_stream_sanitizer_begin(&it, options);
    memset(written, 0, sizeof *written);
    for (size_t at = 0; status == ESCAPE_STREAM_DONE && at < length; at += size) {
        status =
            escape_stream_sanitizer_feed(&it, bytes + at, size < length - at ? size : length - at);
        written->count = append(&it, capacity, written->text, written->count);
    }
    if (status == ESCAPE_STREAM_DONE) {
        status = escape_stream_sanitizer_finish(&it);
        written->count = append(&it, capacity, written->text, written->count);
    }
    if (status == ESCAPE_STREAM_DONE)
        status = escape_stream_sanitizer_account(&it, &written->account);
    else
        wants(
            !it.is_begun && blocks == 0, "blocks are kept after memory was refused", "",
            (size_t)blocks);
    escape_stream_sanitizer_end(&it);
    wants(blocks == 0, "blocks are kept after the end", "", (size_t)blocks);
    return status;
}

static uint64_t sum(const struct escape_stream_account *it) {
    return it->passed + it->respelled + it->shown + it->replaced + it->left_out + it->swallowed +
           it->overwritten;
}

/* Whether the text holds tabs, line ends, 20 to 7E and well-formed UTF-8 from U+00A0 on, and
 * nothing else. */
static bool is_plain(const uint8_t *text, size_t count) {
    static const uint32_t least[] = {0, 0, 0x80, 0x800, 0x10000};
    for (size_t i = 0; i < count;) {
        uint8_t b = text[i];
        size_t size = b < 0x80 ? 1 : b >= 0xf0 ? 4 : b >= 0xe0 ? 3 : 2;
        uint32_t c = size == 1 ? b : b & (0x7fU >> size);
        if (b >= 0xf8 || (b >= 0x80 && b < 0xc2) || count - i < size)
            return false;
        for (size_t k = 1; k < size; k++) {
            if ((text[i + k] & 0xc0) != 0x80)
                return false;
            c = c << 6 | (text[i + k] & 0x3f);
        }
        if (c < least[size] || c > 0x10ffff || (c >= 0xd800 && c < 0xe000))
            return false;
        if (c != 9 && c != 10 && c != 13 && (c < 0x20 || (c >= 0x7f && c < 0xa0)))
            return false;
        i += size;
    }
    return true;
}

static void check_stream(
    const struct escape_stream_sanitizer_options *options, const uint8_t *bytes, size_t length) {
    static struct written whole, parts;
    wants(
        feed_all(options, bytes, length, length ? length : 1, 40, &whole) == ESCAPE_STREAM_DONE,
        "another status", "", length);
    wants(
        whole.account.length == length && sum(&whole.account) == length,
        "the sums are not the length", "", (size_t)sum(&whole.account));
    if (options->policy == ESCAPE_STREAM_POLICY_TEXT && options->rows == 0)
        wants(is_plain(whole.text, whole.count), "the text is not plain", "", whole.count);
    for (size_t size = 1; size <= 40; size++) {
        wants(
            feed_all(options, bytes, length, size, 1 + size % 40, &parts) == ESCAPE_STREAM_DONE,
            "another status", "", size);
        wants(
            parts.count == whole.count && memcmp(parts.text, whole.text, whole.count) == 0,
            "another text", "", size);
        wants(
            memcmp(&parts.account, &whole.account, sizeof whole.account) == 0, "another account",
            "", size);
    }
    for (unsigned long at = 1; at < 1000; at++) {
        uint32_t status;
        requests = 0;
        refused = at;
        status = feed_all(options, bytes, length, 7, 40, &parts);
        refused = 0;
        wants(
            status == ESCAPE_STREAM_DONE || status == ESCAPE_STREAM_NO_MEMORY,
            "another status where memory is refused", "", at);
        wants(
            parts.count <= whole.count && memcmp(parts.text, whole.text, parts.count) == 0,
            "no beginning of the text", "", at);
        if (requests < at)
            return;
    }
}

static void check_streams(const struct escape_stream_sanitizer_options *options) {
    for (size_t i = 0; i < sizeof STREAMS / sizeof *STREAMS; i++)
        check_stream(options, (const uint8_t *)STREAMS[i], strlen(STREAMS[i]));
}

/* Policies by lines and whole, with what does not pass shown or not, and with rows. */
static void check_options(void) {
    for (uint32_t policy = 0; policy < 4; policy++)
        for (uint32_t framing = 0; framing < 4; framing++)
            for (uint32_t show = 0; show < 4; show++) {
                struct escape_stream_sanitizer_options options = INIT;
                options.policy = policy;
                options.framing = framing;
                options.show = show;
                options.limit = LIMIT;
                check_streams(&options);
                options.rows = 8;
                options.columns = 16;
                check_stream(&options, (const uint8_t *)STREAMS[4], strlen(STREAMS[4]));
            }
}

/* A stream, and what is written of it by these options. */
static void gives(
    const char *what, struct escape_stream_sanitizer_options options, const char *stream,
    const char *wanted) {
    static struct written it;
    wants(
        feed_all(&options, (const uint8_t *)stream, strlen(stream), 3, 16, &it) ==
            ESCAPE_STREAM_DONE,
        "another status", what, 0);
    wants(
        it.count == strlen(wanted) && memcmp(it.text, wanted, it.count) == 0, "another text", what,
        it.count);
}

#define WITH(...)                                                                                  \
    ((struct escape_stream_sanitizer_options){.size = INIT.size, .limit = LIMIT, __VA_ARGS__})

/* The effect of each option, by the words of its comment. */
static void check_texts(void) {
    const char *unended = "one\n\x1b]0;two\nthree\n";
    gives("a string that nobody ends, by lines", WITH(.policy = 0), unended, "one\n\nthree\n");
    gives(
        "the same in a stream that is one",
        WITH(.policy = 0, .framing = ESCAPE_STREAM_FRAMING_WHOLE), unended, "one\n");
    gives(
        "a rendition that goes on", WITH(.policy = 1), "\x1b[1mb\n\nc\x1b[0m\nd",
        "\x1b[1mb\x1b[0m\n\n\x1b[1mc\x1b[0m\nd");
    gives(
        "one that does not", WITH(.policy = 1, .framing = ESCAPE_STREAM_FRAMING_LINES_RESET),
        "\x1b[1mb\nc", "\x1b[1mb\x1b[0m\nc");
    gives(
        "a group more", WITH(.policy = 0, .allowed = ESCAPE_STREAM_GROUP_TITLES), "\x1b]2;t\x1b\\x",
        "\x1b]2;t\x1b\\x");
    gives("a group less", WITH(.policy = 1, .denied = ESCAPE_STREAM_GROUP_SGR), "\x1b[1mb", "b");
    gives("denied counts", WITH(.policy = 0, .allowed = 4, .denied = 4), "\x1b[1mb", "b");
    gives(
        "links to https", WITH(.policy = 1, .links = ESCAPE_STREAM_LINKS_HTTPS),
        "\x1b]8;;http://a\x1b\\x\x1b]8;;\x1b\\", "x\x1b]8;;\x1b\\");
    gives("characters that reorder", WITH(.policy = 0), "a\xe2\x80\xae" "b", "a<U+202E>b");
    gives(
        "the same kept", WITH(.policy = 0, .characters = ESCAPE_STREAM_CHARACTERS_KEEP),
        "a\xe2\x80\xae"
        "b",
        "a\xe2\x80\xae"
        "b");
    gives(
        "the same dropped", WITH(.policy = 0, .characters = ESCAPE_STREAM_CHARACTERS_DROP),
        "a\xe2\x80\xae"
        "b",
        "ab");
    gives("a carriage return", WITH(.policy = 0), "a\rb\r\n", "a^Mb\r\n");
    gives(
        "the same kept", WITH(.policy = 0, .returns = ESCAPE_STREAM_RETURNS_KEEP), "a\rb\r\n",
        "a\rb\r\n");
    gives("a byte that is no character", WITH(.policy = 0), "a\x9b" "1mb", "a\xef\xbf\xbd" "1mb");
    gives(
        "the same as a control", WITH(.policy = 0, .encoding = ESCAPE_STREAM_ENCODING_UTF_8_C1),
        "a\x9b"
        "1mb",
        "ab");
    gives(
        "windows-1252", WITH(.policy = 0, .encoding = ESCAPE_STREAM_ENCODING_WINDOWS_1252), "\x80",
        "\xe2\x82\xac");
    gives(
        "a title that is shown", WITH(.policy = 0, .show = ESCAPE_STREAM_SHOW_PLAIN),
        "a\x1b]0;t\x07", "a^[]0;t^G");
    gives("rows that are written again", WITH(.policy = 0, .rows = 8), "10%\r20%\n", "20%\n");
    gives(
        "a row that is scrolled off", WITH(.policy = 0, .rows = 1), "a\nb\x1b[Ac\n", "a\nbc\n");
    gives(
        "a line of two rows", WITH(.policy = 0, .rows = 8, .columns = 4), "abcdef\x1b[Gx\n",
        "abcdxf\n");
    gives(
        "the same on a screen of as many columns as is usual", WITH(.policy = 0, .rows = 8),
        "abcdef\x1b[Gx\n", "xbcdef\n");
    gives("columns without rows", WITH(.policy = 0, .columns = 4), "abcdef\n", "abcdef\n");
    gives(
        "the alternate screen", WITH(.policy = 1, .rows = 8),
        "a\n\x1b[?1049h\x1b[Hx\n\x1b[?1049lb\n", "a\nb\n");
}

/* Streams in UTF-16, and their text by the policy COLOR. */
#define MARK "\xef\xbb\xbf"
#define REPLACED "\xef\xbf\xbd"
#define TEXT "a\xe2\x82\xac\xf0\x9f\x98\x80\n"
#define LITTLE "a\0\xac\x20\x3d\xd8\0\xde\n"
#define BIG "\0a\x20\xac\xd8\x3d\xde\0\0\n"
#define UNITS(number, bytes, text)                                                                 \
    { ESCAPE_STREAM_ENCODING_##number, (const uint8_t *)(bytes), sizeof(bytes) - 1, text }

static const struct {
    uint32_t encoding;
    const uint8_t *bytes;
    size_t length;
    const char *text;
} IN_UTF_16[] = {
    UNITS(UTF_16, LITTLE "\0", TEXT),
    UNITS(UTF_16, "\xff\xfe" LITTLE "\0", TEXT),
    UNITS(UTF_16, "\xfe\xff" BIG, TEXT),
    UNITS(UTF_16LE, LITTLE "\0", TEXT),
    UNITS(UTF_16BE, BIG, TEXT),
    UNITS(UTF_16LE, "\xff\xfe" LITTLE "\0", MARK TEXT),
    UNITS(UTF_16BE, "\xfe\xff" BIG, MARK TEXT),
    UNITS(UTF_16, "a\0\0\xd8", "a" REPLACED),
    UNITS(UTF_16, "\0\xdcz\0", REPLACED "z"),
    UNITS(UTF_16, "\0\xd8z\0", REPLACED "z"),
    UNITS(UTF_16, "\0\xd8=\xd8\0\xde", REPLACED "\xf0\x9f\x98\x80"),
    UNITS(UTF_16, "a\0x", "a" REPLACED),
    UNITS(UTF_16, "a\0\x3d\xd8", "a" REPLACED),
    UNITS(UTF_16, "a\0\x3d\xd8\0", "a" REPLACED),
    UNITS(UTF_16, "", ""),
    UNITS(UTF_16, "\xff", REPLACED),
    UNITS(UTF_16, "\xff\xfe", ""),
    UNITS(UTF_16, "\xff\xfe\0", REPLACED),
    UNITS(UTF_16, "\x1b\0[\0001\0m\0b\0\x3d\xd8", "\x1b[1mb" REPLACED "\x1b[0m"),
    UNITS(UTF_16BE, "\0\x1b\0]\0000\0;\0t\0\x07\0x", "x"),
};

static void check_units(void) {
    static struct written it;
    for (size_t i = 0; i < sizeof IN_UTF_16 / sizeof *IN_UTF_16; i++) {
        struct escape_stream_sanitizer_options options = INIT;
        size_t length = IN_UTF_16[i].length;
        const char *text = IN_UTF_16[i].text;
        uint32_t status = ESCAPE_STREAM_NO_MEMORY;
        options.encoding = IN_UTF_16[i].encoding;
        for (size_t size = 1; size <= 1 + length; size++) {
            wants(
                feed_all(&options, IN_UTF_16[i].bytes, length, size, 16, &it) ==
                        ESCAPE_STREAM_DONE &&
                    it.count == strlen(text) && memcmp(it.text, text, it.count) == 0,
                "another text in UTF-16, in chunks of", text, size);
            wants(
                sum(&it.account) == it.account.length, "the sums in UTF-16 are not the length",
                text, (size_t)it.account.length);
        }
        for (unsigned long at = 1; status != ESCAPE_STREAM_DONE && at < 1000; at++) {
            requests = 0;
            refused = at;
            status = feed_all(&options, IN_UTF_16[i].bytes, length, 3, 16, &it);
            refused = 0;
            wants(
                it.count <= strlen(text) && memcmp(it.text, text, it.count) == 0,
                "no beginning of the text in UTF-16", text, at);
        }
    }
}

static void refuses(struct escape_stream_sanitizer_options options, uint32_t wanted) {
    struct escape_stream_sanitizer it = {0};
    wants(
        escape_stream_sanitizer_begin(&it, &options) == wanted,
        "another status of options that are none", "", wanted);
    wants(!it.is_begun && blocks == 0, "it has begun", "", wanted);
}

static void check_faults(void) {
    struct escape_stream_sanitizer_options size = INIT;
    size.size = 8;
    refuses(size, ESCAPE_STREAM_UNKNOWN_SIZE);
    refuses(WITH(.policy = 4), ESCAPE_STREAM_UNKNOWN_POLICY);
    refuses(WITH(.allowed = 0x10000), ESCAPE_STREAM_UNKNOWN_GROUP);
    refuses(WITH(.denied = 0x10000), ESCAPE_STREAM_UNKNOWN_GROUP);
    refuses(WITH(.links = 8), ESCAPE_STREAM_UNKNOWN_LINKS);
    refuses(WITH(.framing = 4), ESCAPE_STREAM_UNKNOWN_FRAMING);
    refuses(WITH(.characters = 5), ESCAPE_STREAM_UNKNOWN_CHARACTERS);
    refuses(WITH(.returns = 4), ESCAPE_STREAM_UNKNOWN_RETURNS);
    refuses(WITH(.encoding = 16), ESCAPE_STREAM_UNKNOWN_ENCODING);
    refuses(WITH(.show = 4), ESCAPE_STREAM_UNKNOWN_SHOW);
    refuses(WITH(.rows = 4097), ESCAPE_STREAM_TOO_MANY_ROWS);
    refuses(WITH(.columns = 16385), ESCAPE_STREAM_TOO_MANY_COLUMNS);
    refuses(WITH(.reserved = 1), ESCAPE_STREAM_UNKNOWN_SIZE);
}

static void check_states(void) {
    struct escape_stream_sanitizer it = {0};
    struct escape_stream_account account;
    const uint8_t bytes[] = {'a', 0x1b, ']'};
    uint8_t out[8] = {0};
    memset(&account, JUNK, sizeof account);
    escape_stream_sanitizer_end(&it);
    wants(
        escape_stream_sanitizer_feed(&it, bytes, 3) == ESCAPE_STREAM_NOT_BEGUN,
        "fed before it began", "", 0);
    wants(
        escape_stream_sanitizer_finish(&it) == ESCAPE_STREAM_NOT_BEGUN, "ended before it began", "",
        0);
    wants(
        escape_stream_sanitizer_account(&it, &account) == ESCAPE_STREAM_NOT_BEGUN &&
            is_junk(&account, sizeof account),
        "told before it began", "", 0);
    wants(escape_stream_sanitizer_output(&it, 0, out, 8) == 0, "a text before it began", "", 0);
    for (int i = 0; i < 3; i++) {
        wants(
            escape_stream_sanitizer_begin(&it, &INIT) == ESCAPE_STREAM_DONE, "begun again", "", 0);
        wants(
            escape_stream_sanitizer_output(&it, 0, out, 8) == 0, "a text before the first chunk",
            "", 0);
        wants(escape_stream_sanitizer_feed(&it, bytes, 3) == ESCAPE_STREAM_DONE, "fed", "", 0);
        wants(
            escape_stream_sanitizer_output(&it, 0, out, 8) == 1 && out[0] == 'a', "its text", "",
            0);
    }
    wants(escape_stream_sanitizer_finish(&it) == ESCAPE_STREAM_DONE, "ended", "", 0);
    wants(
        escape_stream_sanitizer_account(&it, &account) == ESCAPE_STREAM_DONE &&
            account.passed == 1 && account.swallowed == 2 && account.length == 3,
        "its account", "", (size_t)account.length);
    wants(
        escape_stream_sanitizer_feed(&it, bytes, 3) == ESCAPE_STREAM_NOT_BEGUN && !it.is_begun,
        "fed after its end", "", 0);
    wants(blocks == 0, "blocks are kept after that", "", (size_t)blocks);
    escape_stream_sanitizer_end(&it);
}

/* A sanitizer that is given to the calls of a filter is given back, and the other way round. */
static void check_kinds(void) {
    struct escape_stream_sanitizer it = {0};
    struct escape_stream_filter_state filter = {0};
    const uint8_t bytes[] = {'a'};
    struct escape_stream_sanitizer_options none = INIT;
    struct escape_stream_account account;
    none.account = 0;
    wants(escape_stream_sanitizer_begin(&it, &none) == ESCAPE_STREAM_DONE, "begun", "", 0);
    wants(escape_stream_sanitizer_feed(&it, bytes, 1) == ESCAPE_STREAM_DONE, "fed", "", 0);
    wants(
        escape_stream_sanitizer_account(&it, &account) == ESCAPE_STREAM_DONE && sum(&account) == 0,
        "an account that nobody asked for", "", 0);
    wants(
        escape_stream_filter_feed((struct escape_stream_filter_state *)&it, bytes, 1) ==
                ESCAPE_STREAM_NOT_BEGUN &&
            !it.is_begun,
        "fed as a filter", "", 0);
    wants(escape_stream_filter_begin(&filter, 0, LIMIT) == ESCAPE_STREAM_DONE, "a filter", "", 0);
    wants(
        escape_stream_sanitizer_account((struct escape_stream_sanitizer *)&filter, &account) ==
            ESCAPE_STREAM_NOT_BEGUN,
        "the account of a filter", "", 0);
    wants(blocks == 0, "blocks are kept of another kind", "", (size_t)blocks);
}

int main(void) {
    check_states();
    check_kinds();
    check_faults();
    check_texts();
    check_units();
    check_options();
    printf("%lu differences\n", differences);
    return differences != 0;
}
