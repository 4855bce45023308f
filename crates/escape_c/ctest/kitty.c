/* SPDX-License-Identifier: MIT */
/*
 * Reads commands of kitty's graphics protocol by escape_stream.h, compares their fields with what
 * is wanted, and writes them again.
 *
 *     kitty
 *
 * Each command in every room, with guards beside it; each request for memory is refused in turn.
 * Prints a line for each difference; the status is 1 where there is one. Link it with
 * -Wl,--wrap=malloc,--wrap=realloc,--wrap=free, by which it counts, refuses, and sees that all was
 * given back.
 */
#define PROGRAM "kitty"
#define INTRODUCER "\x1b_"
#include "writes.h"

#define KIND(name) [ESCAPE_STREAM_KITTY_##name] = #name
static const char *const KINDS[] = {
    KIND(NONE),
    KIND(TRANSMIT_DATA),
    KIND(TRANSMIT_DATA_AND_DISPLAY),
    KIND(DISPLAY),
    KIND(QUERY),
    KIND(TRANSMIT_FRAME),
    KIND(COMPOSE_FRAME),
    KIND(DELETE_ALL),
    KIND(DELETE_BY_IMAGE_ID),
    KIND(DELETE_BY_IMAGE_NUMBER),
    KIND(DELETE_AT_CURSOR_POSITION),
    KIND(DELETE_ANIMATION_FRAMES),
    KIND(DELETE_AT),
    KIND(DELETE_AT_Z),
    KIND(DELETE_COLUMN),
    KIND(DELETE_ROW),
    KIND(DELETE_Z),
    KIND(DELETE_BY_IMAGE_ID_RANGE),
};

static const char *kind_name(uint32_t kind) { return KINDS[kind]; }

static uint32_t read_text(
    const uint8_t *text, size_t length, struct value *value, struct escape_stream_field *fields,
    size_t field_room, uint8_t *out, size_t capacity) {
    struct escape_stream_image image;
    uint32_t status;
    memset(&image, JUNK, sizeof image);
    status = escape_stream_read_kitty(text, length, &image, fields, field_room, out, capacity);
    if (status == ESCAPE_STREAM_DONE)
        *value = (struct value){image.kind, image.field_count, image.text_length};
    else
        memcpy(value, &image, sizeof image);
    return status;
}

static uint32_t write_text(
    const struct value *value, const struct escape_stream_field *fields, const uint8_t *texts,
    uint8_t *out, size_t capacity, size_t *needed) {
    return escape_stream_write_kitty(
        value->kind, fields, value->field_count, texts, value->text_length, out, capacity, needed);
}

static const struct command COMMANDS[] = {
    {"", "NONE"},
    {"x", "NONE"},
    {"Ga=z", "NONE"},
    {"Gf=23;AAAA", "NONE"},
    {"Gq=3", "NONE"},
    {"G", "NONE"},
    {"Ga=t", "TRANSMIT_DATA CONTENT= MEDIUM=0 COMPRESSION=0 MORE_DATA_FOLLOWS=0 VERBOSITY=0"},
    {"Gf=24,s=10,v=20;AAAA", "TRANSMIT_DATA CONTENT=AAAA MEDIUM=0 FORMAT=24 PIXEL_WIDTH=10 "
                             "PIXEL_HEIGHT=20 COMPRESSION=0 MORE_DATA_FOLLOWS=0 VERBOSITY=0"},
    {"Gf=100,i=4294967295,I=7,o=z,m=1,q=2;!",
     "TRANSMIT_DATA CONTENT=! MEDIUM=0 FORMAT=100 IMAGE_ID=4294967295 IMAGE_NUMBER=7 COMPRESSION=1 "
     "MORE_DATA_FOLLOWS=1 VERBOSITY=2"},
    {"Gt=f,S=3,O=4;L3RtcA==", "TRANSMIT_DATA CONTENT=/tmp MEDIUM=2 DATA_SIZE=3 DATA_OFFSET=4 "
                              "COMPRESSION=0 MORE_DATA_FOLLOWS=0 VERBOSITY=0"},
    {"Gt=t,f=32;L3RtcA==",
     "TRANSMIT_DATA CONTENT=/tmp MEDIUM=3 FORMAT=32 COMPRESSION=0 MORE_DATA_FOLLOWS=0 VERBOSITY=0"},
    {"Gt=s;YQ==", "TRANSMIT_DATA CONTENT=a MEDIUM=4 COMPRESSION=0 MORE_DATA_FOLLOWS=0 VERBOSITY=0"},
    {"Ga=q,i=31,s=1,v=1,f=24;AAAA", "QUERY CONTENT=AAAA MEDIUM=0 FORMAT=24 PIXEL_WIDTH=1 "
                                    "PIXEL_HEIGHT=1 IMAGE_ID=31 COMPRESSION=0 MORE_DATA_FOLLOWS=0"},
    {"Ga=T,f=24,s=1,v=2,x=3,y=4,w=5,h=6,X=7,Y=8,c=9,r=10,p=11,C=1,z=-12,U=1,q=1;AAAA",
     "TRANSMIT_DATA_AND_DISPLAY CONTENT=AAAA MEDIUM=0 FORMAT=24 PIXEL_WIDTH=1 PIXEL_HEIGHT=2 "
     "COMPRESSION=0 MORE_DATA_FOLLOWS=0 "
     "X=3 Y=4 WIDTH=5 HEIGHT=6 X_OFFSET=7 Y_OFFSET=8 COLUMNS=9 ROWS=10 PLACEMENT_ID=11 "
     "DO_NOT_MOVE_CURSOR=1 Z_INDEX=-12 "
     "UNICODE_PLACEHOLDER=1 VERBOSITY=1"},
    {"Ga=p,i=1,p=2",
     "DISPLAY IMAGE_ID=1 PLACEMENT_ID=2 DO_NOT_MOVE_CURSOR=0 UNICODE_PLACEHOLDER=0 VERBOSITY=0"},
    {"Ga=p,I=3,z=0",
     "DISPLAY IMAGE_NUMBER=3 DO_NOT_MOVE_CURSOR=0 Z_INDEX=0 UNICODE_PLACEHOLDER=0 VERBOSITY=0"},
    {"Ga=f,x=1,y=2,c=3,r=4,z=5,X=1,Y=4278190335;AAAA",
     "TRANSMIT_FRAME CONTENT=AAAA MEDIUM=0 COMPRESSION=0 MORE_DATA_FOLLOWS=0 X=1 Y=2 BASE_FRAME=3 "
     "FRAME_NUMBER=4 DURATION=5 "
     "COMPOSITION_MODE=1 BACKGROUND_PIXEL=4278190335 VERBOSITY=0"},
    {"Ga=c,i=1,I=2,c=3,r=4,x=5,y=6,w=7,h=8,X=9,Y=10,C=1",
     "COMPOSE_FRAME IMAGE_ID=1 IMAGE_NUMBER=2 TARGET_FRAME=3 SOURCE_FRAME=4 X=5 Y=6 WIDTH=7 "
     "HEIGHT=8 SOURCE_X=9 SOURCE_Y=10 "
     "COMPOSITION_MODE=1 VERBOSITY=0"},
    {"Ga=d", "DELETE_ALL DELETES_DATA=0 VERBOSITY=0"},
    {"Ga=d,d=A,q=2", "DELETE_ALL DELETES_DATA=1 VERBOSITY=2"},
    {"Ga=d,d=i,i=1,p=2", "DELETE_BY_IMAGE_ID IMAGE_ID=1 PLACEMENT_ID=2 DELETES_DATA=0 VERBOSITY=0"},
    {"Ga=d,d=i", "NONE"},
    {"Ga=d,d=N,I=5", "DELETE_BY_IMAGE_NUMBER IMAGE_NUMBER=5 DELETES_DATA=1 VERBOSITY=0"},
    {"Ga=d,d=c", "DELETE_AT_CURSOR_POSITION DELETES_DATA=0 VERBOSITY=0"},
    {"Ga=d,d=F", "DELETE_ANIMATION_FRAMES DELETES_DATA=1 VERBOSITY=0"},
    {"Ga=d,d=p,x=1,y=2", "DELETE_AT X=1 Y=2 DELETES_DATA=0 VERBOSITY=0"},
    {"Ga=d,d=Q,x=1,y=2,z=-3", "DELETE_AT_Z X=1 Y=2 Z_INDEX=-3 DELETES_DATA=1 VERBOSITY=0"},
    {"Ga=d,d=x,x=1", "DELETE_COLUMN X=1 DELETES_DATA=0 VERBOSITY=0"},
    {"Ga=d,d=Y,y=1", "DELETE_ROW Y=1 DELETES_DATA=1 VERBOSITY=0"},
    {"Ga=d,d=z,z=-2147483648", "DELETE_Z Z_INDEX=-2147483648 DELETES_DATA=0 VERBOSITY=0"},
    {"Ga=d,d=R,x=1,y=2",
     "DELETE_BY_IMAGE_ID_RANGE FIRST_IMAGE_ID=1 LAST_IMAGE_ID=2 DELETES_DATA=1 VERBOSITY=0"},
};

static const struct refusal REFUSALS[] = {
    {ESCAPE_STREAM_KITTY_NONE, {NUMBER(X, 1)}, 0, "", ESCAPE_STREAM_NO_COMMAND},
    {18, {NUMBER(DELETES_DATA, 0), NUMBER(VERBOSITY, 0)}, 2, "", ESCAPE_STREAM_NO_COMMAND},
    {UINT32_MAX, {NUMBER(DELETES_DATA, 0), NUMBER(VERBOSITY, 0)}, 2, "", ESCAPE_STREAM_NO_COMMAND},
    {ESCAPE_STREAM_KITTY_DELETE_ALL,
     {NUMBER(DELETES_DATA, 0), NUMBER(VERBOSITY, 0)},
     1,
     "",
     ESCAPE_STREAM_NO_COMMAND},
    {ESCAPE_STREAM_KITTY_DELETE_ALL,
     {NUMBER(VERBOSITY, 0), NUMBER(DELETES_DATA, 0)},
     2,
     "",
     ESCAPE_STREAM_NO_COMMAND},
    {ESCAPE_STREAM_KITTY_DELETE_ALL,
     {NUMBER(DELETES_DATA, 2), NUMBER(VERBOSITY, 0)},
     2,
     "",
     ESCAPE_STREAM_NO_COMMAND},
    {ESCAPE_STREAM_KITTY_DELETE_ALL,
     {NUMBER(DELETES_DATA, 0), NUMBER(VERBOSITY, 3)},
     2,
     "",
     ESCAPE_STREAM_NO_COMMAND},
    {ESCAPE_STREAM_KITTY_DELETE_ROW,
     {NUMBER(Y, -1), NUMBER(DELETES_DATA, 0), NUMBER(VERBOSITY, 0)},
     3,
     "",
     ESCAPE_STREAM_NO_COMMAND},
    {ESCAPE_STREAM_KITTY_DELETE_ROW,
     {NUMBER(Y, INT64_C(4294967296)), NUMBER(DELETES_DATA, 0), NUMBER(VERBOSITY, 0)},
     3,
     "",
     ESCAPE_STREAM_NO_COMMAND},
    {ESCAPE_STREAM_KITTY_DELETE_Z,
     {NUMBER(Z_INDEX, INT64_C(2147483648)), NUMBER(DELETES_DATA, 0), NUMBER(VERBOSITY, 0)},
     3,
     "",
     ESCAPE_STREAM_NO_COMMAND},
    {ESCAPE_STREAM_KITTY_QUERY,
     {TEXT(CONTENT, 0, 1), NUMBER(MEDIUM, 0), NUMBER(COMPRESSION, 0)},
     3,
     "a",
     ESCAPE_STREAM_NO_COMMAND},
};

/* Pixels by each medium, between the flags that each has. */
static void check_content(const char *content, int64_t medium, uint32_t wanted) {
    const struct escape_stream_field fields[] = {
        TEXT(CONTENT, 0, strlen(content)), NUMBER(MEDIUM, medium), NUMBER(COMPRESSION, 0),
        NUMBER(MORE_DATA_FOLLOWS, 0)};
    struct value value = {ESCAPE_STREAM_KITTY_QUERY, 4, strlen(content)};
    uint8_t out[MOST_WRITTEN];
    size_t needed = JUNK;
    wants(
        write_text(&value, fields, (const uint8_t *)content, out, sizeof out, &needed) == wanted,
        "another status", content, (size_t)medium);
    wants((needed == JUNK) == (wanted != ESCAPE_STREAM_DONE), "another length", content, needed);
}

int main(void) {
    size_t count = sizeof COMMANDS / sizeof *COMMANDS;
    for (size_t i = 0; i < count; i++)
        if (strcmp(COMMANDS[i].wanted, "NONE") != 0)
            check_back(COMMANDS[i].text, true);
    check_no_commands(REFUSALS, sizeof REFUSALS / sizeof *REFUSALS);
    check_content("AAAA", ESCAPE_STREAM_MEDIUM_PAYLOAD, ESCAPE_STREAM_DONE);
    check_content("A\x1b", ESCAPE_STREAM_MEDIUM_PAYLOAD, ESCAPE_STREAM_NOT_WRITABLE);
    check_content("\xc3\xa9", ESCAPE_STREAM_MEDIUM_PAYLOAD, ESCAPE_STREAM_NOT_WRITABLE);
    check_content("\xff", ESCAPE_STREAM_MEDIUM_PAYLOAD, ESCAPE_STREAM_NO_COMMAND);
    check_content("AAAA", ESCAPE_STREAM_MEDIUM_BYTES, ESCAPE_STREAM_NOT_WRITABLE);
    check_content("\xff", ESCAPE_STREAM_MEDIUM_BYTES, ESCAPE_STREAM_NOT_WRITABLE);
    check_content("/\x1b\xc3\xa9", ESCAPE_STREAM_MEDIUM_FILE, ESCAPE_STREAM_DONE);
    check_content("\xff", ESCAPE_STREAM_MEDIUM_FILE, ESCAPE_STREAM_NO_COMMAND);
    check_content("a", 5, ESCAPE_STREAM_NO_COMMAND);
    return check_all(COMMANDS, count);
}
