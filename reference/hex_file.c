/* C itself knows no folders. */
#define _POSIX_C_SOURCE 200809L

#include "hex_file.h"

#include <dirent.h>
#include <errno.h>
#include <stdio.h>
#include <stdlib.h>
#include <string.h>

enum {
    PATH_ROOM = 4096,
    DIGIT_BITS = 4,
    NO_DIGIT = -1
};

static const char suffix[] = ".hex";

/* Behind it stands a digit, and then what ends the words. */
static const char shelf_words[] = "# --shelf ";
static const char shelf_words_end[] = ": ";

enum {
    PHYS_AT = sizeof shelf_words - 1,
    START_ROOM = PHYS_AT + 1 + sizeof shelf_words_end - 1
};

/* start: what the text begins with, as far as there is room for it. */
struct hex_text {
    FILE *stream;
    unsigned long line;
    int character;
    size_t started;
    char start[START_ROOM];
};

/* ---- The text; what is wrong is told as a message, nothing wrong as none ---- */

static void next_character(struct hex_text *text)
{
    if (text->character == '\n') {
        text->line++;
    }
    text->character = getc(text->stream);
    if (text->character != EOF && text->started < START_ROOM) {
        text->start[text->started] = (char)text->character;
        text->started++;
    }
}

static size_t phys_named(const struct hex_text *text)
{
    char digit = text->start[PHYS_AT];

    if (memcmp(text->start, shelf_words, PHYS_AT) != 0
        || digit < '0' || digit > '9'
        || memcmp(text->start + PHYS_AT + 1, shelf_words_end, sizeof shelf_words_end - 1) != 0) {
        return HEX_NO_PHYS;
    }
    return (size_t)(digit - '0');
}

static int digit_value(int character)
{
    if (character >= '0' && character <= '9') {
        return character - '0';
    }
    if (character >= 'a' && character <= 'f') {
        return character - 'a' + 10;
    }
    if (character >= 'A' && character <= 'F') {
        return character - 'A' + 10;
    }
    return NO_DIGIT;
}

static bool is_gap(int character)
{
    return character == ' ' || character == '\t' || character == '\r' || character == '\n'
        || character == '#' || character == EOF;
}

static const char *take_gap(struct hex_text *text)
{
    if (text->character == '#') {
        while (text->character != '\n' && text->character != EOF) {
            next_character(text);
        }
        return NULL;
    }
    if (text->character != '\r') {
        next_character(text);
        return NULL;
    }
    next_character(text);
    return text->character == '\n' ? NULL : "a carriage return that does not end the line";
}

static const char *take_byte(struct hex_text *text, struct hex_bytes *into)
{
    int high = digit_value(text->character);

    next_character(text);

    int low = digit_value(text->character);

    if (high == NO_DIGIT || low == NO_DIGIT) {
        return "not a byte of two hexadecimal digits";
    }
    next_character(text);
    if (!is_gap(text->character)) {
        return "no blank after a byte";
    }
    if (into->length == HEX_FILE_MOST_BYTES) {
        return "too many bytes for one case";
    }
    into->bytes[into->length] = (uint8_t)(high << DIGIT_BITS | low);
    into->length++;
    return NULL;
}

static const char *take_text(struct hex_text *text, struct hex_bytes *into)
{
    const char *wrong = NULL;

    next_character(text);
    while (wrong == NULL && text->character != EOF) {
        wrong = is_gap(text->character) ? take_gap(text) : take_byte(text, into);
    }
    if (ferror(text->stream) != 0) {
        return strerror(errno);
    }
    return wrong;
}

bool hex_file_read(const char *path, struct hex_bytes *into)
{
    struct hex_text text = {.stream = fopen(path, "rb"), .line = 1, .character = ' '};

    into->length = 0;
    if (text.stream == NULL) {
        fprintf(stderr, "%s: %s\n", path, strerror(errno));
        return false;
    }

    const char *wrong = take_text(&text, into);

    if (wrong != NULL) {
        fprintf(stderr, "%s:%lu: %s\n", path, text.line, wrong);
    }
    fclose(text.stream);
    into->phys = phys_named(&text);
    return wrong == NULL;
}

/* ---- The folder ---- */

static int is_hex_name(const struct dirent *entry)
{
    size_t length = strlen(entry->d_name);
    size_t tail = sizeof suffix - 1;

    return entry->d_name[0] != '.' && length > tail && strcmp(entry->d_name + length - tail, suffix) == 0;
}

/* Not alphasort: its order may vary with the locale. */
static int compare_names(const struct dirent **left, const struct dirent **right)
{
    return strcmp((*left)->d_name, (*right)->d_name);
}

static bool take_file(const char *folder, const char *name, hex_taker *take, void *lent)
{
    struct hex_bytes read;
    char path[PATH_ROOM];
    int length = snprintf(path, sizeof path, "%s/%s", folder, name);

    if (length < 0 || length >= PATH_ROOM) {
        fprintf(stderr, "%s/%s: the path is too long\n", folder, name);
        return false;
    }
    if (!hex_file_read(path, &read)) {
        return false;
    }
    return take(lent, path, &read);
}

bool hex_folder_read(const char *folder, hex_taker *take, void *lent)
{
    struct dirent **entries;
    int count = scandir(folder, &entries, is_hex_name, compare_names);
    bool whole = true;

    if (count < 0) {
        if (errno == ENOENT) {
            return true;
        }
        fprintf(stderr, "%s: %s\n", folder, strerror(errno));
        return false;
    }
    for (int i = 0; i < count; i++) {
        whole = whole && take_file(folder, entries[i]->d_name, take, lent);
        free(entries[i]);
    }
    free(entries);
    return whole;
}
