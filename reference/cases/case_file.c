#include "case_file.h"

#include "number.h"

#include <inttypes.h>

enum { PATH_ROOM = 4096 };

static FILE *open_in(const char *folder, const char *program, const char *name)
{
    char path[PATH_ROOM];
    int length = snprintf(path, sizeof path, "%s/%s/%s", folder, program, name);

    if (length < 0 || length >= PATH_ROOM) {
        return NULL;
    }
    return fopen(path, "wb");
}

bool case_file_open(struct case_file *file, const char *folder, const char *program)
{
    file->random = 0;
    file->cases = open_in(folder, program, "stdin");
    if (file->cases == NULL) {
        return false;
    }
    file->expected = open_in(folder, program, "stdout");
    if (file->expected == NULL) {
        fclose(file->cases);
        return false;
    }
    return true;
}

static bool close_whole(FILE *stream)
{
    bool whole = ferror(stream) == 0;

    return fclose(stream) == 0 && whole;
}

bool case_file_close(struct case_file *file)
{
    bool cases_whole = close_whole(file->cases);
    bool expected_whole = close_whole(file->expected);

    return cases_whole && expected_whole;
}

void case_number(struct case_file *file, uint64_t number)
{
    uint8_t bytes[NUMBER_MOST_BYTES];
    struct number_written written = number_write(number, bytes, sizeof bytes, 0);

    fwrite(bytes, 1, written.length, file->cases);
}

void case_numbers(struct case_file *file, const uint64_t *numbers, size_t count)
{
    for (size_t i = 0; i < count; i++) {
        case_number(file, numbers[i]);
    }
}

void case_bytes(struct case_file *file, const uint8_t *bytes, size_t length)
{
    case_number(file, length);
    fwrite(bytes, 1, length, file->cases);
}

void expect_line(struct case_file *file, enum case_kind kind, const uint64_t *numbers, size_t count)
{
    fprintf(file->expected, "%d", (int)kind);
    for (size_t i = 0; i < count; i++) {
        fprintf(file->expected, " %" PRIu64, numbers[i]);
    }
    fputc('\n', file->expected);
}

static size_t equal_bytes(const uint8_t *bytes, size_t length)
{
    size_t count = 1;

    while (count < length && bytes[count] == bytes[0]) {
        count++;
    }
    return count;
}

void expect_repeats(struct case_file *file, enum case_kind kind, const uint8_t *bytes, size_t length)
{
    size_t place = 0;

    fprintf(file->expected, "%d", (int)kind);
    while (place < length) {
        size_t equal = equal_bytes(bytes + place, length - place);

        fprintf(file->expected, " %zu %u", equal, (unsigned)bytes[place]);
        place += equal;
    }
    fputc('\n', file->expected);
}

/* splitmix64: tiny, and the same on every machine. */
uint64_t case_random(struct case_file *file)
{
    file->random += UINT64_C(0x9E3779B97F4A7C15);

    uint64_t mixed = file->random;

    mixed = (mixed ^ (mixed >> 30)) * UINT64_C(0xBF58476D1CE4E5B9);
    mixed = (mixed ^ (mixed >> 27)) * UINT64_C(0x94D049BB133111EB);
    return mixed ^ (mixed >> 31);
}

uint64_t case_random_below(struct case_file *file, uint64_t limit)
{
    return case_random(file) % limit;
}

bool case_random_one_in(struct case_file *file, uint64_t chances)
{
    return case_random_below(file, chances) == 0;
}

uint64_t case_random_of(struct case_file *file, const uint64_t *choices, size_t count)
{
    return choices[case_random_below(file, count)];
}
