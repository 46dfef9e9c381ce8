#include "hex_file.h"
#include "listing.h"
#include "shelf_listing.h"

#include <stdlib.h>
#include <string.h>

/* path: none for standard input. */
struct request {
    bool of_shelf;
    size_t phys;
    const char *path;
};

struct trace {
    const uint8_t *bytes;
    size_t length;
};

/* ---- What is asked for ---- */

static bool take_phys(struct request *request, const char *word)
{
    if (word[0] < '0' || word[0] > '9' || word[1] != '\0') {
        return false;
    }
    request->of_shelf = true;
    request->phys = (size_t)(word[0] - '0');
    return true;
}

static bool take_words(struct request *request, int argc, char **argv)
{
    int taken = 1;

    if (argc > 1 && strcmp(argv[1], "--shelf") == 0) {
        if (argc == 2 || !take_phys(request, argv[2])) {
            return false;
        }
        taken = 3;
    }
    if (taken < argc) {
        request->path = argv[taken];
        taken++;
    }
    return taken == argc;
}

/* ---- The trace: hexadecimal text in a file, or raw bytes ---- */

static bool read_file(const char *path, struct trace *into)
{
    static struct hex_bytes text;

    if (!hex_file_read(path, &text)) {
        return false;
    }
    *into = (struct trace){.bytes = text.bytes, .length = text.length};
    return true;
}

static bool read_standard_input(struct trace *into)
{
    /* One byte more than may be listed, so that a longer trace shows. */
    static uint8_t bytes[LISTING_MOST_BYTES + 1];

    *into = (struct trace){.bytes = bytes, .length = fread(bytes, 1, sizeof bytes, stdin)};
    if (ferror(stdin) != 0) {
        fputs("list_trace: cannot read the trace\n", stderr);
        return false;
    }
    return true;
}

static bool list_input(const struct request *request)
{
    struct trace trace;
    bool read = request->path != NULL ? read_file(request->path, &trace) : read_standard_input(&trace);

    if (!read) {
        return false;
    }
    if (request->of_shelf) {
        list_shelf_trace(stdout, request->phys, trace.bytes, trace.length);
    } else {
        list_trace(stdout, trace.bytes, trace.length);
    }
    return true;
}

int main(int argc, char **argv)
{
    struct request request = {.path = NULL};

    if (!take_words(&request, argc, argv)) {
        fputs("usage: list_trace [--shelf N] [FILE.hex]\n", stderr);
        return EXIT_FAILURE;
    }
    if (!list_input(&request)) {
        return EXIT_FAILURE;
    }
    if (fflush(stdout) != 0 || ferror(stdout) != 0) {
        fputs("list_trace: cannot write the whole listing\n", stderr);
        return EXIT_FAILURE;
    }
    return EXIT_SUCCESS;
}
