#ifndef HEX_FILE_H
#define HEX_FILE_H

#include <stdbool.h>
#include <stddef.h>
#include <stdint.h>

enum {
    /* Small traces only: each has to fit into one case. */
    HEX_FILE_MOST_BYTES = 32000,
    HEX_NO_PHYS = 10
};

/* phys: the digit N if the text begins with "# --shelf N: ", else HEX_NO_PHYS. */
struct hex_bytes {
    size_t phys;
    size_t length;
    uint8_t bytes[HEX_FILE_MOST_BYTES];
};

/* False if the file is wrong or cannot be read, having said so. */
bool hex_file_read(const char *path, struct hex_bytes *into);

/* False if it does not take what was read from the path, having said so. */
typedef bool hex_taker(void *lent, const char *path, const struct hex_bytes *read);

/* Hands on what is read from each *.hex in the order of their names; a folder that is missing has none.
 * False if one is wrong, cannot be read or is not taken, having said so. */
bool hex_folder_read(const char *folder, hex_taker *take, void *lent);

#endif
