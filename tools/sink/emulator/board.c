#include "board.h"

#include <string.h>

const struct board *board = &boards[0];

bool board_set(const char *elf) {
    const char *slash = strrchr(elf, '/');
    const char *file = slash != NULL ? slash + 1 : elf;
    size_t size = strcspn(file, ".");
    for (const struct board *each = boards; each->name != NULL; each++) {
        if (strlen(each->name) == size && memcmp(each->name, file, size) == 0) {
            board = each;
            return true;
        }
    }
    return false;
}

bool board_is(struct pin one, char port, uint32_t number) {
    return one.port == port && one.number == number;
}
