/* The file of a record: held against other players, whole or not there. */
#ifndef KEEPER_H
#define KEEPER_H

#include <stdbool.h>

#include "cause.h"
#include "record.h"

struct keeper {
    const char *path;
    int file;               /* -1 where there is none yet */
    char kept[RECORD_SIZE]; /* what stands in it, once it was written */
};

/* Opens and holds the file, if there is one. Returns false, with the cause, also if another player holds it. */
bool keeper_hold(struct keeper *keeper, const char *path, struct cause *why);

/* Reads the record of a file that is there. */
bool keeper_read(const struct keeper *keeper, struct record *record, struct cause *why);

/* Writes the first record, and makes the file if there is none; syncs both it and its folder. */
bool keeper_begin(struct keeper *keeper, const struct record *record, struct cause *why);

/* Writes a record over the last one, if it is another, and syncs it. Returns 0, or the number of an error. */
int keeper_write(struct keeper *keeper, const struct record *record);

#endif
