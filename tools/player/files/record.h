/* The record of what was carried out: one sector of text, as docs/tools/player.md has it. */
#ifndef RECORD_H
#define RECORD_H

#include <stdbool.h>
#include <stddef.h>
#include <stdint.h>

#include "backlash.h"
#include "cause.h"
#include "line.h"
#include "place.h"

enum {
    RECORD_SIZE = 512,  /* a disk writes them whole or not at all */
    LONGEST_PATH = 236, /* with it counts of fifteen digits have room, and all else at its greatest */
    OLDEST_MS = 9999    /* as an age is written */
};

/* What tells OUT apart from another file of its name. */
struct file_mark {
    bool is_known;    /* a pipe has none, nor has an older record */
    uint64_t inode;
    uint64_t born_ns; /* when it was made; 0 if the file system doesn't say */
    uint32_t digest;  /* CRC-32 of the last 4,096 bytes that were carried out */
};

struct record {
    char out[RECORD_SIZE]; /* the path of OUT */
    uint64_t lines;
    uint64_t bytes;
    struct outputs outputs;
    int64_t nm[3]; /* where the machine stands */
    struct file_mark mark;
    int screws[3];    /* where those of X, Y and Z are within their backlash */
    unsigned age_ms;  /* how old a record on the disk ever was as the next one came; 0 where that isn't known */
    char homed[4];    /* the axes that were homed since the player began, as "XYZ" */
    bool is_off;      /* the motors left the path of OUT by a move without lines */
    bool has_path;    /* where the lines that are carried out lead, where the motors left them and it is known .. */
    int64_t path[3];  /* .. in nanometres; it stands in the file where OUT's name leaves room */
    char stopped[16]; /* what ended the player before OUT's end, in a word; `emergency` and `limit` until it is homed */
    uint64_t moves;   /* how many moves without lines had begun as it was taken; it doesn't stand in the file */
};

/* What `stopped` says where they moved without lines, or along a way, as the player was gone. */
extern const char RECORD_MOVING[];

/* Whether a path of OUT can stand in a record. */
bool record_takes(const char *out, struct cause *why);

/* Writes a record, whose path it takes, as 512 bytes. */
void record_print(const struct record *record, char text[RECORD_SIZE]);

/* Reads the bytes of the file `path`. Returns false, with the cause, if they are no record. */
bool record_read(const char *text, size_t size, const char *path, struct record *record, struct cause *why);

bool mark_is_same(const struct file_mark *one, const struct file_mark *other);

#endif
