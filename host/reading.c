#include "reading.h"

#include <errno.h>
#include <fcntl.h>
#include <stdlib.h>
#include <string.h>
#include <sys/stat.h>
#include <unistd.h>

enum { FIRST_ROOM = 65536, STANDARD_INPUT = 0 };

/* Twice the room, up to `most`. */
static bool grow(struct content *content, size_t *room, size_t most, struct why *why) {
    size_t more = *room > most / 2 ? most : *room * 2;
    uint8_t *bytes = realloc(content->bytes, more);
    if (!bytes)
        return fail(why, "needs %zu bytes of memory, which are not there", more);
    content->bytes = bytes;
    *room = more;
    return true;
}

/* Reads until the end, or until `most` bytes are there. */
static bool read_bytes(int from, size_t most, struct content *content, struct why *why) {
    size_t room = most < FIRST_ROOM ? most : FIRST_ROOM;
    content->length = 0;
    content->bytes = malloc(room);
    if (!content->bytes)
        return fail(why, "needs %zu bytes of memory, which are not there", room);
    while (content->length < most) {
        if (content->length == room && !grow(content, &room, most, why))
            return false;
        ssize_t some = read(from, content->bytes + content->length, room - content->length);
        if (some == 0)
            break;
        if (some > 0)
            content->length += (size_t)some;
        else if (errno != EINTR)
            return fail(why, "cannot be read: %s", strerror(errno));
    }
    return true;
}

static bool look(int at, struct stat *found, struct why *why) {
    return fstat(at, found) == 0 || fail(why, "cannot be looked at: %s", strerror(errno));
}

/* A verdict on half of one file and half of another would be worth nothing. What is no ordinary file is taken as it comes. */
static bool unchanged(const struct stat *before, const struct stat *after) {
    return !S_ISREG(before->st_mode) || (before->st_size == after->st_size && before->st_mtim.tv_sec == after->st_mtim.tv_sec &&
                                         before->st_mtim.tv_nsec == after->st_mtim.tv_nsec);
}

/* Of standard input another program may have read the beginning. */
static bool is_whole(int from, const struct stat *after, size_t length, size_t most) {
    return from == STANDARD_INPUT || !S_ISREG(after->st_mode) || length == most || (uint64_t)after->st_size == length;
}

static bool read_open(int from, size_t most, struct content *content, struct why *why) {
    struct stat before, after;
    if (!look(from, &before, why))
        return false;
    if (S_ISDIR(before.st_mode))
        return fail(why, "is a folder, not a file");
    if (!read_bytes(from, most, content, why) || !look(from, &after, why))
        return false;
    if (!unchanged(&before, &after) || !is_whole(from, &after, content->length, most))
        return fail(why, "changed while it was read; try again when it is complete");
    content->identity = (struct identity){(uint64_t)after.st_dev, (uint64_t)after.st_ino};
    return true;
}

bool file_read(const char *path, size_t most, struct content *content, struct why *why) {
    bool standard = strcmp(path, "-") == 0;
    int from = standard ? STANDARD_INPUT : open(path, O_RDONLY);
    if (from < 0)
        return fail(why, "cannot be opened: %s", strerror(errno));
    content->bytes = NULL;
    bool done = read_open(from, most + 1, content, why);
    if (!standard)
        close(from);
    if (!done)
        file_free(content);
    return done;
}

void file_free(struct content *content) {
    free(content->bytes);
    content->bytes = NULL;
    content->length = 0;
}

const char *file_title(const char *path) {
    return strcmp(path, "-") == 0 ? "standard input" : path;
}
