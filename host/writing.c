#include "writing.h"

#include <errno.h>
#include <fcntl.h>
#include <signal.h>
#include <stdio.h>
#include <stdlib.h>
#include <string.h>
#include <sys/stat.h>
#include <unistd.h>

#include "out.h"

enum { MOST_TRIES = 100, MOST_AT_ONCE = 1048576, MODE_BITS = 07777 };

/* ---- whether it may be written */

static bool is_same(const struct stat *there, const struct identity *input) {
    return (uint64_t)there->st_dev == input->device && (uint64_t)there->st_ino == input->inode;
}

bool file_is_same(const char *path, const char *other) {
    struct stat a, b;
    return stat(path, &a) == 0 && stat(other, &b) == 0 && a.st_dev == b.st_dev && a.st_ino == b.st_ino;
}

bool file_may_write(const char *path, const struct identity *input, bool replace) {
    struct stat there, link;
    if (lstat(path, &link) != 0)
        return errno == ENOENT || complain("cannot look at %s: %s", path, strerror(errno));
    /* By a link too; one that leads nowhere is no such file. */
    if (input && stat(path, &there) == 0 && is_same(&there, input))
        return complain("%s is the file that is to be numbered; it is never written over", path);
    if (S_ISDIR(link.st_mode))
        return complain("%s is a folder, not a file", path);
    if (!S_ISREG(link.st_mode))
        return complain("%s is no ordinary file and is not replaced", path);
    return replace || complain("%s exists already; --force replaces it", path);
}

/* ---- signals to stop: noted while a part lies on the disk, and heeded when it is gone */

static const int stops[] = {SIGINT, SIGTERM, SIGHUP};
enum { STOPS = sizeof stops / sizeof stops[0] };
static volatile sig_atomic_t stopped_by;

static void note_stop(int signal_number) {
    stopped_by = signal_number;
}

/* One that the caller of the program has shut out stays so. */
static void watch_stops(void) {
    stopped_by = 0;
    for (size_t i = 0; i < STOPS; i++)
        if (signal(stops[i], note_stop) == SIG_IGN)
            signal(stops[i], SIG_IGN);
}

static void heed_stops(void) {
    for (size_t i = 0; i < STOPS; i++)
        if (signal(stops[i], SIG_DFL) == SIG_IGN)
            signal(stops[i], SIG_IGN);
    if (stopped_by != 0)
        raise(stopped_by);
}

/* ---- the part, beside its place */

/* A piece at a time, so that a signal is heeded soon. */
static bool write_bytes(int to, struct bytes text) {
    while (text.length > 0 && stopped_by == 0) {
        ssize_t some = write(to, text.at, text.length < MOST_AT_ONCE ? text.length : MOST_AT_ONCE);
        if (some < 0 && errno != EINTR)
            return false;
        if (some > 0) {
            text.at += some;
            text.length -= (size_t)some;
        }
    }
    return stopped_by == 0;
}

/* A file of its own in the same folder, and so on the same disk. -1 where none can be made. */
static int open_part(const char *path, char *name, size_t room) {
    int to = -1;
    for (int try = 0; to < 0 && try < MOST_TRIES; try++) {
        snprintf(name, room, "%s.%ld-%d.part", path, (long)getpid(), try);
        to = open(name, O_WRONLY | O_CREAT | O_EXCL, 0666);
        if (to < 0 && errno != EEXIST)
            break;
    }
    return to;
}

/* The mode of the file that is replaced, where there is one. */
static bool take_mode(int to, const char *path) {
    struct stat old;
    return stat(path, &old) != 0 || fchmod(to, old.st_mode & MODE_BITS) == 0;
}

/* Closed in any case; a failure of any step is a failure of all. */
static bool fill(int to, const char *path, struct bytes text) {
    bool done = take_mode(to, path) && write_bytes(to, text) && fsync(to) == 0 && stopped_by == 0;
    int error = errno;
    if (close(to) == 0 || !done) {
        errno = error;
        return done;
    }
    return false;
}

/* ---- its move */

/* A link never replaces a file that has come there meanwhile. Where the disk has no links, a rename has to do. */
static bool move(const char *part, const char *path, bool replace) {
    if (!replace) {
        if (link(part, path) == 0) {
            unlink(part);
            return true;
        }
        if (errno == EEXIST)
            return false;
    }
    return rename(part, path) == 0;
}

/* `folder` has room for the path. */
static void folder_of(const char *path, char *folder, size_t room) {
    snprintf(folder, room, "%s", path);
    char *last = strrchr(folder, '/');
    if (!last)
        snprintf(folder, room, ".");
    else
        last[last == folder ? 1 : 0] = '\0';
}

/* The new name is safe only when its folder is on the disk too. Some disks cannot say so, and then nothing is lost that they could keep. */
static bool sync_folder(const char *folder) {
    int at = open(folder, O_RDONLY);
    if (at < 0)
        return errno == EACCES;
    bool done = fsync(at) == 0 || errno == EINVAL;
    int error = errno;
    close(at);
    errno = error;
    return done;
}

/* ---- all of it */

/* `name` has room for the path and for what a part has after it. */
static bool write_beside(const char *path, char *name, size_t room, struct bytes text, bool replace) {
    int to = open_part(path, name, room);
    bool done = to >= 0 && fill(to, path, text) && move(name, path, replace);
    int error = errno;
    if (!done && to >= 0)
        unlink(name);
    heed_stops();
    if (!done)
        return complain("cannot write %s: %s", path, strerror(error));
    folder_of(path, name, room);
    return sync_folder(name) || complain("%s is written, but its folder cannot be synced: %s", path, strerror(errno));
}

bool file_write(const char *path, struct bytes text, bool replace) {
    size_t room = strlen(path) + 64;
    char *name = malloc(room);
    if (!name)
        return complain("not enough memory for %zu bytes", room);
    watch_stops();
    bool done = write_beside(path, name, room, text, replace);
    free(name);
    return done;
}
