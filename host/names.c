#include "names.h"

#include <dirent.h>
#include <stdio.h>
#include <stdlib.h>
#include <string.h>
#include <sys/stat.h>

#include "out.h"

enum { FIRST_ROOM = 16 };

/* Takes the path over. */
static bool add(struct names *names, char *path, const char *why) {
    if (path && names->count == names->room) {
        size_t room = names->room == 0 ? FIRST_ROOM : names->room * 2;
        struct name *list = realloc(names->list, room * sizeof *list);
        if (list) {
            names->list = list;
            names->room = room;
        }
    }
    if (!path || names->count == names->room) {
        free(path);
        return complain("not enough memory for the names of the files");
    }
    names->list[names->count++] = (struct name){path, why};
    return true;
}

static char *copy_of(const char *name) {
    size_t room = strlen(name) + 1;
    char *copy = malloc(room);
    if (copy)
        memmove(copy, name, room);
    return copy;
}

static char *path_in(const char *folder, const char *name) {
    size_t length = strlen(folder), room = length + strlen(name) + 2;
    bool ended = length > 0 && folder[length - 1] == '/';
    char *path = malloc(room);
    if (path)
        snprintf(path, room, "%s%s%s", folder, ended ? "" : "/", name);
    return path;
}

void names_free(struct names *names) {
    for (size_t i = 0; i < names->count; i++)
        free(names->list[i].path);
    free(names->list);
    *names = (struct names){NULL, 0, 0};
}

static int by_name(const void *a, const void *b) {
    return strcmp(((const struct name *)a)->path, ((const struct name *)b)->path);
}

/* The paths of all that is in a folder, in the order of their names. */
static bool entries_of(DIR *open, const char *folder, struct names *entries) {
    bool done = true;
    for (struct dirent *entry = readdir(open); done && entry; entry = readdir(open))
        if (strcmp(entry->d_name, ".") != 0 && strcmp(entry->d_name, "..") != 0)
            done = add(entries, path_in(folder, entry->d_name), NULL);
    if (entries->count > 1)
        qsort(entries->list, entries->count, sizeof *entries->list, by_name);
    return done;
}

/* Ordinary files, also by a link. A link that leads nowhere is taken too: it is told then, and not passed over. */
static bool is_file(const char *path) {
    struct stat found;
    return stat(path, &found) != 0 || S_ISREG(found.st_mode);
}

/* Not by a link, which could lead back. */
static bool is_folder_itself(const char *path) {
    struct stat found;
    return lstat(path, &found) == 0 && S_ISDIR(found.st_mode);
}

static bool add_folder(struct names *names, const char *folder, bool recursive);

static bool add_entry(struct names *names, const char *path, bool recursive) {
    if (recursive && is_folder_itself(path))
        return add_folder(names, path, recursive);
    return !is_file(path) || add(names, copy_of(path), NULL);
}

static bool add_entries(struct names *names, DIR *open, const char *folder, bool recursive) {
    struct names entries = {NULL, 0, 0};
    bool done = entries_of(open, folder, &entries);
    for (size_t i = 0; done && i < entries.count; i++)
        done = add_entry(names, entries.list[i].path, recursive);
    names_free(&entries);
    return done;
}

static bool add_folder(struct names *names, const char *folder, bool recursive) {
    DIR *open = opendir(folder);
    if (!open)
        return add(names, copy_of(folder), "is a folder that cannot be looked into");
    bool done = add_entries(names, open, folder, recursive);
    closedir(open);
    return done;
}

/* A folder that was named and has nothing in it is no night without fault. */
static bool add_named(struct names *names, const char *name, bool recursive) {
    struct stat found;
    size_t before = names->count;
    if (strcmp(name, "-") == 0 || stat(name, &found) != 0 || !S_ISDIR(found.st_mode))
        return add(names, copy_of(name), NULL);
    if (!add_folder(names, name, recursive))
        return false;
    return names->count > before || add(names, copy_of(name), "is a folder without a file in it");
}

bool names_gather(struct names *names, const struct options *options) {
    *names = (struct names){NULL, 0, 0};
    for (size_t i = 0; i < options->count; i++)
        if (!add_named(names, options->files[i], options->recursive)) {
            names_free(names);
            return false;
        }
    return true;
}
