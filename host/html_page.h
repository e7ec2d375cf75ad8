/* The page for the clerk: all files of a run in one self-contained page. */
#ifndef HTML_PAGE_H
#define HTML_PAGE_H

#include <stdbool.h>

#include "judged.h"
#include "night.h"
#include "out.h"

/* Its parts are held until the end, since what stands first is known last. */
struct part {
    struct out out;
    char *bytes;
    size_t length;
};

struct page {
    struct part files, works;
    size_t file_count;
};

/* False, with words on standard error, where there is no memory; then there is nothing to free. */
bool page_begin(struct page *page);

/* One file more. */
void page_add(struct page *page, const struct run *run, const struct judged *judged);

/* Writes the page. False, with words on standard error, where it cannot be written. */
bool page_write(struct page *page, const struct run *run, const struct night *night);

void page_free(struct page *page);

#endif
