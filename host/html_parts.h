/* What every page has: its look, and the script that searches and filters. */
#ifndef HTML_PARTS_H
#define HTML_PARTS_H

/* Each ended by a null. */
extern const char *const html_style[], *const html_script[];

#endif
