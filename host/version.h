#ifndef VERSION_H
#define VERSION_H

/* Of the program and of the library with it; `make install` reads it here too. */
#define CWRCHECK_VERSION "1.0.0"

#endif
