/* Whether a program can be run with the library below it, by what its file says. */
#ifndef DETIO_RUNS_H
#define DETIO_RUNS_H

enum runs { RUNS, NOT_READ, NO_PROGRAM, ANOTHER_USER, STATIC };

/* Of the program at this path, which has room for PATH_MAX bytes: where it is a script, that of its interpreter is
 * there afterwards, and what is said is of that. Of NOT_READ errno says why. */
enum runs look_at_program(char *path);

#endif
