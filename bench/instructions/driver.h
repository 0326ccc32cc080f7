/* What bin/instructions writes of a program that tries instructions: tables of trials. driver.c runs them. */
#include <stdint.h>

/* `sign`: whether its cells have one. */
struct shape { const char *name; int bytes, sign, rank; };

/* A way to call the instruction: its text, how often it calls, and the function. */
struct way { const char *text; int times; void (*call)(const int64_t *, char *const *); };

/* A case is a row of numbers: of the control parameters, of the fields, and for each buffer how many cells it has, how many of these stand
   before the first that the body is given, its extents and its strides. */
struct trial {
    const char *name;
    int controls, fields;
    const char *const *numbers;
    int64_t *const *field, *const *seen;
    int buffers;
    const struct shape *shapes;
    int64_t width, cases, runs;
    const int64_t *rows;
    void (*body)(const int64_t *, char *const *);
    int ways;
    const struct way *way;
};

/* FILE TRIAL runs all inputs of a trial, and keeps in the file the number of the one that runs; FILE TRIAL NUMBER shows an input.
   Status 1 where an input is told that leaves different things. */
int trial_main(const struct trial *trials, int argc, char **argv);
