/* What the headers declare, line by line, and what the probes find. */
#ifndef TABLE_H
#define TABLE_H

#include <stddef.h>

/* Ends the program with a word on what the library did not show. */
void must(int shown, const char *what);

typedef struct {
    const char *name;
    size_t first;  /* the offset of a field, the size of a struct */
    size_t second; /* the size of a field, the alignment of a struct */
} line;

extern const line declared[];
extern const size_t lines;

/* A field that is one number, or an array of `entries` numbers of `size` bytes. */
void note_number(const char *name, size_t offset, size_t size, size_t entries);
/* A field that is a struct which was noted before, or an array of them. */
void note_inner(const char *name, size_t offset, const char *type, size_t entries);
/* A struct whose fields were all noted. Gives its size. */
size_t note_struct(const char *name);
/* Whether a probe found every line, and as the header declares it. */
int all_found_as_declared(void);

/* The probes, in this order. */
void probe_bench_results(void);
void probe_plans(void);
void probe_bench_fields(void);
void check_what_calls_leave(void);
void probe_analyser_results(void);
void probe_code_results(void);

#endif
