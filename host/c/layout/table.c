/* The table of what was found. */
#include <stdio.h>
#include <stdlib.h>
#include <string.h>

#include "table.h"

void must(int shown, const char *what) {
    if (!shown) {
        fprintf(stderr, "layout: the library does not show: %s\n", what);
        exit(EXIT_FAILURE);
    }
}

enum { MOST_LINES = 128 };

static struct {
    int seen;
    size_t first, second, align;
} found[MOST_LINES];

static int differs;

static size_t line_of(const char *name) {
    size_t i = 0;
    while (i < lines && strcmp(declared[i].name, name) != 0)
        i++;
    must(i < lines && i < MOST_LINES, name);
    return i;
}

static void note(const char *name, size_t first, size_t second, size_t align) {
    size_t i = line_of(name);
    int is_field = strchr(name, '.') != NULL;
    const char *one = is_field ? "offset" : "size", *other = is_field ? "size" : "alignment";
    found[i].seen = 1;
    found[i].first = first;
    found[i].second = second;
    found[i].align = align;
    if (declared[i].first == first && declared[i].second == second)
        return;
    differs = 1;
    fprintf(stderr, "%s: the library has %s %zu and %s %zu, the header says %s %zu and %s %zu\n", name, one, first,
            other, second, one, declared[i].first, other, declared[i].second);
}

void note_number(const char *name, size_t offset, size_t size, size_t entries) {
    note(name, offset, entries * size, size);
}

void note_inner(const char *name, size_t offset, const char *type, size_t entries) {
    size_t i = line_of(type);
    must(found[i].seen, type);
    note(name, offset, entries * found[i].first, found[i].align);
}

/* It ends behind the last of its fields, at a multiple of its alignment, which is the largest of theirs. */
size_t note_struct(const char *name) {
    size_t length = strlen(name), end = 0, align = 1, size;
    for (size_t i = 0; i < lines; i++) {
        if (strncmp(declared[i].name, name, length) != 0 || declared[i].name[length] != '.')
            continue;
        must(found[i].seen, declared[i].name);
        if (found[i].first + found[i].second > end)
            end = found[i].first + found[i].second;
        if (found[i].align > align)
            align = found[i].align;
    }
    size = (end + align - 1) / align * align;
    note(name, size, align, align);
    return size;
}

int all_found_as_declared(void) {
    for (size_t i = 0; i < lines; i++)
        must(found[i].seen, declared[i].name);
    return !differs;
}
