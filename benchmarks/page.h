/* What the files of the page share. */
#ifndef PAGE_H
#define PAGE_H

#include "results.h"

/* Prose (text.c) in lines of at most 130 columns: a paragraph with an empty line below it, and a point of a list. */
void say(const char *format, ...) __attribute__((format(printf, 1, 2)));
void point(const char *format, ...) __attribute__((format(printf, 1, 2)));

/* The tables (tables.c, list_tables.c, shapes.c), each with its heading and what explains it. */
void print_ratios(void);
void print_stripes(void);
void print_shelf(void);
void print_lists(void);
void print_stale(void);
void print_tests(void);
void print_layouts(void);
void print_single(void);

#endif
