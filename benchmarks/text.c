/* The page's prose, broken into lines. */
#include "page.h"

#include <stdarg.h>
#include <stdio.h>
#include <string.h>

enum { COLUMNS = 130, MOST_TEXT = 4096 };

/* Prints words with a mark before the first line and as much room before the others. */
static void print_words(const char *mark, char *text)
{
    size_t column = strlen(mark), indent = column;
    const char *before = mark;
    for (char *word = strtok(text, " "); word != NULL; word = strtok(NULL, " ")) {
        size_t len = strlen(word);
        if (column > indent && column + 1 + len > COLUMNS) {
            printf("\n%*s", (int)indent, "");
            column = indent;
            before = "";
        }
        column += (column > indent) + len;
        printf("%s%s", before, word);
        before = " ";
    }
    printf("\n");
}

/* Prints a text with a mark before it. */
static void print_text(const char *mark, const char *format, va_list rest)
{
    char text[MOST_TEXT];
    vsnprintf(text, sizeof text, format, rest);
    print_words(mark, text);
}

/* A paragraph. */
void say(const char *format, ...)
{
    va_list rest;
    va_start(rest, format);
    print_text("", format, rest);
    va_end(rest);
    printf("\n");
}

/* A point of a list. */
void point(const char *format, ...)
{
    va_list rest;
    va_start(rest, format);
    print_text("- ", format, rest);
    va_end(rest);
}
