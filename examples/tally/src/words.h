/* A table of words, with how often each occurs. */

#ifndef WORDS_H
#define WORDS_H

#include <stddef.h>

struct word {
    char *text;
    unsigned long count;
};

struct words {
    struct word *slots; /* room of them, those without text are free */
    size_t room;        /* 0 or a power of two */
    size_t used;
};

/* Counts the word of this many bytes once more. Returns 0, or -1 if memory runs out. */
int words_count(struct words *words, const char *text, size_t length);

/* Puts the words into the first slots, the most frequent first and equal ones in alphabetic order. Nothing can be counted after
   that. */
void words_sort(struct words *words);

void words_free(struct words *words);

#endif
