/* getline, for systems that have none. */

#include "portable.h"

#include <stdlib.h>

/* Reads a line with its newline into *line, which has *room bytes and grows as it has to. Returns the number of bytes read,
   or -1 at the end of the file and if memory runs out. */
ssize_t getline(char **line, size_t *room, FILE *in)
{
    size_t length = 0;
    int byte;

    if (!*line)
        *room = 0;
    while ((byte = getc(in)) != EOF) {
        if (length + 2 > *room) {
            size_t larger = *room ? 2 * *room : 128;
            char *moved = realloc(*line, larger);
            if (!moved)
                return -1;
            *line = moved;
            *room = larger;
        }
        (*line)[length++] = (char)byte;
        if (byte == '\n')
            break;
    }
    if (length == 0)
        return -1;
    (*line)[length] = '\0';
    return (ssize_t)length;
}
