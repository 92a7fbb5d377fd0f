/* What the other files need of the system, in one form for every system. */

#ifndef PORTABLE_H
#define PORTABLE_H

#include "config.h"

#include <stddef.h>
#include <stdio.h>
#include <sys/types.h>

#if HAVE_UNISTD_H
#include <unistd.h>
#endif

#if !HAVE_DECL_GETLINE
ssize_t getline(char **line, size_t *room, FILE *in);
#endif

#endif
