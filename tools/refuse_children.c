/* Refuses children of a real program: preloaded, it makes the starts whose numbers (from 1) are in REFUSE_START fail, and the
   waits for those that were started under the numbers in REFUSE_WAIT, which have ended by then. Numbers have commas between
   them. It counts the calls of posix_spawn of this process alone, and writes each of them to the file REFUSE_LOG, if set: a
   line with the number of words, the length of each, and the length of the file that the last word in `.c` names, or -1 if
   there is none; then these words and that file. Children are started without it.
   Build: cc -shared -fPIC -O1 -o refuse_children.so refuse_children.c -ldl
   Run:   REFUSE_START=2,5 LD_PRELOAD=$PWD/refuse_children.so program ARGS */
#define _GNU_SOURCE
#include <dlfcn.h>
#include <errno.h>
#include <spawn.h>
#include <stdio.h>
#include <stdlib.h>
#include <string.h>
#include <sys/wait.h>

#define MOST 256

struct numbers {
  unsigned long all[MOST];
  int count;
};

static unsigned long started;
static struct numbers refused_starts, refused_waits, lost;
static FILE *records;

static void add(struct numbers *numbers, unsigned long number) {
  if (numbers->count == MOST) abort();
  numbers->all[numbers->count++] = number;
}

static int has(const struct numbers *numbers, unsigned long number) {
  for (int i = 0; i < numbers->count; i++)
    if (numbers->all[i] == number) return 1;
  return 0;
}

static void read_numbers(struct numbers *numbers, const char *name) {
  const char *text = getenv(name);
  while (text && *text) {
    add(numbers, strtoul(text, (char **)&text, 10));
    if (*text && *text++ != ',') abort();
  }
}

/* The program and its children see none of the variables. */
__attribute__((constructor)) static void setup(void) {
  const char *name = getenv("REFUSE_LOG");
  read_numbers(&refused_starts, "REFUSE_START");
  read_numbers(&refused_waits, "REFUSE_WAIT");
  if (name && !(records = fopen(name, "we"))) abort();
  unsetenv("LD_PRELOAD");
  unsetenv("REFUSE_START");
  unsetenv("REFUSE_WAIT");
  unsetenv("REFUSE_LOG");
}

static void record(char *const words[]) {
  static char text[1 << 20];
  const char *source = 0;
  long length = -1;
  int count = 0;
  for (; words[count]; count++) {
    size_t size = strlen(words[count]);
    if (size > 2 && strcmp(words[count] + size - 2, ".c") == 0) source = words[count];
  }
  if (source) {
    FILE *file = fopen(source, "re");
    if (file) {
      length = (long)fread(text, 1, sizeof text, file);
      fclose(file);
    }
  }
  fprintf(records, "%d", count);
  for (int i = 0; i < count; i++) fprintf(records, " %zu", strlen(words[i]));
  fprintf(records, " %ld\n", length);
  for (int i = 0; i < count; i++) fputs(words[i], records);
  if (length > 0) fwrite(text, 1, (size_t)length, records);
  fflush(records);
}

int posix_spawn(pid_t *pid, const char *path, const posix_spawn_file_actions_t *actions, const posix_spawnattr_t *attributes,
                char *const words[], char *const environment[]) {
  static int (*next)(pid_t *, const char *, const posix_spawn_file_actions_t *, const posix_spawnattr_t *, char *const[],
                     char *const[]);
  int error;
  if (!next) next = (__typeof__(next))dlsym(RTLD_NEXT, "posix_spawn");
  started++;
  if (records) record(words);
  if (has(&refused_starts, started)) return EAGAIN;
  error = next(pid, path, actions, attributes, words, environment);
  if (!error && has(&refused_waits, started)) add(&lost, (unsigned long)*pid);
  return error;
}

/* A child that is refused is waited for, so none is left. */
pid_t waitpid(pid_t pid, int *status, int options) {
  static pid_t (*next)(pid_t, int *, int);
  pid_t found;
  if (!next) next = (__typeof__(next))dlsym(RTLD_NEXT, "waitpid");
  found = next(pid, status, options);
  if (found > 0 && has(&lost, (unsigned long)found)) {
    errno = ECHILD;
    return -1;
  }
  return found;
}
