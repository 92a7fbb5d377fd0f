/* Kills a real program at one of its calls: preloaded, it counts the calls of posix_spawn, of waitpid that give a child, of open
   that make a file, of write, rename and unlink, all together, from 1. At the call of the number KILL_AT it sends the signal
   KILL_BY, or SIGKILL, to the process: before the call; after it, if KILL_WHEN is `after`; or, of a write, after half of the
   bytes, if KILL_WHEN is `within`. It writes each call to the file KILL_LOG, if set, as a line with the name of the call and of
   a file; after `posix_spawn` there are a sum of the bytes of the conftest that the last word in `.c` names, and the words, with a
   space between them. Children are started without it.
   Build: cc -shared -fPIC -O1 -o kill_process.so kill_process.c -ldl
   Run:   KILL_AT=12 KILL_WHEN=within LD_PRELOAD=$PWD/kill_process.so program ARGS */
#define _GNU_SOURCE
#include <dlfcn.h>
#include <fcntl.h>
#include <signal.h>
#include <spawn.h>
#include <stdarg.h>
#include <stdio.h>
#include <stdlib.h>
#include <string.h>
#include <sys/wait.h>
#include <unistd.h>

#define NEXT(name) ((__typeof__(&name))dlsym(RTLD_NEXT, #name))

static unsigned long number, at;
static int by = SIGKILL;
static enum { BEFORE, AFTER, WITHIN } when = BEFORE;
static int records = -1;

static void say(const char *call, const char *text) {
  char line[4096];
  int length;
  if (records < 0) return;
  length = snprintf(line, sizeof line, "%lu %s %.4000s\n", number, call, text);
  if (length > 0) NEXT(write)(records, line, (size_t)length);
}

/* The program and its children see none of the variables. */
__attribute__((constructor)) static void setup(void) {
  const char *text;
  if ((text = getenv("KILL_AT"))) at = strtoul(text, 0, 10);
  if ((text = getenv("KILL_BY"))) by = atoi(text);
  if ((text = getenv("KILL_WHEN"))) when = !strcmp(text, "after") ? AFTER : !strcmp(text, "within") ? WITHIN : BEFORE;
  if ((text = getenv("KILL_LOG")) && (records = NEXT(open)(text, O_WRONLY | O_CREAT | O_TRUNC | O_CLOEXEC, 0666)) < 0) abort();
  unsetenv("LD_PRELOAD");
  unsetenv("KILL_AT");
  unsetenv("KILL_BY");
  unsetenv("KILL_WHEN");
  unsetenv("KILL_LOG");
}

static void end(void) {
  say("killed", "");
  signal(by, SIG_DFL);
  raise(by);
  pause();
}

static int begin(const char *call, const char *text) {
  number++;
  say(call, text);
  if (number != at) return 0;
  if (when == BEFORE) end();
  return 1;
}

/* A sum of the bytes of a file (FNV-1a). */
static unsigned long sum_of(const char *path) {
  unsigned long sum = 14695981039346656037UL;
  FILE *file = path ? fopen(path, "re") : 0;
  int byte;
  if (!file) return 0;
  while ((byte = getc(file)) != EOF) sum = (sum ^ (unsigned long)byte) * 1099511628211UL;
  fclose(file);
  return sum;
}

int posix_spawn(pid_t *pid, const char *path, const posix_spawn_file_actions_t *actions, const posix_spawnattr_t *attributes,
                char *const words[], char *const environment[]) {
  char text[4000] = "";
  const char *source = 0;
  size_t used;
  int error, is_it;
  for (int i = 0; words[i]; i++) {
    size_t size = strlen(words[i]);
    if (size > 2 && !strcmp(words[i] + size - 2, ".c")) source = words[i];
  }
  used = (size_t)snprintf(text, sizeof text, "%lx", sum_of(source));
  for (int i = 0; words[i]; i++) {
    int more = snprintf(text + used, sizeof text - used, " %s", words[i]);
    if (more < 0 || (used += (size_t)more) >= sizeof text) break;
  }
  is_it = begin("posix_spawn", text);
  error = NEXT(posix_spawn)(pid, path, actions, attributes, words, environment);
  if (is_it) end();
  return error;
}

pid_t waitpid(pid_t pid, int *status, int options) {
  pid_t found = NEXT(waitpid)(pid, status, options);
  if (found > 0 && begin("waitpid", "")) end();
  return found;
}

int open(const char *path, int flags, ...) {
  int mode = 0, file, is_it = 0;
  if (flags & O_CREAT) {
    va_list more;
    va_start(more, flags);
    mode = va_arg(more, int);
    va_end(more);
    is_it = begin("open", path);
  }
  file = NEXT(open)(path, flags, mode);
  if (is_it) end();
  return file;
}

ssize_t write(int file, const void *bytes, size_t count) {
  ssize_t written;
  char text[32];
  int is_it;
  snprintf(text, sizeof text, "%d %zu", file, count);
  is_it = begin("write", text);
  written = NEXT(write)(file, bytes, is_it && when == WITHIN ? count / 2 : count);
  if (is_it) end();
  return written;
}

int rename(const char *from, const char *to) {
  int is_it = begin("rename", to), error = NEXT(rename)(from, to);
  if (is_it) end();
  return error;
}

int unlink(const char *path) {
  int is_it = begin("unlink", path), error = NEXT(unlink)(path);
  if (is_it) end();
  return error;
}
