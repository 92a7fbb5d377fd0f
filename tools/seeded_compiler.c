/* A compiler's stand-in for configure scripts of Autoconf and for acrun: whether it takes a program is a function of what the
   program asks, of the flags -l, of flags with `fz`, and of a seed, the number in SEEDED_COMPILER.
   What a program asks: a header, if it only includes; a function, if it declares `char NAME (void);` or `char NAME ();` and calls
   it; a type, if it takes the size of one; a declaration, if it casts a name to void unless that is a macro; a member, if it takes
   one of a variable or takes its size; whether a size or an alignment is a number, or at least or at most that; otherwise its text.
   Its definitions, its default includes, its comments and its blanks do not count, so that two programs that ask the same get the
   same answer. A size is one of seven, or the type does not compile.
   What AC_PROG_CC and AC_PROG_CPP try is answered as by GCC. A program that it links ends with 0 or 1, by another bit, and with
   1 if the environment has SEEDED_CROSS.
   Build: cc -O1 -static -o gcc seeded_compiler.c */
#include <ctype.h>
#include <stdint.h>
#include <stdio.h>
#include <stdlib.h>
#include <string.h>
#include <sys/stat.h>
#include <unistd.h>

static uint64_t sum = 0xcbf29ce484222325u;

static void add(const char *bytes) {
  for (; *bytes; bytes++) sum = (sum ^ (unsigned char)*bytes) * 0x100000001b3u;
  sum = (sum ^ 0xff) * 0x100000001b3u;
}

static uint64_t mixed(void) {
  uint64_t bits = sum;
  bits = (bits ^ bits >> 32) * 0xd6e8feb86659fd93u;
  bits = (bits ^ bits >> 32) * 0xd6e8feb86659fd93u;
  return bits ^ bits >> 32;
}

/* Cuts each occurrence of a part. */
static void cut(char *text, const char *part) {
  size_t size = strlen(part);
  for (char *at = text; (at = strstr(at, part));) memmove(at, at + size, strlen(at + size) + 1);
}

/* Cuts comments, and makes each run of blanks one blank. */
static void squeeze(char *text) {
  char *to = text;
  for (char *at = text, *end; (at = strstr(at, "/*")) && (end = strstr(at, "*/"));) memmove(at, end + 2, strlen(end + 2) + 1);
  for (char *from = text; *from; from++) {
    if (!isspace((unsigned char)*from)) *to++ = *from;
    else if (to > text && to[-1] != ' ') *to++ = ' ';
  }
  while (to > text && to[-1] == ' ') to--;
  *to = 0;
}

/* Cuts the definitions at the top, and the default includes. */
static void plain(char *text) {
  static const char *front = "/* confdefs.h */\n", *end = "/* end confdefs.h.  */\n";
  char *begin = text, *found = strstr(text, end);
  if (found) begin = found + strlen(end);
  else if (strncmp(text, front, strlen(front)) == 0)
    for (begin = text + strlen(front); strncmp(begin, "#define ", 8) == 0;) begin = strchr(begin, '\n') + 1;
  memmove(text, begin, strlen(begin) + 1);
  squeeze(text);
  cut(text, "#include <stddef.h> #ifdef HAVE_STDIO_H # include <stdio.h> #endif #ifdef HAVE_STDLIB_H # include <stdlib.h> #endif "
            "#ifdef HAVE_STRING_H # include <string.h> #endif #ifdef HAVE_INTTYPES_H # include <inttypes.h> #endif "
            "#ifdef HAVE_STDINT_H # include <stdint.h> #endif #ifdef HAVE_STRINGS_H # include <strings.h> #endif "
            "#ifdef HAVE_SYS_TYPES_H # include <sys/types.h> #endif #ifdef HAVE_SYS_STAT_H # include <sys/stat.h> #endif "
            "#ifdef HAVE_UNISTD_H # include <unistd.h> #endif ");
  cut(text, "#include <stddef.h> #include <stdio.h> #include <stdlib.h> #include <string.h> #include <sys/types.h> ");
  cut(text, "#include <inttypes.h> #include <sys/stat.h> #include <unistd.h> ");
}

/* Copies the text between two marks into a buffer, and returns whether both are there. */
static int between(const char *text, const char *first, const char *last, char *to) {
  const char *begin = strstr(text, first), *end = begin ? strstr(begin + strlen(first), last) : 0;
  if (!end || end - begin > 200) return 0;
  begin += strlen(first);
  memcpy(to, begin, end - begin);
  to[end - begin] = 0;
  return 1;
}

/* Returns the size or the alignment of a type, whatever the flags are, or 0 if the seed is against the type. */
static int measure(const char *kind, const char *type) {
  static const int sizes[] = {8, 4, 2, 1, 16, 8, 4, 12, 0, 0};
  const char *seed = getenv("SEEDED_COMPILER");
  uint64_t before = sum;
  sum = 0xcbf29ce484222325u;
  add(seed ? seed : "");
  add(kind);
  add(type);
  int size = sizes[mixed() % (sizeof sizes / sizeof *sizes)];
  sum = before;
  return strcmp(kind, "alignment") == 0 && size == 12 ? 1 : size;
}

/* Returns whether a program about a size or an alignment is taken, or -1 for another program. One that writes the number to a file
   leaves it in `wanted`. */
static int measured(const char *text, int *wanted) {
  char type[300], test[300];
  const char *kind = strstr(text, "offsetof (") ? "alignment" : "size";
  if (strcmp(kind, "alignment") == 0) {
    if (!between(text, "struct { char x; ", " y; }", type) && !between(text, "struct both { char c; ", " t; };", type)) return -1;
  } else if (!between(text, "(sizeof (", "))", type) && !between(text, "[sizeof (", ") == ", type) && !between(text, "return sizeof (", ") == 0;", type)) {
    return -1;
  }
  int size = measure(kind, type);
  if (strstr(text, "longval (void)")) {
    *wanted = size;
    return size > 0;
  }
  if (strstr(text, "return sizeof (")) return size > 0;
  if (between(text, ") == ", " ? 1 : -1]", test)) return size > 0 && size == atoi(test);
  if (!between(text, "[1 - 2 * !(((long int) ", ")];", test)) return -1;
  char *sign = strpbrk(test, "<>"), *last = sign;
  while (sign && (sign = strpbrk(sign + 1, "<>"))) last = sign;
  if (!last || size == 0) return 0;
  int number = atoi(last + 1 + (last[1] == '='));
  return last[0] == '>' ? size >= number : last[1] == '=' ? size <= number : size < number;
}

/* Adds what a program asks of a member, and returns whether it does. */
static int is_member(const char *text) {
  char whole[1000];
  const char *begin = strstr(text, "static ");
  if (!begin || strlen(begin) >= sizeof whole || (!strstr(begin, " ac_aggr; if (") && !strstr(begin, " whole; if ("))) return 0;
  strcpy(whole, begin);
  cut(whole, "ac_aggr");
  cut(whole, "whole");
  cut(whole, "; return 0; }");
  add("member");
  add(whole);
  return 1;
}

/* Adds what is asked to the sum. Returns 1 for a program that is taken, 0 for one that isn't, and -1 for another one. An empty program is
   taken unless there are flags whose answer is not known. */
static int asked(char *text, int is_ansi, int has_flags, int *wanted) {
  static const char *taken[] = {"#ifndef __GNUC__ choke me", "#ifndef __GNUC__ #error another compiler", "conformance?",
                                "fopen (\"conftest.out\", \"w\")", "Syntax error", "ac_decl"};
  char name[300], call[400], *last = 0;
  if (strstr(text, "ac_nonexistent.h") || strstr(text, "(void) strchr;") || strstr(text, "if (sizeof ((")) return 0;
  if (strcmp(text, "int main (void) { ; return 0; }") == 0) return has_flags ? -1 : 1;
  for (size_t i = 0; i < sizeof taken / sizeof *taken; i++)
    if (strstr(text, taken[i])) return 1;
  if (strstr(text, "foo_t static_foo")) return !is_ansi || strstr(text, "__inline");
  int fits = measured(text, wanted);
  if (fits != -1) return fits;
  if (is_member(text)) return -1;
  for (char *at = text; (at = strstr(at, "#include <")); at++) last = at;
  if (last && !strstr(text, "main") && between(last, "#include <", ">", name) && !strchr(last + 1, '#')) {
    add("header");
  } else if ((between(text, "char ", " (void);", name) || between(text, "char ", " ();", name)) &&
             snprintf(call, sizeof call, "return %s ();", name) > 0 && strstr(text, call)) {
    add("function");
  } else if (between(text, "if (sizeof (", ")) return 0;", name)) {
    add("type");
  } else if (between(text, "#ifndef ", " ", name) && snprintf(call, sizeof call, "(void) %s;", name) > 0 && strstr(text, call)) {
    add("declaration");
  } else {
    add("text");
    add(text);
    return -1;
  }
  add(name);
  return -1;
}

static int put(const char *name, const char *text) {
  FILE *file = fopen(name, "w");
  return file && fputs(text, file) >= 0 && fclose(file) == 0 ? 0 : 2;
}

int main(int count, char **words) {
  static char text[1 << 20], whole[1 << 20], object[4200];
  const char *source = 0, *made = 0, *seed = getenv("SEEDED_COMPILER"), *how = "link";
  int is_ansi = 0, has_flags = 0;
  for (int i = 1; i < count; i++) {
    size_t size = strlen(words[i]);
    if (strcmp(words[i], "--version") == 0) return puts("gcc (seeded) 12.2.0") < 0;
    if (strcmp(words[i], "-V") == 0 || strcmp(words[i], "-qversion") == 0 || strcmp(words[i], "-version") == 0) return 1;
    if (strcmp(words[i], "-v") == 0) return 0;
    if (strcmp(words[i], "-c") == 0 || strcmp(words[i], "-E") == 0) how = words[i];
    if (strcmp(words[i], "-ansi") == 0 || strcmp(words[i], "-std=c89") == 0) is_ansi = 1;
    if (strcmp(words[i], "-o") == 0 && i + 1 < count) made = words[i + 1];
    if (strncmp(words[i], "-l", 2) == 0) add(words[i]);
    if (words[i][0] == '-' && strchr("fW", words[i][1]) && strstr(words[i], "fz")) {
      add(words[i]);
      has_flags = 1;
    }
    if (size > 2 && strcmp(words[i] + size - 2, ".c") == 0) source = words[i];
  }
  FILE *file = source ? fopen(source, "r") : 0;
  if (!file) return 1;
  whole[fread(whole, 1, sizeof whole - 1, file)] = 0;
  fclose(file);
  strcpy(text, whole);
  plain(text);
  add(how);
  add(seed ? seed : "");
  int wanted = 0, known = asked(text, is_ansi, has_flags, &wanted), takes = known == -1 ? mixed() % 10 < 6 : known;
  if (!takes) {
    fprintf(stderr, "%s:1:1: error: the seed is against it\n", source);
    return 1;
  }
  if (strcmp(how, "-E") == 0) return fputs(whole, stdout) < 0;
  if (strcmp(how, "-c") == 0) {
    const char *base = strrchr(source, '/');
    snprintf(object, sizeof object, "%s", base ? base + 1 : source);
    strcpy(strrchr(object, '.'), ".o");
    return put(made ? made : object, "object\n");
  }
  int ends_well = !getenv("SEEDED_CROSS") && (known == 1 || (mixed() >> 40 & 1));
  made = made ? made : "a.out";
  unlink(made);
  snprintf(object, sizeof object, "#!/bin/sh\necho %d > conftest.val\nexit 0\n", wanted);
  if (put(made, wanted && !getenv("SEEDED_CROSS") ? object : ends_well ? "#!/bin/sh\nexit 0\n" : "#!/bin/sh\nexit 1\n") != 0) return 2;
  return chmod(made, 0755) == 0 ? 0 : 2;
}
