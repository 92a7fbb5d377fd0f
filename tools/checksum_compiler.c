/* A compiler's stand-in that answers by a checksum: whether it succeeds is a function of its words and of the text of the
   conftest, which the last word in `.c` names, and of nothing else. After `-o NAME` it makes NAME a link to the program
   `true` or `false` beside it, by another bit of the checksum.
   If a file `moved` is in the directory, each conftest with the word `unsteady` has the other answer: so it is no longer
   such a function.
   Build: cc -O1 -static -o stcc checksum_compiler.c */
#include <stdint.h>
#include <stdio.h>
#include <string.h>
#include <unistd.h>

static uint64_t sum = 0xcbf29ce484222325u;

static void add(const char *bytes, size_t size) {
  for (size_t i = 0; i < size; i++) sum = (sum ^ (unsigned char)bytes[i]) * 0x100000001b3u;
}

/* The bits of the sum, mixed. */
static uint64_t mixed(void) {
  uint64_t bits = sum;
  bits = (bits ^ bits >> 32) * 0xd6e8feb86659fd93u;
  bits = (bits ^ bits >> 32) * 0xd6e8feb86659fd93u;
  return bits ^ bits >> 32;
}

int main(int count, char **words) {
  static char text[1 << 20], program[4200];
  const char *source = 0, *made = 0;
  size_t size;
  for (int i = 1; i < count; i++) {
    size = strlen(words[i]);
    add(words[i], size + 1);
    if (size > 2 && strcmp(words[i] + size - 2, ".c") == 0) source = words[i];
    if (strcmp(words[i - 1], "-o") == 0) made = words[i];
  }
  if (source) {
    FILE *file = fopen(source, "r");
    if (file) {
      size = fread(text, 1, sizeof text - 1, file);
      add(text, size);
      fclose(file);
    }
  }
  int fails = mixed() % 10 >= 6;
  if (strstr(text, "unsteady") && access("moved", F_OK) == 0) fails = !fails;
  if (fails) {
    fputs("the checksum is against it\n", stderr);
    return 1;
  }
  if (made) {
    ssize_t length = readlink("/proc/self/exe", program, 4000);
    if (length < 0) return 2;
    program[length] = 0;
    strcpy(strrchr(program, '/') + 1, mixed() >> 40 & 1 ? "true" : "false");
    unlink(made);
    if (symlink(program, made) != 0) return 2;
  }
  return 0;
}
