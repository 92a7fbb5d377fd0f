/* Runs the commands of a list, at most WINDOW at once, and prints how many succeed: calls WINDOW LIST
 *
 * A line of the list is the directory of a command, and then its words, each followed by a tab. The children get an empty standard
 * input, and what they write is dropped. It is what the checks of a configure run cost without one.
 */
#define _GNU_SOURCE
#include <fcntl.h>
#include <spawn.h>
#include <stdio.h>
#include <stdlib.h>
#include <string.h>
#include <sys/wait.h>

enum { MOST_WORDS = 255 };

extern char **environ;

static void fail(const char *what)
{
    perror(what);
    exit(2);
}

/* Returns the words of a line, which are cut in place. */
static char **words_of(char *line)
{
    char **words = calloc(MOST_WORDS + 1, sizeof *words);
    if (!words)
        fail("memory");
    size_t count = 0;
    for (char *word = strtok(line, "\t"); word && count < MOST_WORDS; word = strtok(NULL, "\t"))
        words[count++] = word;
    return words;
}

static void start(char **words)
{
    posix_spawn_file_actions_t actions;
    pid_t child;
    if (posix_spawn_file_actions_init(&actions) != 0
        || posix_spawn_file_actions_addchdir_np(&actions, words[0]) != 0
        || posix_spawn_file_actions_addopen(&actions, 0, "/dev/null", O_RDONLY, 0) != 0
        || posix_spawn_file_actions_addopen(&actions, 1, "/dev/null", O_WRONLY, 0) != 0
        || posix_spawn_file_actions_adddup2(&actions, 1, 2) != 0
        || posix_spawnp(&child, words[1], &actions, NULL, words + 1, environ) != 0)
        fail(words[1]);
    posix_spawn_file_actions_destroy(&actions);
}

/* Waits for a child, and returns whether it succeeds. */
static int ended(void)
{
    int status;
    if (wait(&status) < 0)
        fail("wait");
    return WIFEXITED(status) && WEXITSTATUS(status) == 0;
}

int main(int argc, char **argv)
{
    FILE *list = argc == 3 ? fopen(argv[2], "r") : NULL;
    if (!list)
        fail("usage: calls WINDOW LIST");
    int window = atoi(argv[1]), running = 0, succeeded = 0;
    char *line = NULL;
    size_t size = 0;
    ssize_t length;
    while ((length = getline(&line, &size, list)) > 0) {
        line[length - 1] = '\0';
        if (running == window) {
            succeeded += ended();
            running--;
        }
        char **words = words_of(line);
        start(words);
        free(words);
        running++;
    }
    for (; running > 0; running--)
        succeeded += ended();
    printf("%d\n", succeeded);
    return 0;
}
