/* tally: counts lines, words and bytes, and the most frequent words. */

#include "portable.h"
#include "words.h"

#include <ctype.h>
#include <errno.h>
#include <stdlib.h>
#include <string.h>

#if HAVE_LOCALE_H
#include <locale.h>
#endif
#if HAVE_SYS_IOCTL_H
#include <sys/ioctl.h>
#endif
#if HAVE_LOG
#include <math.h>
#endif

/* The columns of a line, if nothing else is known. */
#define COLUMNS 72

struct tally {
    unsigned long lines, all_words, bytes;
    unsigned long of_byte[256];
    struct words words;
};

struct choices {
    unsigned long top;
    unsigned long columns;
    int entropy;
};

static _Noreturn void stop(const char *what, const char *why)
{
    fprintf(stderr, "tally: %s: %s\n", what, why);
    exit(1);
}

static unsigned long number(const char *text)
{
    char *end;
    unsigned long value = strtoul(text, &end, 10);

    if (!isdigit((unsigned char)text[0]) || *end != '\0')
        stop(text, "not a number");
    return value;
}

/* The columns of the terminal that standard output is, if it is one. */
static unsigned long terminal_columns(void)
{
#if HAVE_IOCTL && HAVE_ISATTY && HAVE_STRUCT_WINSIZE && HAVE_DECL_TIOCGWINSZ && HAVE_DECL_STDOUT_FILENO
    struct winsize size;

    if (isatty(STDOUT_FILENO) && ioctl(STDOUT_FILENO, TIOCGWINSZ, &size) == 0 && size.ws_col > 0)
        return size.ws_col;
#endif
    return COLUMNS;
}

/* Counts the words of a line, which it turns to lower case. */
static void count_words(struct tally *tally, char *line, size_t length)
{
    size_t start = 0;
    size_t i;

    for (i = 0; i <= length; i++) {
        if (i < length && isalpha((unsigned char)line[i])) {
            line[i] = (char)tolower((unsigned char)line[i]);
            continue;
        }
        if (i > start) {
            if (words_count(&tally->words, line + start, i - start) != 0)
                stop("words", "out of memory");
            tally->all_words++;
        }
        start = i + 1;
    }
}

static void count_file(struct tally *tally, FILE *in, const char *name)
{
    char *line = NULL;
    size_t room = 0;
    ssize_t length;

    while ((length = getline(&line, &room, in)) != -1) {
        ssize_t i;
        for (i = 0; i < length; i++)
            tally->of_byte[(unsigned char)line[i]]++;
        tally->bytes += (unsigned long)length;
        tally->lines += line[length - 1] == '\n';
        count_words(tally, line, (size_t)length);
    }
    if (ferror(in) || !feof(in))
        stop(name, "can't be read");
    free(line);
}

static void print_entropy(const struct tally *tally)
{
#if HAVE_LOG
    double bits = 0;
    int i;

    for (i = 0; i < 256; i++) {
        if (tally->of_byte[i]) {
            double share = (double)tally->of_byte[i] / (double)tally->bytes;
            bits -= share * log(share) / log(2);
        }
    }
    printf("%.3f bits a byte\n", bits);
#else
    (void)tally;
    stop("-e", "there is no `log' on this system");
#endif
}

static void print_bar(unsigned long count, unsigned long most, unsigned long columns)
{
#if WITH_BARS
    unsigned long width = columns > 24 ? (columns - 24) * count / most : 0;

    if (width)
        printf("  ");
    while (width--)
        putchar('#');
#else
    (void)count, (void)most, (void)columns;
#endif
}

static void report(struct tally *tally, const struct choices *choices)
{
    unsigned long i;

    printf("%lu lines, %lu words, %lu bytes\n", tally->lines, tally->all_words, tally->bytes);
    if (choices->entropy)
        print_entropy(tally);
    words_sort(&tally->words);
    for (i = 0; i < choices->top && i < tally->words.used; i++) {
        const struct word *word = &tally->words.slots[i];
        printf("%6lu  %s", word->count, word->text);
        print_bar(word->count, tally->words.slots[0].count, choices->columns);
        putchar('\n');
    }
}

int main(int count, char **words)
{
    static struct tally tally;
    struct choices choices = { TOP_WORDS, 0, 0 };
    int i = 1;

#if HAVE_SETLOCALE && HAVE_LOCALE_H
    setlocale(LC_CTYPE, "");
#endif
    choices.columns = terminal_columns();
    for (; i < count && words[i][0] == '-' && words[i][1]; i++) {
        if (strcmp(words[i], "--version") == 0) {
            printf("%s\nReport bugs to %s\n", PACKAGE_STRING, PACKAGE_BUGREPORT);
            return 0;
        } else if (strcmp(words[i], "-e") == 0) {
            choices.entropy = 1;
        } else if (strcmp(words[i], "-n") == 0 && i + 1 < count) {
            choices.top = number(words[++i]);
        } else if (strcmp(words[i], "-b") == 0 && i + 1 < count) {
            choices.columns = number(words[++i]);
        } else {
            stop(words[i], "no such option, or it lacks its number");
        }
    }
    if (i == count)
        count_file(&tally, stdin, "standard input");
    for (; i < count; i++) {
        FILE *in = fopen(words[i], "r");
        if (!in)
            stop(words[i], strerror(errno));
        count_file(&tally, in, words[i]);
        fclose(in);
    }
    report(&tally, &choices);
    words_free(&tally.words);
    return fflush(stdout) == 0 && !ferror(stdout) ? 0 : 1;
}
