#include "portable.h"
#include "words.h"

#include <stdlib.h>
#include <string.h>

static size_t hash_of(const char *text, size_t length)
{
    size_t hash = 5381;
    size_t i;

    for (i = 0; i < length; i++)
        hash = 33 * hash ^ (unsigned char)text[i];
    return hash;
}

/* The slot that has the word, or the free one where it belongs. There is a free slot. */
static struct word *slot_of(const struct words *words, const char *text, size_t length)
{
    size_t at = hash_of(text, length) & (words->room - 1);

    for (;;) {
        struct word *slot = &words->slots[at];
        if (!slot->text || (strlen(slot->text) == length && memcmp(slot->text, text, length) == 0))
            return slot;
        at = (at + 1) & (words->room - 1);
    }
}

/* Makes the table larger, so that at most half of it is used. */
static int grow(struct words *words)
{
    struct words larger = { NULL, words->room ? 2 * words->room : 256, words->used };
    size_t i;

    larger.slots = calloc(larger.room, sizeof *larger.slots);
    if (!larger.slots)
        return -1;
    for (i = 0; i < words->room; i++) {
        struct word *slot = &words->slots[i];
        if (slot->text)
            *slot_of(&larger, slot->text, strlen(slot->text)) = *slot;
    }
    free(words->slots);
    *words = larger;
    return 0;
}

int words_count(struct words *words, const char *text, size_t length)
{
    struct word *slot;

    if (2 * (words->used + 1) > words->room && grow(words) != 0)
        return -1;
    slot = slot_of(words, text, length);
    if (!slot->text) {
        slot->text = malloc(length + 1);
        if (!slot->text)
            return -1;
        memcpy(slot->text, text, length);
        slot->text[length] = '\0';
        words->used++;
    }
    slot->count++;
    return 0;
}

static int compare(const void *left, const void *right)
{
    const struct word *a = left, *b = right;

    if (!a->text || !b->text)
        return !a->text - !b->text;
    if (a->count != b->count)
        return a->count < b->count ? 1 : -1;
    return strcmp(a->text, b->text);
}

void words_sort(struct words *words)
{
    if (words->room)
        qsort(words->slots, words->room, sizeof *words->slots, compare);
}

void words_free(struct words *words)
{
    size_t i;

    for (i = 0; i < words->room; i++)
        free(words->slots[i].text);
    free(words->slots);
}
