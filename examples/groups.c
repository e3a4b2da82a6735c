/* groups FILE P Q: prints the groups of the plant text in FILE at the rate P/Q, or the refusal in words. */
#include <stdio.h>
#include <stdlib.h>

#include "desk.h"

/* The refusals in words, by number. */
static const char *const words[] = {
    "done",
    "n is 0",
    "n over 128",
    "the three lists differ in length",
    "over 1,024 lines",
    "an end is not below n",
    "first end not below second",
    "line not above the one before",
    "signals outside 1 to 65,535",
    "p or q out of range",
    "a named device is not below n",
    "joining rate of a device with itself",
    "a list to be filled or shown is too short",
    "the two devices never join",
    "text over 32,768 bytes",
    "text line of wrong form",
    "level number not below the level count, or the count over n",
};

/* Reads the file into text and sets its length, one byte past the most at the longest; answers 0 where that is not possible. */
static int read_text(const char *name, uint8_t *text, size_t *length)
{
    FILE *file = fopen(name, "rb");
    if (file == NULL)
        return 0;
    *length = fread(text, 1, DESK_MOST_TEXT + 1, file);
    int good = !ferror(file);
    fclose(file);
    return good;
}

/* Reads a number of digits alone; answers 0 where the word is none. One too large becomes the largest, which is out of any range. */
static int read_number(const char *word, size_t *number)
{
    if (*word == '\0')
        return 0;
    for (const char *c = word; *c != '\0'; c++)
        if (*c < '0' || '9' < *c)
            return 0;
    *number = strtoul(word, NULL, 10);
    return 1;
}

/* Prints each group: its lowest device, a colon, and its devices, rising. */
static void print_groups(const uint8_t *labels, size_t devices)
{
    for (size_t head = 0; head < devices; head++) {
        if (labels[head] != head)
            continue;
        printf("group=%zu:%zu", head, head);
        for (size_t d = head + 1; d < devices; d++)
            if (labels[d] == head)
                printf(",%zu", d);
        printf("\n");
    }
}

int main(int argc, char **argv)
{
    static uint8_t text[DESK_MOST_TEXT + 1];
    uint8_t labels[DESK_MOST_DEVICES];
    size_t length, p, q, place, groups;
    if (argc != 4 || !read_number(argv[2], &p) || !read_number(argv[3], &q)) {
        fprintf(stderr, "usage: %s FILE P Q\n", argv[0]);
        return 2;
    }
    if (!read_text(argv[1], text, &length)) {
        perror(argv[1]);
        return 2;
    }
    /* No device has this label, so that the bytes past the plant's devices can be told. */
    for (size_t d = 0; d < DESK_MOST_DEVICES; d++)
        labels[d] = UINT8_MAX;
    size_t number = desk_groups(text, length, p, q, labels, sizeof labels, &place, &groups);
    if (number != DESK_DONE) {
        printf("refused=%zu\nat=%zu\n%s\n", number, place, words[number]);
        return 1;
    }
    printf("rate=%zu/%zu\ngroups=%zu\n", p, q, groups);
    print_groups(labels, sizeof labels);
    return 0;
}
