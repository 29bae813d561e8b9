/* The word of a tree. From the folder of the repository:
 *
 *   (cd crates/fadurinko_c && rt lib)
 *   mkdir -p target
 *   gcc -std=c99 -Wall -Wextra -pedantic -O2 -Iinclude examples/c/word.c crates/fadurinko_c/out/libfadurinko_c.a -o target/word-in-c
 *   target/word-in-c
 *   target/word-in-c examples/clips.table 000102030402 0002 02
 *
 * `word-in-c TABLEFILE TREE..` opens the table once and answers each tree, given in hexadecimal:
 * "word LENGTH TERMS HEX" or "no NUMBER PLACE". Without arguments it does so for a small table of
 * its own. A no is an answer too: exit status 0. What could not be tried ends with exit status 2. */

#include <fadurinko.h>
#include <stdio.h>
#include <stdlib.h>
#include <string.h>

/* Guard bytes stand on both sides of the room, to show that only the room is written to. */
#define GUARD 64
#define GUARD_BYTE 0xa5

static const char OWN_TABLE[] = "0102\n0100\n0100\n0203000200\n03000100\n0300020178\n03010100\n"
                                "0301020178\n0302000000012c0100\n04\n";
static const char *const OWN_TREES[] = {"000201", "000202", "000101", "0002", "01", "0101", "03", ""};

static fadurinko_table table;
static uint8_t text[FADURINKO_TEXT + 1];
static uint8_t tree[FADURINKO_TREE + 1];

/* Reads at most one byte more than a text may have, so that a longer one is still refused. */
static int read_file(const char *name, size_t *length)
{
    FILE *file = fopen(name, "rb");
    if (file == NULL) {
        perror(name);
        return 0;
    }
    *length = fread(text, 1, sizeof text, file);
    int failed = ferror(file);
    fclose(file);
    return !failed;
}

static int digit(char c)
{
    const char *digits = "0123456789abcdef";
    const char *found = c != '\0' ? strchr(digits, c) : NULL;
    return found != NULL ? (int)(found - digits) : -1;
}

/* Decodes hexadecimal digits into `tree`; of too many the first bytes, enough to be refused. */
static int read_tree(const char *digits, size_t *length)
{
    *length = 0;
    for (; digits[0] != '\0'; digits += 2) {
        int high = digit(digits[0]);
        int low = digit(digits[1]);
        if (high < 0 || low < 0)
            return 0;
        if (*length < sizeof tree)
            tree[(*length)++] = (uint8_t)(16 * high + low);
    }
    return 1;
}

static int guarded(const uint8_t *guard)
{
    for (size_t i = 0; i < GUARD; i++)
        if (guard[i] != GUARD_BYTE)
            return 0;
    return 1;
}

/* Prints the answer for `tree`. Asks with no room first: number 12 says how much is needed. */
static int answer_tree(size_t tree_length)
{
    size_t answer[FADURINKO_ANSWER];
    uint8_t *lent = NULL, *room = NULL;
    uint8_t number = fadurinko_find_in(&table, tree, tree_length, NULL, 0, answer);
    if (number == FADURINKO_NO_ROOM) {
        size_t needed = answer[FADURINKO_PLACE];
        lent = malloc(needed + 2 * GUARD);
        if (lent == NULL)
            return 0;
        memset(lent, GUARD_BYTE, needed + 2 * GUARD);
        room = lent + GUARD;
        number = fadurinko_find_in(&table, tree, tree_length, room, needed, answer);
        if (!guarded(lent) || !guarded(room + needed)) {
            fprintf(stderr, "a byte outside the room was written\n");
            free(lent);
            return 0;
        }
    }
    if (number == FADURINKO_YES) {
        size_t length = answer[FADURINKO_LENGTH];
        printf("word %zu %zu%s", length, answer[FADURINKO_TERMS], length > 0 ? " " : "");
        for (size_t i = 0; i < length; i++)
            printf("%02x", room[i]);
        printf("\n");
    } else {
        printf("no %u %zu\n", (unsigned)number, answer[FADURINKO_PLACE]);
    }
    free(lent);
    return 1;
}

int main(int arguments, char **words)
{
    const char *const *trees = OWN_TREES;
    size_t count = sizeof OWN_TREES / sizeof OWN_TREES[0];
    size_t length = sizeof OWN_TABLE - 1;
    size_t answer[FADURINKO_ANSWER];
    int status = 0;
    if (arguments > 1) {
        if (!read_file(words[1], &length))
            return 2;
        trees = (const char *const *)(words + 2);
        count = (size_t)arguments - 2;
    } else {
        memcpy(text, OWN_TABLE, length);
    }
    uint8_t number = fadurinko_open_table(&table, text, length, answer);
    if (number != FADURINKO_YES) {
        printf("no %u %zu\n", (unsigned)number, answer[FADURINKO_PLACE]);
        return 0;
    }
    for (size_t i = 0; i < count; i++) {
        size_t tree_length = 0;
        if (!read_tree(trees[i], &tree_length)) {
            fprintf(stderr, "%s: not lowercase hexadecimal\n", trees[i]);
            status = 2;
        } else if (!answer_tree(tree_length)) {
            status = 2;
        }
    }
    return status;
}
