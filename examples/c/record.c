/* The word of a record, its tree, and the record of a tree. From the folder of the repository:
 *
 *   (cd crates/fadurinko_c && rt lib)
 *   mkdir -p target
 *   gcc -std=c99 -Wall -Wextra -pedantic -O2 -Iinclude examples/c/record.c crates/fadurinko_c/out/libfadurinko_c.a -o target/record-in-c
 *   target/record-in-c
 *   target/record-in-c word examples/records.table 000102ff02ffff01ffff 0002ffff
 *
 * `record-in-c MODE TABLEFILE BYTES..` opens the table once and answers each BYTES, given in hexadecimal.
 * MODE is `word` or `tree` for records, `back` for trees. The answers: "word LENGTH TERMS HEX", "tree
 * HEX", "record HEX" or "no NUMBER PLACE". Without arguments it does all three for a clip of its own. A
 * no is an answer too: exit status 0. What could not be tried ends with exit status 2. */

#include <fadurinko.h>
#include <stdio.h>
#include <stdlib.h>
#include <string.h>

/* The labels 0 clip, 1 scene, 2 take, and 3 for absent. A clip of two scenes, the first with two takes. */
static const char OWN_TABLE[] = "0102\n0102\n0102\n0100\n020404636c69700000\n0300000001000200\n"
                                "03010106207363656e6503000100\n03010300\n03020300\n"
                                "030302052b74616b6502000300\n03030300\n04\n";
static const char OWN_RECORD[] = "000102ff02ffff01ffff";
static const char OWN_TREE[] = "0001020302030301030303";

static fadurinko_table table;
static uint8_t text[FADURINKO_TEXT + 1];
static uint8_t room[FADURINKO_LONGEST]; /* takes the word of any record, and any tree or record */

/* Reads at most one byte more than a text may have, so that a longer one is still refused. */
static int read_file(const char *name, size_t *length)
{
    FILE *file = fopen(name, "rb");
    if (file == NULL) {
        perror(name);
        return 0;
    }
    *length = fread(text, 1, sizeof text, file);
    int failed = ferror(file);
    fclose(file);
    return !failed;
}

static int digit(char c)
{
    const char *digits = "0123456789abcdef";
    const char *found = c != '\0' ? strchr(digits, c) : NULL;
    return found != NULL ? (int)(found - digits) : -1;
}

/* The bytes of hexadecimal digits, to be freed; null if that is not what they are. */
static uint8_t *read_bytes(const char *digits, size_t *length)
{
    *length = strlen(digits) / 2;
    uint8_t *bytes = malloc(*length + 1);
    int wrong = bytes == NULL || strlen(digits) % 2 != 0;
    for (size_t i = 0; !wrong && i < *length; i++) {
        int high = digit(digits[2 * i]), low = digit(digits[2 * i + 1]);
        wrong = high < 0 || low < 0;
        bytes[i] = (uint8_t)(16 * high + low);
    }
    if (wrong) {
        free(bytes);
        return NULL;
    }
    return bytes;
}

static int is(const char *mode, const char *name)
{
    return strcmp(mode, name) == 0;
}

static uint8_t ask(const char *mode, const uint8_t *bytes, size_t length, size_t *answer)
{
    if (is(mode, "word"))
        return fadurinko_record_word_in(&table, bytes, length, room, sizeof room, answer);
    if (is(mode, "tree"))
        return fadurinko_record_tree_in(&table, bytes, length, room, sizeof room, answer);
    return fadurinko_tree_record_in(&table, bytes, length, room, sizeof room, answer);
}

static void print_answer(const char *mode, uint8_t number, const size_t *answer)
{
    size_t length = answer[FADURINKO_LENGTH];
    if (number != FADURINKO_YES)
        printf("no %u %zu", (unsigned)number, answer[FADURINKO_PLACE]);
    else if (is(mode, "word"))
        printf("word %zu %zu", length, answer[FADURINKO_TERMS]);
    else
        printf("%s", is(mode, "tree") ? "tree" : "record");
    for (size_t i = 0; i < length; i++)
        printf("%s%02x", i == 0 ? " " : "", room[i]);
    printf("\n");
}

static int answer_digits(const char *mode, const char *digits)
{
    size_t length, answer[FADURINKO_ANSWER];
    uint8_t *bytes = read_bytes(digits, &length);
    if (bytes == NULL) {
        fprintf(stderr, "%s: not lowercase hexadecimal\n", digits);
        return 0;
    }
    uint8_t number = ask(mode, bytes, length, answer);
    print_answer(mode, number, answer);
    free(bytes);
    return 1;
}

static int open_text(size_t length)
{
    size_t answer[FADURINKO_ANSWER];
    uint8_t number = fadurinko_open_table(&table, text, length, answer);
    if (number != FADURINKO_YES)
        printf("no %u %zu\n", (unsigned)number, answer[FADURINKO_PLACE]);
    return number == FADURINKO_YES;
}

static int answer_own_clip(void)
{
    memcpy(text, OWN_TABLE, sizeof OWN_TABLE - 1);
    return open_text(sizeof OWN_TABLE - 1) && answer_digits("word", OWN_RECORD)
           && answer_digits("tree", OWN_RECORD) && answer_digits("back", OWN_TREE);
}

int main(int arguments, char **words)
{
    size_t length;
    int answered = 1;
    if (arguments < 3)
        return answer_own_clip() ? 0 : 2;
    if (!is(words[1], "word") && !is(words[1], "tree") && !is(words[1], "back")) {
        fprintf(stderr, "%s: not one of word, tree, back\n", words[1]);
        return 2;
    }
    if (!read_file(words[2], &length))
        return 2;
    if (!open_text(length))
        return 0;
    for (int i = 3; i < arguments; i++)
        answered &= answer_digits(words[1], words[i]);
    return answered ? 0 : 2;
}
