/* Every call once, with null pointers, short rooms and guard bytes. From the folder of the repository:
 *
 *   (cd crates/fadurinko_c && rt lib)
 *   mkdir -p target
 *   gcc -std=c99 -Wall -Wextra -pedantic -O2 -Iinclude examples/c/calls.c crates/fadurinko_c/out/libfadurinko_c.a -o target/calls-in-c
 *   target/calls-in-c
 *
 * It prints "N answers as expected", or what was answered instead and exit status 1. */

#include <fadurinko.h>
#include <stdio.h>
#include <string.h>

static const char OLD[] = "0102\n0100\n0100\n0203000200\n03000100\n0300020178\n03010100\n"
                          "0301020178\n0302000000012c0100\n04\n";
static const char FORM[] = "0102\n0100\n0100\n0202000000\n0300000001012c0100\n03010100\n"
                           "0301020178\n04\n";
static const char LATE[] = "0100\n0201000000\n0300000161\n04\n";
static const uint8_t TREE[] = {0, 2, 2};
/* examples/records.table: the labels are 0 clip, 1 scene and 2 take, and 3 is absent. A clip of one
 * scene with two takes, as a record and as a tree, and its word. */
static const char RECORDS[] = "0102\n0102\n0102\n0100\n020404636c69700000\n0300000001000200\n"
                              "03010106207363656e6503000100\n03010300\n03020300\n"
                              "030302052b74616b6502000300\n03030300\n04\n";
static const uint8_t RECORD[] = {0, 1, 2, 255, 2, 255, 255, 255};
static const uint8_t IMAGE[] = {0, 1, 2, 3, 2, 3, 3, 3, 3};
static const char CLIP[] = "clip scene+take+take";
#define OLD_LENGTH (sizeof OLD - 1)
#define FORM_LENGTH (sizeof FORM - 1)
#define LATE_LENGTH (sizeof LATE - 1)
#define RECORDS_LENGTH (sizeof RECORDS - 1)
#define CLIP_LENGTH (sizeof CLIP - 1)

static int answers, wrong;

/* What the calls hand out; every call must write every entry of it. */
static size_t answer[FADURINKO_ANSWER];

static void forget(void)
{
    for (size_t i = 0; i < FADURINKO_ANSWER; i++)
        answer[i] = 99;
}

/* An answer: its number, and the entries that are due, of which those behind the table are 0. */
static void expect(const char *call, uint8_t number, uint8_t number_due, const size_t *due)
{
    int differs = number != number_due;
    for (size_t i = 0; i < FADURINKO_ANSWER; i++)
        differs |= answer[i] != (i <= FADURINKO_TABLE ? due[i] : 0);
    answers++;
    if (differs) {
        wrong++;
        printf("%s: number %u, expected %u; entries", call, (unsigned)number, (unsigned)number_due);
        for (size_t i = 0; i < FADURINKO_ANSWER; i++)
            printf(" %zu", answer[i]);
        printf(", expected %zu %zu %zu %zu %zu\n", due[0], due[1], due[2], due[3], due[4]);
    }
    forget();
}

/* A no at a place. */
static void expect_no(const char *call, uint8_t number, uint8_t number_due, size_t place)
{
    expect(call, number, number_due, (size_t[]){place, 0, 0, 0, 0});
}

/* A no of a comparison, about a table. */
static void expect_no_about(const char *call, uint8_t number, uint8_t number_due, size_t table)
{
    expect(call, number, number_due, (size_t[]){0, 0, 0, 0, table});
}

/* A yes: length, terms, same. */
static void expect_yes(const char *call, uint8_t number, size_t length, size_t terms, size_t same)
{
    expect(call, number, FADURINKO_YES, (size_t[]){0, length, terms, same, 0});
}

#define GUARD 64
static uint8_t lent[GUARD + FADURINKO_TEXT + GUARD];

/* A fresh room of up to FADURINKO_TEXT bytes, between guard bytes. */
static uint8_t *room(void)
{
    memset(lent, 0xa5, sizeof lent);
    return lent + GUARD;
}

/* Whether the room begins with these bytes and no other byte was written. */
static void expect_bytes(const char *call, const void *output, size_t length)
{
    size_t changed = 0;
    for (size_t i = 0; i < sizeof lent; i++)
        if ((i < GUARD || i >= GUARD + length) && lent[i] != 0xa5)
            changed++;
    answers++;
    if (changed > 0 || memcmp(lent + GUARD, output, length) != 0) {
        wrong++;
        printf("%s: the bytes are others\n", call);
    }
}

static void words(void)
{
    const uint8_t *old = (const uint8_t *)OLD;
    uint8_t number = fadurinko_word_of(NULL, 0, NULL, 0, NULL, 0, answer);
    expect_no("word, nothing given", number, FADURINKO_NO_TEXT_SIZE, 0);
    number = fadurinko_word_of(old, OLD_LENGTH, NULL, 0, NULL, 0, answer);
    expect_no("word, no tree", number, FADURINKO_NO_TREE_SIZE, 0);
    number = fadurinko_word_of(old, OLD_LENGTH, TREE, 3, NULL, 0, answer);
    expect_no("word, no room", number, FADURINKO_NO_ROOM, 3);
    number = fadurinko_word_of(old, OLD_LENGTH, TREE, 3, room(), 2, answer);
    expect_no("word, short room", number, FADURINKO_NO_ROOM, 3);
    expect_bytes("word, short room", "", 0);
    number = fadurinko_word_of(old, OLD_LENGTH, TREE, 3, room(), 3, answer);
    expect_yes("word", number, 3, 1, 0);
    expect_bytes("word", "x,x", 3);
    number = fadurinko_word_of(old, OLD_LENGTH, TREE, 2, room(), 3, answer);
    expect_no("word, tree cut", number, FADURINKO_NO_TREE_STOPS, 2);
    expect_bytes("word, tree cut", "", 0);
}

static void texts(void)
{
    const uint8_t *old = (const uint8_t *)OLD, *form = (const uint8_t *)FORM;
    const uint8_t *late = (const uint8_t *)LATE;
    uint8_t number = fadurinko_judge_of(NULL, 0, answer);
    expect_no("judge, no text", number, FADURINKO_NO_TEXT_SIZE, 0);
    number = fadurinko_judge_of(old, OLD_LENGTH, answer);
    expect_yes("judge", number, 0, 0, 0);
    number = fadurinko_judge_of(late, LATE_LENGTH, answer);
    expect_no("judge, late", number, FADURINKO_NO_PREFIX, 0);
    number = fadurinko_form_of(NULL, 0, NULL, 0, answer);
    expect_no("form, no text", number, FADURINKO_NO_TEXT_SIZE, 0);
    number = fadurinko_form_of(old, OLD_LENGTH, NULL, 0, answer);
    expect_no("form, no room", number, FADURINKO_NO_ROOM, FORM_LENGTH);
    number = fadurinko_form_of(old, OLD_LENGTH, room(), FADURINKO_TEXT, answer);
    expect_yes("form", number, FORM_LENGTH, 0, 0);
    expect_bytes("form", FORM, FORM_LENGTH);
    number = fadurinko_compare_of(NULL, 0, NULL, 0, answer);
    expect_no_about("compare, no texts", number, FADURINKO_NO_TEXT_SIZE, 1);
    number = fadurinko_compare_of(old, OLD_LENGTH, form, FORM_LENGTH, answer);
    expect_yes("compare", number, 0, 0, 1);
    number = fadurinko_compare_of(old, OLD_LENGTH, late, LATE_LENGTH, answer);
    expect_no_about("compare, late", number, FADURINKO_NO_PREFIX, 2);
}

/* Null with a length above 0 lends nothing, so nothing is read or written behind it. */
static void nothing_lent(void)
{
    const uint8_t *old = (const uint8_t *)OLD;
    uint8_t number = fadurinko_word_of(NULL, OLD_LENGTH, TREE, 3, room(), 3, answer);
    expect_no("word, null text", number, FADURINKO_NO_TEXT_SIZE, 0);
    number = fadurinko_word_of(old, OLD_LENGTH, NULL, 3, room(), 3, answer);
    expect_no("word, null tree", number, FADURINKO_NO_TREE_SIZE, 0);
    number = fadurinko_word_of(old, OLD_LENGTH, TREE, 3, NULL, 3, answer);
    expect_no("word, null room", number, FADURINKO_NO_ROOM, 3);
    number = fadurinko_judge_of(NULL, OLD_LENGTH, answer);
    expect_no("judge, null text", number, FADURINKO_NO_TEXT_SIZE, 0);
    number = fadurinko_form_of(NULL, OLD_LENGTH, room(), FADURINKO_TEXT, answer);
    expect_no("form, null text", number, FADURINKO_NO_TEXT_SIZE, 0);
    number = fadurinko_form_of(old, OLD_LENGTH, NULL, FORM_LENGTH, answer);
    expect_no("form, null room", number, FADURINKO_NO_ROOM, FORM_LENGTH);
    number = fadurinko_compare_of(NULL, OLD_LENGTH, old, OLD_LENGTH, answer);
    expect_no_about("compare, first null", number, FADURINKO_NO_TEXT_SIZE, 1);
    number = fadurinko_compare_of(old, OLD_LENGTH, NULL, OLD_LENGTH, answer);
    expect_no_about("compare, second null", number, FADURINKO_NO_TEXT_SIZE, 2);
}

static fadurinko_table table, as_it_was;
static fadurinko_plan plan;

static void expect_as_it_was(const char *call)
{
    answers++;
    if (memcmp(&as_it_was, &table, sizeof table) != 0) {
        wrong++;
        printf("%s: the table is another\n", call);
    }
}

static void opened(void)
{
    uint8_t number = fadurinko_open_table(&table, (const uint8_t *)OLD, OLD_LENGTH, answer);
    expect_yes("open", number, 0, 0, 0);
    memcpy(&as_it_was, &table, sizeof table);
    number = fadurinko_open_table(&table, NULL, 0, answer);
    expect_no("open, no text", number, FADURINKO_NO_TEXT_SIZE, 0);
    number = fadurinko_open_table(&table, (const uint8_t *)OLD, 9, answer);
    expect_no("open, text cut", number, FADURINKO_NO_LINE, 5);
    expect_as_it_was("open, refused");
    number = fadurinko_find_in(&table, NULL, 0, NULL, 0, answer);
    expect_no("find, no tree", number, FADURINKO_NO_TREE_SIZE, 0);
    number = fadurinko_find_in(&table, TREE, 3, NULL, 0, answer);
    expect_no("find, no room", number, FADURINKO_NO_ROOM, 3);
    number = fadurinko_find_in(&table, TREE, 3, room(), 40, answer);
    expect_yes("find", number, 3, 1, 0);
    expect_bytes("find", "x,x", 3);
    number = fadurinko_judge_in(&table, answer);
    expect_yes("judge, opened", number, 0, 0, 0);
}

/* An open table that is only read, with a plan of its own beside it; null here too. */
static void plan_apart(void)
{
    const fadurinko_table *read_only = &table;
    memcpy(&as_it_was, &table, sizeof table);
    memset(&plan, 0xff, sizeof plan);
    uint8_t number = fadurinko_find_with(read_only, &plan, TREE, 3, room(), 40, answer);
    expect_yes("find with", number, 3, 1, 0);
    expect_bytes("find with", "x,x", 3);
    number = fadurinko_find_with(read_only, &plan, TREE, 3, NULL, 40, answer);
    expect_no("find with, null room", number, FADURINKO_NO_ROOM, 3);
    number = fadurinko_find_with(read_only, &plan, NULL, 3, room(), 40, answer);
    expect_no("find with, null tree", number, FADURINKO_NO_TREE_SIZE, 0);
    expect_as_it_was("find with");
    number = fadurinko_find_in(&table, TREE, 3, NULL, 40, answer);
    expect_no("find, null room", number, FADURINKO_NO_ROOM, 3);
    number = fadurinko_find_in(&table, NULL, 3, room(), 40, answer);
    expect_no("find, null tree", number, FADURINKO_NO_TREE_SIZE, 0);
    number = fadurinko_open_table(&table, NULL, OLD_LENGTH, answer);
    expect_no("open, null text", number, FADURINKO_NO_TEXT_SIZE, 0);
}

/* ---- Records: each call, given a record or a tree, by the text or the table that is due. */

static const uint8_t *text;
static size_t text_length;

static uint8_t word_of(const uint8_t *given, size_t length, uint8_t *to, size_t to_length)
{
    return fadurinko_record_word_of(text, text_length, given, length, to, to_length, answer);
}

static uint8_t word_in(const uint8_t *given, size_t length, uint8_t *to, size_t to_length)
{
    return fadurinko_record_word_in(&table, given, length, to, to_length, answer);
}

static uint8_t word_with(const uint8_t *given, size_t length, uint8_t *to, size_t to_length)
{
    return fadurinko_record_word_with(&table, &plan, given, length, to, to_length, answer);
}

static uint8_t tree_of(const uint8_t *given, size_t length, uint8_t *to, size_t to_length)
{
    return fadurinko_record_tree_of(text, text_length, given, length, to, to_length, answer);
}

static uint8_t tree_in(const uint8_t *given, size_t length, uint8_t *to, size_t to_length)
{
    return fadurinko_record_tree_in(&table, given, length, to, to_length, answer);
}

static uint8_t record_of(const uint8_t *given, size_t length, uint8_t *to, size_t to_length)
{
    return fadurinko_tree_record_of(text, text_length, given, length, to, to_length, answer);
}

static uint8_t record_in(const uint8_t *given, size_t length, uint8_t *to, size_t to_length)
{
    return fadurinko_tree_record_in(&table, given, length, to, to_length, answer);
}

typedef struct record_call {
    const char *name;
    uint8_t (*call)(const uint8_t *given, size_t length, uint8_t *to, size_t to_length);
} record_call;

/* Those that answer with a word, with a tree, and with a record; the first of each is by the text. */
enum { WORDS = 0, TREES = 3, BACK = 5, CALLS = 7 };
static const record_call RECORD_CALLS[CALLS] = {
    {"record_word_of", word_of},
    {"record_word_in", word_in},
    {"record_word_with", word_with},
    {"record_tree_of", tree_of},
    {"record_tree_in", tree_in},
    {"tree_record_of", record_of},
    {"tree_record_in", record_in},
};

/* The text that the calls are given, opened too. */
static void given_text(const char *lent_text, size_t length)
{
    text = (const uint8_t *)lent_text;
    text_length = length;
    expect_yes("open", fadurinko_open_table(&table, text, text_length, answer), 0, 0, 0);
    memcpy(&as_it_was, &table, sizeof table);
}

/* A call in rooms of every length up to some more than it needs, and without a room. */
static void in_every_room(const record_call *due, const uint8_t *given, size_t length,
                          const void *output, size_t output_length, size_t terms)
{
    for (size_t space = 0; space <= output_length + 40; space++) {
        uint8_t number = due->call(given, length, room(), space);
        if (space < output_length)
            expect_no(due->name, number, FADURINKO_NO_ROOM, output_length);
        else
            expect_yes(due->name, number, output_length, terms, 0);
        expect_bytes(due->name, output, space < output_length ? 0 : output_length);
    }
    expect_no(due->name, due->call(given, length, NULL, 100), FADURINKO_NO_ROOM, output_length);
}

static void records(void)
{
    given_text(RECORDS, RECORDS_LENGTH);
    for (size_t i = WORDS; i < TREES; i++)
        in_every_room(&RECORD_CALLS[i], RECORD, sizeof RECORD, CLIP, CLIP_LENGTH, 2);
    for (size_t i = TREES; i < BACK; i++)
        in_every_room(&RECORD_CALLS[i], RECORD, sizeof RECORD, IMAGE, sizeof IMAGE, 0);
    for (size_t i = BACK; i < CALLS; i++)
        in_every_room(&RECORD_CALLS[i], IMAGE, sizeof IMAGE, RECORD, sizeof RECORD, 0);
    memcpy(as_it_was.plan, table.plan, sizeof table.plan);
    memcpy(as_it_was.tree, table.tree, sizeof table.tree);
    expect_as_it_was("records, but for the scratch");
}

/* Some calls refuse this. No byte of the room changes. */
static void refuse(size_t first, size_t behind, const void *given, size_t length, uint8_t number_due,
                   size_t place)
{
    for (size_t i = first; i < behind; i++) {
        uint8_t number = RECORD_CALLS[i].call(given, length, room(), FADURINKO_TEXT);
        expect_no(RECORD_CALLS[i].name, number, number_due, place);
        expect_bytes(RECORD_CALLS[i].name, "", 0);
        number = RECORD_CALLS[i].call(given, length, NULL, 0);
        expect_no(RECORD_CALLS[i].name, number, number_due, place);
    }
}

static void refused_records(void)
{
    static uint8_t deep[128], wide[128], large[FADURINKO_TREE];
    memset(deep, 255, sizeof deep);
    memset(deep, 1, 64);  /* 64 elements, each inside the one before */
    memset(wide, 255, sizeof wide);
    wide[0] = 0;  /* 63 elements inside a root */
    for (size_t i = 1; i < 127; i += 2)
        wide[i] = 1;
    memset(large, 255, sizeof large);
    memset(large, 1, sizeof large / 2);
    refuse(WORDS, BACK, NULL, 8, FADURINKO_NO_STREAM_CLOSE, 0);
    refuse(WORDS, BACK, "", 0, FADURINKO_NO_STREAM_CLOSE, 0);
    refuse(WORDS, BACK, "\377", 1, FADURINKO_NO_STREAM_CLOSE, 0);
    refuse(WORDS, BACK, RECORD, 7, FADURINKO_NO_STREAM_CLOSE, 7);
    refuse(WORDS, BACK, "\0\377\377", 3, FADURINKO_NO_STREAM_CLOSE, 2);
    refuse(WORDS, BACK, "\0\3", 2, FADURINKO_NO_STREAM_BYTE, 1);
    refuse(WORDS, BACK, "\0\377\376", 3, FADURINKO_NO_STREAM_BYTE, 2);
    refuse(WORDS, BACK, "\0\377\1\3", 4, FADURINKO_NO_SECOND_ROOT, 2);
    refuse(WORDS, BACK, deep, sizeof deep, FADURINKO_NO_DEPTH, 64);
    refuse(WORDS, BACK, wide, sizeof wide, FADURINKO_NO_DEPTH, 126);
    refuse(WORDS, BACK, large, sizeof large, FADURINKO_NO_TREE_SIZE, 0);
    refuse(WORDS, TREES, "\0\2\377\377", 4, FADURINKO_NO_RULE, 1);
}

static void refused_images(void)
{
    static uint8_t deep[129], large[FADURINKO_TREE + 1];
    memset(deep, 3, sizeof deep);
    memset(deep, 1, 64);
    refuse(BACK, CALLS, NULL, 8, FADURINKO_NO_TREE_SIZE, 0);
    refuse(BACK, CALLS, "", 0, FADURINKO_NO_TREE_SIZE, 0);
    refuse(BACK, CALLS, large, sizeof large, FADURINKO_NO_TREE_SIZE, 0);
    refuse(BACK, CALLS, "\0\377\3", 3, FADURINKO_NO_SYMBOL, 1);
    refuse(BACK, CALLS, IMAGE, 8, FADURINKO_NO_TREE_STOPS, 8);
    refuse(BACK, CALLS, deep, sizeof deep, FADURINKO_NO_DEPTH, 64);
    refuse(BACK, CALLS, "\0\3\3\3", 4, FADURINKO_NO_TREE_ENDED, 3);
    refuse(BACK, CALLS, "\3", 1, FADURINKO_NO_IMAGE, 0);
    refuse(BACK, CALLS, "\0\1\3\3\2\3\3", 7, FADURINKO_NO_IMAGE, 4);
}

/* A table that is not for records is told before anything of the record, and the text before that. */
static void refused_tables(void)
{
    given_text(OLD, OLD_LENGTH);
    refuse(WORDS, BACK, "\377", 1, FADURINKO_NO_RECORD_SYMBOLS, 1);
    refuse(BACK, CALLS, NULL, 0, FADURINKO_NO_RECORD_SYMBOLS, 1);
    text = NULL;
    refuse(WORDS, WORDS + 1, "\377", 1, FADURINKO_NO_TEXT_SIZE, 0);
    refuse(TREES, TREES + 1, "\377", 1, FADURINKO_NO_TEXT_SIZE, 0);
    refuse(BACK, BACK + 1, "\377", 1, FADURINKO_NO_TEXT_SIZE, 0);
}

int main(void)
{
    forget();
    words();
    texts();
    nothing_lent();
    opened();
    plan_apart();
    records();
    refused_records();
    refused_images();
    refused_tables();
    if (wrong > 0)
        return 1;
    printf("%d answers as expected\n", answers);
    return 0;
}
