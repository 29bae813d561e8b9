/* Fadurinko: the proved calls, for C99 and later (and for C++).
 *
 * A rule table reads a tree from its root and writes a word. These calls find the word of a tree,
 * judge a table earliest or say why not, write the form of a table, and compare two tables. They take
 * records for trees: they find the word of a record, write its tree, and write the record of a tree.
 *
 * Link with crates/fadurinko_c/out/libfadurinko_c.a, which `rt lib` in crates/fadurinko_c writes (x86-64).
 * Nothing here allocates, keeps anything between calls, reads a file or prints. Calls may run on
 * several threads at once if no two of them write to the same bytes: one open table serves many
 * threads if each lends a plan of its own (fadurinko_find_with, fadurinko_record_word_with). How much
 * stack a call takes is said below (FADURINKO_STACK_...).
 *
 * Every call answers with a number: 0 (FADURINKO_YES), or the number of no (enum fadurinko_number).
 * What else the answer holds goes into one array of FADURINKO_ANSWER entries, which enum
 * fadurinko_entry names:
 *
 *   size_t answer[FADURINKO_ANSWER];
 *   if (fadurinko_judge_of(text, text_length, answer) != FADURINKO_YES)
 *       printf("place %zu\n", answer[FADURINKO_PLACE]);
 *
 * Every call writes every entry: on a yes what the call describes, on a no the place (and for a
 * comparison the table), and 0 in all others. On a no, no other byte changes but in the scratch (plan
 * and tree) that is lent for finding words.
 *
 * Pointers. Text, tree, record and room are a pointer and a length. The calls that end in _of, _table,
 * _in or _with take a null pointer for nothing, whatever length comes with it: a null text is answered
 * with number 1, a null tree with 6, a null record with 22, and a null room is a room of length 0. The
 * plain calls under "The calls as they are exported" take no null pointer. No other pointer may be
 * null. What a call writes (room, scratch, table, answer) must not overlap with anything else that is
 * given to the same call.
 *
 * Records. A table for records has n symbols of which the first n - 1 have arity 2 and the last has 0.
 * The first ones, 0 to n - 2, are labels, and the last, n - 1, means "absent". A record is an element,
 * and an element is bytes: its label opens it, the elements inside it follow, and ff closes it. Its
 * tree: an element is its label with two trees below it, the first element inside it and the next one
 * beside it, and an absent one is the last symbol; the root has none beside it. So the tree's bytes are
 * the record's, with the last symbol in place of each ff and once more at the end, and a place in a
 * record is the same place in its tree. A record has no limits of its own, but its tree has them: up to
 * 16,383 elements, and siblings count as levels, so that 62 fit beside each other into a root. */

#ifndef FADURINKO_H
#define FADURINKO_H

#include <stddef.h>
#include <stdint.h>

#ifdef __cplusplus
extern "C" {
#endif

/* Limits of a table text and of a tree. */
#define FADURINKO_TEXT 32768    /* bytes of a table text, at least 1; a form is never longer than its text */
#define FADURINKO_SYMBOLS 64    /* symbols of a table, at least 1 */
#define FADURINKO_ARITY 4       /* trees below a symbol, at least 0 */
#define FADURINKO_STATES 64     /* states of a table, at least 1 */
#define FADURINKO_LETTERS 32    /* letters of a word in a rule, at least 0 */
#define FADURINKO_RULES 512     /* rules of a table, at least 0 */
#define FADURINKO_TREE 32768    /* symbols of a tree, a byte each in preorder, at least 1 */
#define FADURINKO_DEPTH 64      /* levels of a tree, at least 1: a lone leaf has depth 1 */

/* A room of this length takes the word of any tree: a tree of n symbols is written with 2 n + 1
 * words of the table. */
#define FADURINKO_LONGEST ((2 * FADURINKO_TREE + 1) * FADURINKO_LETTERS)

/* How many entries the arrays have that are lent besides. */
#define FADURINKO_FRAMES 16448  /* bytes of an opened table */
#define FADURINKO_NUMBERS 4688  /* 64-bit numbers of an opened table */
#define FADURINKO_PLAN 32768    /* 32-bit numbers: scratch for finding words */
#define FADURINKO_ANSWER 8      /* size_t of an answer */

/* Bytes of stack that a call takes at most. examples/c/stack.c measures each: it takes more than half
 * of its bound. */
#define FADURINKO_STACK_WORD 204800               /* fadurinko_word, fadurinko_word_of */
#define FADURINKO_STACK_JUDGE 65536               /* fadurinko_judge, fadurinko_judge_of */
#define FADURINKO_STACK_FORM 65536                /* fadurinko_form, fadurinko_form_of */
#define FADURINKO_STACK_COMPARE 188416            /* fadurinko_compare, fadurinko_compare_of */
#define FADURINKO_STACK_OPEN 28672                /* fadurinko_open, fadurinko_open_table */
#define FADURINKO_STACK_FIND 8192                 /* fadurinko_find, fadurinko_find_in, fadurinko_find_with */
#define FADURINKO_STACK_JUDGE_OPENED 1536         /* fadurinko_judge_opened, fadurinko_judge_in */
#define FADURINKO_STACK_RECORD_WORD 241664        /* fadurinko_record_word, fadurinko_record_word_of */
#define FADURINKO_STACK_RECORD_TREE 65536         /* fadurinko_record_tree, fadurinko_record_tree_of */
#define FADURINKO_STACK_TREE_RECORD 65536         /* fadurinko_tree_record, fadurinko_tree_record_of */
#define FADURINKO_STACK_RECORD_WORD_OPENED 8192   /* fadurinko_record_word_opened, .._in, .._with */
#define FADURINKO_STACK_RECORD_TREE_OPENED 512    /* fadurinko_record_tree_opened, .._in */
#define FADURINKO_STACK_TREE_RECORD_OPENED 12288  /* fadurinko_tree_record_opened, .._in */

/* The numbers of no, and what the place is. */
enum fadurinko_number {
    FADURINKO_YES = 0,
    /* The table text. The place is the start of the faulty line, unless said otherwise. */
    FADURINKO_NO_TEXT_SIZE = 1,       /* text empty or over FADURINKO_TEXT; place 0 */
    FADURINKO_NO_LINE = 2,            /* line empty, odd, with another character than 0-9 a-f, or not closed by 0a */
    FADURINKO_NO_KIND = 3,            /* kind of frame unknown or not due, rule not rising, no end frame (place: text length) */
    FADURINKO_NO_RANGE = 4,           /* a number beyond its range, a 65th symbol, a 513th rule */
    FADURINKO_NO_FRAME_LENGTH = 5,    /* frame too short or too long */
    /* The tree, also that of a record. The place is a position in the tree. */
    FADURINKO_NO_TREE_SIZE = 6,       /* tree empty or over FADURINKO_TREE; place 0 */
    FADURINKO_NO_SYMBOL = 7,          /* symbol not in the table's list */
    FADURINKO_NO_TREE_STOPS = 8,      /* tree stops early; place: its length */
    FADURINKO_NO_RULE = 9,            /* no rule for the state and symbol: the table turns the tree down */
    FADURINKO_NO_DEPTH = 10,          /* level 65 */
    FADURINKO_NO_TREE_ENDED = 11,     /* symbols behind the tree's end; place: the first of them */
    /* The room. */
    FADURINKO_NO_ROOM = 12,           /* room shorter than the output; place: the length needed */
    /* The judgement. The place is the least state with the fault, unless said otherwise. */
    FADURINKO_NO_REACHED = 13,        /* state not reached from the initial state */
    FADURINKO_NO_WORD = 14,           /* state without any word */
    FADURINKO_NO_PREFIX = 15,         /* late: the words of a state have a common prefix */
    FADURINKO_NO_SUFFIX = 16,         /* late: the words of a state have a common suffix */
    FADURINKO_NO_INITIAL = 17,        /* late: letters of the initial rule could stand further left; place 0 */
    FADURINKO_NO_EARLIEST_RULE = 18,  /* late: letters of a rule could stand further left; place: its index from 0 */
    /* Two tables. */
    FADURINKO_NO_SYMBOL_LISTS = 19,   /* symbol lists differ; place: the first index where they do */
    /* Records. The place is a position in the record, unless said otherwise. */
    FADURINKO_NO_RECORD_SYMBOLS = 20, /* symbol list not for records; place: the first index with a wrong arity */
    FADURINKO_NO_STREAM_BYTE = 21,    /* byte neither a label nor ff */
    FADURINKO_NO_STREAM_CLOSE = 22,   /* ff with nothing open; record empty or left open (place: its length) */
    FADURINKO_NO_SECOND_ROOT = 23,    /* label behind the root's end */
    FADURINKO_NO_IMAGE = 24           /* tree no record's image; place: 0 for a lone leaf, else of the root's second child */
};

/* The entries of an answer. The others are 0, and kept for later calls: so a later release adds to an
 * answer and breaks no caller. */
enum fadurinko_entry {
    FADURINKO_PLACE = 0,   /* the place of a no; 0 for a yes */
    FADURINKO_LENGTH = 1,  /* letters of the word, bytes of the form, tree or record; 0 for a no */
    FADURINKO_TERMS = 2,   /* the word's letters 0x20 plus one; 0 for a no */
    FADURINKO_SAME = 3,    /* of a comparison: 1 for same; 0 for different and for a no */
    FADURINKO_TABLE = 4    /* the table that a comparison's no is about: 1 or 2, and 0 for number 19 */
};

/* ---- The calls as they are exported. Text, tree, record and room must not be null, even with length
 * 0. An answer has FADURINKO_ANSWER entries. */

uint8_t fadurinko_word(const uint8_t *text, size_t text_length, const uint8_t *tree,
                       size_t tree_length, uint8_t *room, size_t room_length, size_t *answer);
uint8_t fadurinko_judge(const uint8_t *text, size_t text_length, size_t *answer);
uint8_t fadurinko_form(const uint8_t *text, size_t text_length, uint8_t *room, size_t room_length,
                       size_t *answer);
uint8_t fadurinko_compare(const uint8_t *first, size_t first_length, const uint8_t *second,
                          size_t second_length, size_t *answer);
uint8_t fadurinko_record_word(const uint8_t *text, size_t text_length, const uint8_t *record,
                              size_t record_length, uint8_t *room, size_t room_length,
                              size_t *answer);
uint8_t fadurinko_record_tree(const uint8_t *text, size_t text_length, const uint8_t *record,
                              size_t record_length, uint8_t *room, size_t room_length,
                              size_t *answer);
uint8_t fadurinko_tree_record(const uint8_t *text, size_t text_length, const uint8_t *tree,
                              size_t tree_length, uint8_t *room, size_t room_length,
                              size_t *answer);
/* The arrays have FADURINKO_FRAMES, FADURINKO_NUMBERS and FADURINKO_PLAN entries, and the tree that is
 * lent as scratch for a record has FADURINKO_TREE. What the calls behind fadurinko_open answer means
 * something only for arrays that it wrote. Whatever stands in them, the calls read and write only what
 * is lent, and their work is linear in the tree or record, the rules and the room (milliseconds); the
 * room's bytes are then left open. What stands in the scratch before a call makes no difference. */
uint8_t fadurinko_open(const uint8_t *text, size_t text_length, uint8_t *frames, uint64_t *numbers,
                       size_t *answer);
uint8_t fadurinko_find(const uint8_t *frames, const uint64_t *numbers, const uint8_t *tree,
                       size_t tree_length, uint32_t *plan, uint8_t *room, size_t room_length,
                       size_t *answer);
uint8_t fadurinko_judge_opened(const uint8_t *frames, const uint64_t *numbers, size_t *answer);
uint8_t fadurinko_record_word_opened(const uint8_t *frames, const uint64_t *numbers,
                                     const uint8_t *record, size_t record_length, uint8_t *tree,
                                     uint32_t *plan, uint8_t *room, size_t room_length,
                                     size_t *answer);
uint8_t fadurinko_record_tree_opened(const uint8_t *frames, const uint64_t *numbers,
                                     const uint8_t *record, size_t record_length, uint8_t *room,
                                     size_t room_length, size_t *answer);
uint8_t fadurinko_tree_record_opened(const uint8_t *frames, const uint64_t *numbers,
                                     const uint8_t *tree, size_t tree_length, uint8_t *room,
                                     size_t room_length, size_t *answer);

/* ---- The calls to use. A null text, tree, record or room is taken for nothing, whatever its length. */

/* The length of what is lent. A null pointer lends nothing: without this a call would read or write
 * behind the one byte that stands in for it. */
static inline size_t fadurinko_length(const uint8_t *bytes, size_t length)
{
    return bytes != NULL ? length : 0;
}

/* A text, tree or record to read, or a byte in place of null: the exported calls take no null
 * pointer. */
static inline const uint8_t *fadurinko_bytes(const uint8_t *bytes)
{
    static const uint8_t none = 0;
    return bytes != NULL ? bytes : &none;
}

/* The word of a tree by a table text (no: 1 to 12). Yes: the first answer[FADURINKO_LENGTH] bytes of
 * the room are the word, which has answer[FADURINKO_TERMS] terms, and the rest of the room is as it
 * was. */
static inline uint8_t fadurinko_word_of(const uint8_t *text, size_t text_length,
                                        const uint8_t *tree, size_t tree_length, uint8_t *room,
                                        size_t room_length, size_t *answer)
{
    uint8_t none = 0;
    return fadurinko_word(fadurinko_bytes(text), fadurinko_length(text, text_length),
                          fadurinko_bytes(tree), fadurinko_length(tree, tree_length),
                          room != NULL ? room : &none, fadurinko_length(room, room_length), answer);
}

/* Whether a table text is earliest (no: 1 to 5, 13 to 18). Yes: it is, and every entry is 0. */
static inline uint8_t fadurinko_judge_of(const uint8_t *text, size_t text_length, size_t *answer)
{
    return fadurinko_judge(fadurinko_bytes(text), fadurinko_length(text, text_length), answer);
}

/* The form of a table text (no: 1 to 5, 13 to 18, then 12). Yes: the first answer[FADURINKO_LENGTH]
 * bytes of the room are the form's text and the rest of the room is as it was. */
static inline uint8_t fadurinko_form_of(const uint8_t *text, size_t text_length, uint8_t *room,
                                        size_t room_length, size_t *answer)
{
    uint8_t none = 0;
    return fadurinko_form(fadurinko_bytes(text), fadurinko_length(text, text_length),
                          room != NULL ? room : &none, fadurinko_length(room, room_length), answer);
}

/* Whether two table texts give every tree the same word (no: 1 to 5 and 13 to 19). Yes:
 * answer[FADURINKO_SAME] is 1 for the same and 0 for different. No: answer[FADURINKO_TABLE] is 1 or 2,
 * and 0 for number 19. */
static inline uint8_t fadurinko_compare_of(const uint8_t *first, size_t first_length,
                                           const uint8_t *second, size_t second_length,
                                           size_t *answer)
{
    return fadurinko_compare(fadurinko_bytes(first), fadurinko_length(first, first_length),
                             fadurinko_bytes(second), fadurinko_length(second, second_length),
                             answer);
}

/* The word of a record by a table text (no: 1 to 5, 20 to 23, then 6, 10, 9 and 12): the word that the
 * table gives its tree, and the answer as fadurinko_word_of gives it. */
static inline uint8_t fadurinko_record_word_of(const uint8_t *text, size_t text_length,
                                               const uint8_t *record, size_t record_length,
                                               uint8_t *room, size_t room_length, size_t *answer)
{
    uint8_t none = 0;
    return fadurinko_record_word(fadurinko_bytes(text), fadurinko_length(text, text_length),
                                 fadurinko_bytes(record), fadurinko_length(record, record_length),
                                 room != NULL ? room : &none, fadurinko_length(room, room_length),
                                 answer);
}

/* The tree of a record by a table text (no: 1 to 5, 20 to 23, then 6, 10 and 12). Yes: the first
 * answer[FADURINKO_LENGTH] bytes of the room are the tree, one more than the record has, and the rest
 * of the room is as it was. A room of FADURINKO_TREE bytes takes the tree of any record. */
static inline uint8_t fadurinko_record_tree_of(const uint8_t *text, size_t text_length,
                                               const uint8_t *record, size_t record_length,
                                               uint8_t *room, size_t room_length, size_t *answer)
{
    uint8_t none = 0;
    return fadurinko_record_tree(fadurinko_bytes(text), fadurinko_length(text, text_length),
                                 fadurinko_bytes(record), fadurinko_length(record, record_length),
                                 room != NULL ? room : &none, fadurinko_length(room, room_length),
                                 answer);
}

/* The record of a tree by a table text (no: 1 to 5, 20, then 6, 7, 8, 10, 11, 24 and 12). Yes: the
 * first answer[FADURINKO_LENGTH] bytes of the room are the record, one less than the tree has, and the
 * rest of the room is as it was. Each of this call and the one above undoes the other. */
static inline uint8_t fadurinko_tree_record_of(const uint8_t *text, size_t text_length,
                                               const uint8_t *tree, size_t tree_length,
                                               uint8_t *room, size_t room_length, size_t *answer)
{
    uint8_t none = 0;
    return fadurinko_tree_record(fadurinko_bytes(text), fadurinko_length(text, text_length),
                                 fadurinko_bytes(tree), fadurinko_length(tree, tree_length),
                                 room != NULL ? room : &none, fadurinko_length(room, room_length),
                                 answer);
}

/* A table that is opened once and finds the words of many trees and records: frames and numbers are
 * what opening writes, plan and tree are scratch. About 213 kilobytes, so rather static or allocated
 * than on a small stack. It may be copied as it is. */
typedef struct fadurinko_table {
    uint8_t frames[FADURINKO_FRAMES];
    uint64_t numbers[FADURINKO_NUMBERS];
    uint32_t plan[FADURINKO_PLAN];
    uint8_t tree[FADURINKO_TREE];
} fadurinko_table;

/* Opens a table text (no: 1 to 5). Yes: the table is open, and the text is no longer needed. No:
 * the table is as it was, so a table that was open stays open. */
static inline uint8_t fadurinko_open_table(fadurinko_table *table, const uint8_t *text,
                                           size_t text_length, size_t *answer)
{
    return fadurinko_open(fadurinko_bytes(text), fadurinko_length(text, text_length),
                          table->frames, table->numbers, answer);
}

/* Scratch for finding words of trees and records, 160 kilobytes: what stands in it makes no
 * difference. */
typedef struct fadurinko_plan {
    uint32_t numbers[FADURINKO_PLAN];
    uint8_t tree[FADURINKO_TREE];
} fadurinko_plan;

/* Finds with numbers of scratch that the next two calls name. */
static inline uint8_t fadurinko_find_by(const fadurinko_table *table, uint32_t *plan,
                                        const uint8_t *tree, size_t tree_length, uint8_t *room,
                                        size_t room_length, size_t *answer)
{
    uint8_t none = 0;
    return fadurinko_find(table->frames, table->numbers, fadurinko_bytes(tree),
                          fadurinko_length(tree, tree_length), plan, room != NULL ? room : &none,
                          fadurinko_length(room, room_length), answer);
}

/* The word of a tree by an open table (no: 6 to 12): as fadurinko_word_of, without reading the text
 * again. Writes to the table's own plan, so it is for one thread at a time. */
static inline uint8_t fadurinko_find_in(fadurinko_table *table, const uint8_t *tree,
                                        size_t tree_length, uint8_t *room, size_t room_length,
                                        size_t *answer)
{
    return fadurinko_find_by(table, table->plan, tree, tree_length, room, room_length, answer);
}

/* The same with a plan that is lent apart: the table is only read, so any number of threads can find
 * by one table at once, each with a plan of its own. The table's own plan is left alone. */
static inline uint8_t fadurinko_find_with(const fadurinko_table *table, fadurinko_plan *plan,
                                          const uint8_t *tree, size_t tree_length, uint8_t *room,
                                          size_t room_length, size_t *answer)
{
    return fadurinko_find_by(table, plan->numbers, tree, tree_length, room, room_length, answer);
}

/* Whether an open table is earliest (no: 13 to 18). Yes: it is, and every entry is 0. */
static inline uint8_t fadurinko_judge_in(const fadurinko_table *table, size_t *answer)
{
    return fadurinko_judge_opened(table->frames, table->numbers, answer);
}

/* Finds the word of a record with scratch that the next two calls name. */
static inline uint8_t fadurinko_record_word_by(const fadurinko_table *table, uint8_t *tree,
                                               uint32_t *plan, const uint8_t *record,
                                               size_t record_length, uint8_t *room,
                                               size_t room_length, size_t *answer)
{
    uint8_t none = 0;
    return fadurinko_record_word_opened(table->frames, table->numbers, fadurinko_bytes(record),
                                        fadurinko_length(record, record_length), tree, plan,
                                        room != NULL ? room : &none,
                                        fadurinko_length(room, room_length), answer);
}

/* The word of a record by an open table (no: 20 to 23, then 6, 10, 9 and 12): as
 * fadurinko_record_word_of, without reading the text again. Writes to the table's own scratch, so it
 * is for one thread at a time. */
static inline uint8_t fadurinko_record_word_in(fadurinko_table *table, const uint8_t *record,
                                               size_t record_length, uint8_t *room,
                                               size_t room_length, size_t *answer)
{
    return fadurinko_record_word_by(table, table->tree, table->plan, record, record_length, room,
                                    room_length, answer);
}

/* The same with a plan that is lent apart, as for fadurinko_find_with: the table is only read. */
static inline uint8_t fadurinko_record_word_with(const fadurinko_table *table, fadurinko_plan *plan,
                                                 const uint8_t *record, size_t record_length,
                                                 uint8_t *room, size_t room_length, size_t *answer)
{
    return fadurinko_record_word_by(table, plan->tree, plan->numbers, record, record_length, room,
                                    room_length, answer);
}

/* The tree of a record by an open table (no: 20 to 23, then 6, 10 and 12): as
 * fadurinko_record_tree_of. The table is only read, here and below. */
static inline uint8_t fadurinko_record_tree_in(const fadurinko_table *table, const uint8_t *record,
                                               size_t record_length, uint8_t *room,
                                               size_t room_length, size_t *answer)
{
    uint8_t none = 0;
    return fadurinko_record_tree_opened(table->frames, table->numbers, fadurinko_bytes(record),
                                        fadurinko_length(record, record_length),
                                        room != NULL ? room : &none,
                                        fadurinko_length(room, room_length), answer);
}

/* The record of a tree by an open table (no: 20, then 6, 7, 8, 10, 11, 24 and 12): as
 * fadurinko_tree_record_of. */
static inline uint8_t fadurinko_tree_record_in(const fadurinko_table *table, const uint8_t *tree,
                                               size_t tree_length, uint8_t *room,
                                               size_t room_length, size_t *answer)
{
    uint8_t none = 0;
    return fadurinko_tree_record_opened(table->frames, table->numbers, fadurinko_bytes(tree),
                                        fadurinko_length(tree, tree_length),
                                        room != NULL ? room : &none,
                                        fadurinko_length(room, room_length), answer);
}

#ifdef __cplusplus
}
#endif

#endif
