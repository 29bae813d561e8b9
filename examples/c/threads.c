/* One open table on several threads. From the folder of the repository:
 *
 *   (cd crates/fadurinko_c && rt lib)
 *   mkdir -p target
 *   gcc -std=c99 -Wall -Wextra -pedantic -O2 -pthread -Iinclude examples/c/threads.c crates/fadurinko_c/out/libfadurinko_c.a -o target/threads-in-c
 *   target/threads-in-c
 *
 * The table is only read; each thread lends a plan and a room of its own, and finds each word by a tree
 * and by its record in turn. It prints "N words on 2 threads as on one", or how many are others and exit
 * status 1. */

#include <fadurinko.h>
#include <pthread.h>
#include <stdio.h>
#include <string.h>

/* The labels 0 and 1 write a(inside) and b(inside) and then what is beside them, and 2 is absent: so
 * each record has a word of its own. */
static const char TEXT[] = "0102\n0102\n0100\n0201000000\n0300000261280001290000\n"
                           "0300010262280001290000\n03000200\n04\n";
#define TEXT_LENGTH (sizeof TEXT - 1)

#define TREES 64
#define ABSENT 2
#define SYMBOLS 4096  /* of a tree at most: 12 levels */
#define ROOM (4 * SYMBOLS)
#define THREADS 2
#define ROUNDS 200

static fadurinko_table opened;
static uint8_t trees[TREES][SYMBOLS];
static size_t tree_lengths[TREES];
static uint8_t records[TREES][SYMBOLS];
static size_t record_lengths[TREES];
static uint8_t words[TREES][ROOM];
static size_t word_lengths[TREES];

static unsigned random_bits(void)
{
    static uint32_t state = 1;
    state = state * 1664525u + 1013904223u;
    return state >> 24;
}

/* Puts a tree of at most so many levels behind the symbols that the tree has. */
static void grow(size_t at, int levels)
{
    unsigned bits = random_bits();
    int leaf = levels == 1 || bits < 16;
    trees[at][tree_lengths[at]++] = leaf ? ABSENT : (uint8_t)(bits % 2);
    if (!leaf) {
        grow(at, levels - 1);
        grow(at, levels - 1);
    }
}

/* Puts a tree that is a record's: a root with elements inside and none beside it. */
static void grow_root(size_t at)
{
    trees[at][tree_lengths[at]++] = 0;
    grow(at, 11);
    trees[at][tree_lengths[at]++] = ABSENT;
}

/* What a thread lends, and how many of its words were others. */
typedef struct worker {
    const fadurinko_table *table;
    fadurinko_plan plan;
    uint8_t room[ROOM];
    size_t first, others;
} worker;

static worker workers[THREADS];

/* The word of a tree, or of its record. */
static uint8_t find(worker *mine, size_t at, int by_record, size_t *answer)
{
    if (by_record)
        return fadurinko_record_word_with(mine->table, &mine->plan, records[at], record_lengths[at],
                                          mine->room, ROOM, answer);
    return fadurinko_find_with(mine->table, &mine->plan, trees[at], tree_lengths[at], mine->room, ROOM,
                               answer);
}

/* Finds all words again and again. Each thread begins with another tree. */
static void *find_all(void *given)
{
    worker *mine = given;
    for (size_t i = 0; i < ROUNDS * TREES; i++) {
        size_t at = (mine->first + i / 2) % TREES, answer[FADURINKO_ANSWER];
        uint8_t number = find(mine, at, i % 2 == 0, answer);
        if (number != FADURINKO_YES || answer[FADURINKO_LENGTH] != word_lengths[at]
            || memcmp(mine->room, words[at], word_lengths[at]) != 0)
            mine->others++;
    }
    return NULL;
}

/* The words and the records on one thread, each by the text itself. */
static int find_first(void)
{
    size_t answer[FADURINKO_ANSWER];
    for (size_t at = 0; at < TREES; at++) {
        grow_root(at);
        uint8_t number = fadurinko_word_of((const uint8_t *)TEXT, TEXT_LENGTH, trees[at],
                                           tree_lengths[at], words[at], ROOM, answer);
        if (number != FADURINKO_YES)
            return 0;
        word_lengths[at] = answer[FADURINKO_LENGTH];
        number = fadurinko_tree_record_of((const uint8_t *)TEXT, TEXT_LENGTH, trees[at],
                                          tree_lengths[at], records[at], SYMBOLS, answer);
        if (number != FADURINKO_YES)
            return 0;
        record_lengths[at] = answer[FADURINKO_LENGTH];
    }
    return 1;
}

int main(void)
{
    size_t answer[FADURINKO_ANSWER], others = 0;
    pthread_t threads[THREADS];
    if (fadurinko_open_table(&opened, (const uint8_t *)TEXT, TEXT_LENGTH, answer) > 0
        || !find_first()) {
        printf("the table or a tree was refused\n");
        return 1;
    }
    for (size_t i = 0; i < THREADS; i++) {
        workers[i].table = &opened;
        workers[i].first = i * TREES / THREADS;
        if (pthread_create(&threads[i], NULL, find_all, &workers[i]) != 0) {
            printf("a thread could not be started\n");
            return 1;
        }
    }
    for (size_t i = 0; i < THREADS; i++) {
        pthread_join(threads[i], NULL);
        others += workers[i].others;
    }
    if (others > 0) {
        printf("%zu words are others than on one thread\n", others);
        return 1;
    }
    printf("%d words on %d threads as on one\n", ROUNDS * TREES * THREADS, THREADS);
    return 0;
}
