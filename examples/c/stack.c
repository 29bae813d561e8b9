/* How much stack each call takes, beside what the header says. From the folder of the repository:
 *
 *   (cd crates/fadurinko_c && rt lib)
 *   mkdir -p target
 *   gcc -std=c99 -Wall -Wextra -pedantic -O2 -Iinclude examples/c/stack.c crates/fadurinko_c/out/libfadurinko_c.a -o target/stack-in-c
 *   target/stack-in-c
 *
 * Each call runs on a stack of its own that is painted before; the deepest byte that has lost its
 * paint shows how far the call went. It prints a line for each call. Exit status 1 if one took more
 * than its bound in the header, or less than half of it: then the bound is no longer true. */

#define _XOPEN_SOURCE 700 /* for the calls that change the stack */

#include <fadurinko.h>
#include <stdio.h>
#include <string.h>
#include <ucontext.h>

/* ---- A call on a painted stack. */

#define AREA (1024 * 1024)
#define PAINT 0xa5

static uint8_t area[AREA];
static ucontext_t caller, callee;

static void run_on_area(void (*call)(void))
{
    getcontext(&callee);
    callee.uc_stack.ss_sp = area;
    callee.uc_stack.ss_size = AREA;
    callee.uc_link = &caller;
    makecontext(&callee, call, 0);
    swapcontext(&caller, &callee);
}

/* The first run is not counted: in it the loader may look up memcpy and memset, on the same stack. */
static size_t stack_of(void (*call)(void))
{
    size_t deepest = 0;
    run_on_area(call);
    memset(area, PAINT, AREA);
    run_on_area(call);
    while (deepest < AREA && area[deepest] == PAINT)
        deepest++;
    return AREA - deepest;
}

/* ---- A large table: 64 states in a ring, 512 rules, nearly as many bytes as a text may have. Each
 * state has the empty word and words of its own letter, so the table is earliest and its own form. */

#define STATES 64
#define LEAF_RULES 7  /* symbols 1 to 7; symbol 0 has two trees below it, 63 has no rule */
#define NO_RULE 63

static uint8_t text[FADURINKO_TEXT];
static size_t text_length;

static void put_byte(unsigned byte)
{
    static const char digits[] = "0123456789abcdef";
    text[text_length++] = (uint8_t)digits[byte / 16];
    text[text_length++] = (uint8_t)digits[byte % 16];
}

static void put_frame(const uint8_t *bytes, size_t count)
{
    for (size_t i = 0; i < count; i++)
        put_byte(bytes[i]);
    text[text_length++] = '\n';
}

/* The rules of a state: symbol 0 goes on to the next state twice, 1 writes nothing, the others write
 * words of the state's letter. */
static void put_rules(uint8_t state)
{
    uint8_t next = (uint8_t)((state + 1) % STATES);
    uint8_t frame[64] = {3, state, 0, 21};
    memset(frame + 4, 64 + state, 21);
    frame[25] = frame[27] = next;
    frame[26] = frame[28] = 0;
    put_frame(frame, 29);
    for (uint8_t symbol = 1; symbol <= LEAF_RULES; symbol++) {
        uint8_t letters = symbol == 1 ? 0 : FADURINKO_LETTERS;
        frame[2] = symbol;
        frame[3] = letters;
        memset(frame + 4, 64 + state, letters);
        put_frame(frame, (size_t)4 + letters);
    }
}

static void write_text(void)
{
    static const uint8_t pair[] = {1, 2}, leaf[] = {1, 0}, end[] = {4};
    static const uint8_t initial[] = {2, STATES, 0, 0, 0};
    put_frame(pair, sizeof pair);
    for (int symbol = 1; symbol < FADURINKO_SYMBOLS; symbol++)
        put_frame(leaf, sizeof leaf);
    put_frame(initial, sizeof initial);
    for (uint8_t state = 0; state < STATES; state++)
        put_rules(state);
    put_frame(end, sizeof end);
}

/* ---- A large table for records: as many states and rules, nearly as many bytes, the labels 0 to 62. */

#define LABEL_RULES 7  /* labels 0 to 6 */
#define ABSENT 63
#define LABEL_LETTERS 26

/* The rules of a state: each label writes some letters and goes on to the next state twice, and the
 * last symbol writes nothing. */
static void put_record_rules(uint8_t state)
{
    uint8_t next = (uint8_t)((state + 1) % STATES);
    uint8_t frame[64] = {3, state, 0, LABEL_LETTERS};
    uint8_t *children = frame + 4 + LABEL_LETTERS;
    memset(frame + 4, 64 + state, LABEL_LETTERS);
    children[0] = children[2] = next;
    for (uint8_t label = 0; label < LABEL_RULES; label++) {
        frame[2] = label;
        put_frame(frame, 4 + LABEL_LETTERS + 4);
    }
    frame[2] = ABSENT;
    frame[3] = 0;
    put_frame(frame, 4);
}

static void write_record_text(void)
{
    static const uint8_t label[] = {1, 2}, absent[] = {1, 0}, end[] = {4};
    static const uint8_t initial[] = {2, STATES, 0, 0, 0};
    text_length = 0;
    for (int symbol = 0; symbol < ABSENT; symbol++)
        put_frame(label, sizeof label);
    put_frame(absent, sizeof absent);
    put_frame(initial, sizeof initial);
    for (uint8_t state = 0; state < STATES; state++)
        put_record_rules(state);
    put_frame(end, sizeof end);
}

/* ---- A large tree: 64 levels, and some 29,000 symbols. */

#define SPINE 50  /* levels above the full tree at the bottom, which has 14 */

static uint8_t tree[FADURINKO_TREE];
static size_t tree_length;

static void put_full_tree(int levels, uint8_t leaf)
{
    tree[tree_length++] = levels > 1 ? 0 : leaf;
    if (levels > 1) {
        put_full_tree(levels - 1, leaf);
        put_full_tree(levels - 1, leaf);
    }
}

static void write_tree(void)
{
    memset(tree, 0, SPINE);
    tree_length = SPINE;
    put_full_tree(FADURINKO_DEPTH - SPINE, 1);
    for (int level = 0; level < SPINE; level++)
        put_full_tree(8, 1);
}

/* ---- A large record: its tree is as large, and has the last symbol for the root's second child. */

#define SECOND_CHILD (SPINE + 16383 + (SPINE - 1) * 255)  /* where that stands, at the tree's end */

static uint8_t record[FADURINKO_TREE];

/* Writes the tree with so many levels above the full tree, and its record. The last symbol stands
 * behind the tree's end too. */
static void write_record(size_t spine)
{
    memset(tree, 0, spine);
    tree_length = spine;
    put_full_tree(FADURINKO_DEPTH - SPINE, ABSENT);
    for (size_t level = 1; level < spine; level++)
        put_full_tree(8, ABSENT);
    tree_length++;
    memset(tree + tree_length - 1, ABSENT, 3);
    for (size_t i = 0; i < tree_length; i++)
        record[i] = tree[i] == ABSENT ? 0xff : tree[i];
}

/* ---- The calls. Each leaves its number in `number`. */

static fadurinko_table table;
static fadurinko_plan plan;
static uint8_t room[FADURINKO_LONGEST];
static size_t room_length, given_length, answer[FADURINKO_ANSWER];
static uint8_t number;

static void call_word(void)
{
    number = fadurinko_word_of(text, text_length, tree, given_length, room, room_length, answer);
}

static void call_judge(void)
{
    number = fadurinko_judge_of(text, text_length, answer);
}

static void call_form(void)
{
    number = fadurinko_form_of(text, text_length, room, sizeof room, answer);
}

static void call_compare(void)
{
    number = fadurinko_compare_of(text, text_length, text, text_length, answer);
}

static void call_open(void)
{
    number = fadurinko_open_table(&table, text, text_length, answer);
}

static void call_find(void)
{
    number = fadurinko_find_with(&table, &plan, tree, given_length, room, room_length, answer);
}

static void call_judge_opened(void)
{
    number = fadurinko_judge_in(&table, answer);
}

static void call_record_word(void)
{
    number = fadurinko_record_word_of(text, text_length, record, given_length, room, room_length, answer);
}

static void call_record_tree(void)
{
    number = fadurinko_record_tree_of(text, text_length, record, given_length, room, room_length, answer);
}

static void call_tree_record(void)
{
    number = fadurinko_tree_record_of(text, text_length, tree, given_length, room, room_length, answer);
}

static void call_record_word_opened(void)
{
    number = fadurinko_record_word_with(&table, &plan, record, given_length, room, room_length, answer);
}

static void call_record_tree_opened(void)
{
    number = fadurinko_record_tree_in(&table, record, given_length, room, room_length, answer);
}

static void call_tree_record_opened(void)
{
    number = fadurinko_tree_record_in(&table, tree, given_length, room, room_length, answer);
}

/* ---- What they take. */

static int wrong;

static void expect(const char *name, uint8_t number_due)
{
    if (number != number_due) {
        wrong++;
        printf("%s: number %u instead of %u\n", name, (unsigned)number, (unsigned)number_due);
    }
}

static void check_figure(const char *name, size_t figure, size_t bound)
{
    const char *verdict = "";
    if (figure > bound)
        verdict = ": more than the header says";
    else if (figure < bound / 2)
        verdict = ": less than half of what the header says";
    wrong += verdict[0] != '\0';
    printf("%s: %zu of %zu bytes%s\n", name, figure, bound, verdict);
}

static void measure(const char *name, void (*call)(void), size_t bound)
{
    size_t figure = stack_of(call);
    expect(name, FADURINKO_YES);
    check_figure(name, figure, bound);
}

/* The most that a call takes for the large tree: with its word, without room, cut short, and with a
 * first leaf on level 64 that has no rule, is not in the list, or wants trees below it. */
static void measure_trees(const char *name, void (*call)(void), size_t bound)
{
    static const struct {
        uint8_t deepest;
        size_t cut, room_length;
        uint8_t number;
    } cases[] = {
        {1, 0, sizeof room, FADURINKO_YES},
        {1, 0, 0, FADURINKO_NO_ROOM},
        {1, 1, sizeof room, FADURINKO_NO_TREE_STOPS},
        {NO_RULE, 0, sizeof room, FADURINKO_NO_RULE},
        {FADURINKO_SYMBOLS, 0, sizeof room, FADURINKO_NO_SYMBOL},
        {0, 0, sizeof room, FADURINKO_NO_DEPTH},
    };
    size_t most = 0;
    for (size_t i = 0; i < sizeof cases / sizeof cases[0]; i++) {
        tree[FADURINKO_DEPTH - 1] = cases[i].deepest;
        given_length = tree_length - cases[i].cut;
        room_length = cases[i].room_length;
        size_t figure = stack_of(call);
        expect(name, cases[i].number);
        most = figure > most ? figure : most;
    }
    check_figure(name, most, bound);
}

/* A large record or its tree, with one byte changed and some bytes more or less than there are. */
typedef struct given {
    size_t spine, at;
    uint8_t byte;
    int more;
    size_t room_length;
    uint8_t number;
} given;

/* The most that a call takes for these. The bytes are the record or the tree, whichever it is given. */
static void measure_given(const char *name, void (*call)(void), size_t bound, uint8_t *bytes,
                          const given *cases, size_t count)
{
    size_t most = 0;
    for (size_t i = 0; i < count; i++) {
        write_record(cases[i].spine);
        bytes[cases[i].at] = cases[i].byte;
        given_length = (bytes == tree ? tree_length : tree_length - 1) + (size_t)cases[i].more;
        room_length = cases[i].room_length;
        size_t figure = stack_of(call);
        expect(name, cases[i].number);
        most = figure > most ? figure : most;
    }
    check_figure(name, most, bound);
}

/* A record with its word or tree, without room, left open, with a byte that is none, a second root, a
 * level too many; a word has the first case too, a label that has no rule. */
static const given RECORDS[] = {
    {SPINE, SPINE + 12, NO_RULE - 1, 0, sizeof room, FADURINKO_NO_RULE},
    {SPINE, 0, 0, 0, sizeof room, FADURINKO_YES},
    {SPINE, 0, 0, 0, 0, FADURINKO_NO_ROOM},
    {SPINE, 0, 0, -1, sizeof room, FADURINKO_NO_STREAM_CLOSE},
    {SPINE, SECOND_CHILD - 1, ABSENT, 0, sizeof room, FADURINKO_NO_STREAM_BYTE},
    {SPINE, SECOND_CHILD, 0, 1, sizeof room, FADURINKO_NO_SECOND_ROOT},
    {SPINE + 1, 0, 0, 0, sizeof room, FADURINKO_NO_DEPTH},
};

/* A tree with its record, without room, cut, with a symbol that is none, a level too many, a symbol
 * behind its end, and a root that has a sibling. */
static const given IMAGES[] = {
    {SPINE, 0, 0, 0, sizeof room, FADURINKO_YES},
    {SPINE, 0, 0, 0, 0, FADURINKO_NO_ROOM},
    {SPINE, 0, 0, -1, sizeof room, FADURINKO_NO_TREE_STOPS},
    {SPINE, SECOND_CHILD, FADURINKO_SYMBOLS, 0, sizeof room, FADURINKO_NO_SYMBOL},
    {SPINE + 1, 0, 0, 0, sizeof room, FADURINKO_NO_DEPTH},
    {SPINE, 0, 0, 1, sizeof room, FADURINKO_NO_TREE_ENDED},
    {SPINE, SECOND_CHILD, 0, 2, sizeof room, FADURINKO_NO_IMAGE},
};
#define RECORD_CASES (sizeof RECORDS / sizeof RECORDS[0])
#define IMAGE_CASES (sizeof IMAGES / sizeof IMAGES[0])

static void measure_records(void)
{
    write_record_text();
    call_open();
    expect("the table for records", FADURINKO_YES);
    measure_given("fadurinko_record_word", call_record_word, FADURINKO_STACK_RECORD_WORD, record,
                  RECORDS, RECORD_CASES);
    measure_given("fadurinko_record_tree", call_record_tree, FADURINKO_STACK_RECORD_TREE, record,
                  RECORDS + 1, RECORD_CASES - 1);
    measure_given("fadurinko_tree_record", call_tree_record, FADURINKO_STACK_TREE_RECORD, tree, IMAGES,
                  IMAGE_CASES);
    measure_given("fadurinko_record_word_opened", call_record_word_opened,
                  FADURINKO_STACK_RECORD_WORD_OPENED, record, RECORDS, RECORD_CASES);
    measure_given("fadurinko_record_tree_opened", call_record_tree_opened,
                  FADURINKO_STACK_RECORD_TREE_OPENED, record, RECORDS + 1, RECORD_CASES - 1);
    measure_given("fadurinko_tree_record_opened", call_tree_record_opened,
                  FADURINKO_STACK_TREE_RECORD_OPENED, tree, IMAGES, IMAGE_CASES);
}

int main(void)
{
    write_text();
    write_tree();
    measure_trees("fadurinko_word", call_word, FADURINKO_STACK_WORD);
    measure("fadurinko_judge", call_judge, FADURINKO_STACK_JUDGE);
    measure("fadurinko_form", call_form, FADURINKO_STACK_FORM);
    measure("fadurinko_compare", call_compare, FADURINKO_STACK_COMPARE);
    measure("fadurinko_open", call_open, FADURINKO_STACK_OPEN);
    measure_trees("fadurinko_find", call_find, FADURINKO_STACK_FIND);
    measure("fadurinko_judge_opened", call_judge_opened, FADURINKO_STACK_JUDGE_OPENED);
    measure_records();
    return wrong > 0;
}
