/* Plays scenario files: reads one on standard input, lends the memory it describes to the library, makes its calls, and prints the
 * file again with the library's answers, so that `diff` against the input is the comparison. After each answer it prints the digest
 * of all lent memory, or with `--memory` the arrays that the call changed. Answers, digests and memory found in the input are
 * ignored. Lines `digest BYTES HEX16` and `home BYTES COUNT ANSWER` may stand between scenarios.
 * Every lent array ends at a page that may not be touched, and the bytes before it are looked at after each call. With STATIC_ARRAYS, for
 * processors without pages, lent arrays stand in static ones, and the bytes on both sides are looked at.
 * Status 2: the file is malformed, or has a call that there is not. Status 3: an answer has a number that its case does not have, or
 * memory beside an array changed. */
#define _DEFAULT_SOURCE
#include "kinds.h"

#include <inttypes.h>
#include <stdarg.h>
#include <stdbool.h>
#include <stdio.h>
#include <stdlib.h>
#include <string.h>
#ifndef STATIC_ARRAYS
#include <sys/mman.h>
#include <unistd.h>
#endif

enum { MALFORMED = 2, WRONG = 3, MARGIN = 0xA5 };

/* ---- The calls as text ---- */

/* The words of each call after its name: k a key, v a value, s a slot, h occupied or vacant, a keys asked, y their bytes, w a walk,
 * b a budget, o the other table, 0 a number that has to be 0. */
static const struct {
    const char *name;
    const char *words;
} calls[CALLS] = {
    [MAKE] = {"make", "0"},
    [CLEAR] = {"clear", ""},
    [LEN] = {"len", ""},
    [IS_EMPTY] = {"is_empty", ""},
    [CAPACITY] = {"capacity", ""},
    [RESERVE] = {"reserve", "ay"},
    [GET] = {"get", "k"},
    [CONTAINS] = {"contains", "k"},
    [REMOVE] = {"remove", "k"},
    [INSERT] = {"insert", "kv"},
    [ENTRY] = {"entry", "k"},
    [OCCUPIED_GET] = {"occupied_get", "ks"},
    [OCCUPIED_REMOVE] = {"occupied_remove", "ks"},
    [OCCUPIED_SET] = {"occupied_set", "ksv"},
    [VACANT_INSERT] = {"vacant_insert", "ksv"},
    [OR_INSERT] = {"or_insert", "khsv"},
    [INSERT_ENTRY] = {"insert_entry", "khsv"},
    [STEP] = {"step", "w0b"},
    [UNION] = {"union", "o"},
    [COPY] = {"copy", "o"},
};

/* The answers of each call: their case, and their text, where k, v, s, x and w stand for key, value, slot, examined and walk after a
 * `%`. A number that is not printed is 0, but for those that test_found and test_fresh look at. */
static const struct {
    enum call call;
    uint64_t which;
    const char *text;
} answers[] = {
    {MAKE, MOSS_DONE, "done"},
    {CLEAR, MOSS_DONE, "done"},
    {COPY, MOSS_DONE, "done"},
    {UNION, MOSS_DONE, "done"},
    {LEN, MOSS_COUNT, "length %v"},
    {CAPACITY, MOSS_COUNT, "capacity %v"},
    {IS_EMPTY, MOSS_EMPTY, "empty yes"},
    {IS_EMPTY, MOSS_HOLDS, "empty no"},
    {RESERVE, MOSS_ROOM, "room"},
    {GET, MOSS_FOUND, "found value=%v examined=%x"},
    {GET, MOSS_ABSENT, "absent examined=%x"},
    {CONTAINS, MOSS_PRESENT, "present examined=%x"},
    {CONTAINS, MOSS_ABSENT, "absent examined=%x"},
    {REMOVE, MOSS_REMOVED, "removed value=%v slot=%s examined=%x"},
    {REMOVE, MOSS_ABSENT, "absent examined=%x"},
    {INSERT, MOSS_FRESH, "fresh slot=%s examined=%x"},
    {INSERT, MOSS_REPLACED, "replaced old=%v slot=%s examined=%x"},
    {ENTRY, MOSS_OCCUPIED, "occupied slot=%s value=%v examined=%x"},
    {ENTRY, MOSS_VACANT, "vacant slot=%s examined=%x"},
    {OCCUPIED_GET, MOSS_VALUE, "handle_value slot=%s value=%v"},
    {OCCUPIED_SET, MOSS_WAS, "handle_set slot=%s old=%v"},
    {OCCUPIED_REMOVE, MOSS_REMOVED, "handle_removed value=%v"},
    {VACANT_INSERT, MOSS_NOW, "handle_now slot=%s value=%v"},
    {OR_INSERT, MOSS_NOW, "handle_now slot=%s value=%v"},
    {INSERT_ENTRY, MOSS_NOW, "handle_now slot=%s value=%v"},
    {STEP, MOSS_PAIR, "pair key=%k value=%v walk=%w turn=0 examined=%x"},
    {STEP, MOSS_NOTHING, "nothing walk=%w turn=0 examined=%x"},
    {STEP, MOSS_WALK_DONE, "walk_done walk=%w turn=0"},
};

static unsigned long line_number = 0;

static void stop(int status, const char *format, ...)
{
    va_list words;
    fflush(stdout);
    fprintf(stderr, "line %lu: ", line_number);
    va_start(words, format);
    vfprintf(stderr, format, words);
    va_end(words);
    fputc('\n', stderr);
    exit(status);
}

/* ---- Lent memory ---- */

#ifdef STATIC_ARRAYS
/* At most four tables and a key are lent at once; an array has at most 4,097 words, and a few bytes on each side. */
enum { BLOCKS = 4 * MOST_COLUMNS + 1, SIDE = 64, BLOCK = SIDE + 4097 * 8 + SIDE };
static union {
    uint64_t aligned;
    uint8_t bytes[BLOCK];
} blocks[BLOCKS], befores[BLOCKS];
static bool taken[BLOCKS];

static struct array lend(size_t count, size_t width)
{
    size_t block = 0, bytes = count * width;
    while (block < BLOCKS && taken[block])
        block++;
    if (block == BLOCKS || bytes > BLOCK - 2 * SIDE)
        stop(MALFORMED, "no memory");
    taken[block] = true;
    struct array a = {.count = count, .pages = blocks[block].bytes, .margin = SIDE, .behind = SIDE, .before = befores[block].bytes};
    memset(a.pages, MARGIN, SIDE + bytes + SIDE);
    a.data = bytes == 0 ? NULL : a.pages + SIDE;
    return a;
}

static void take_back_array(struct array *a)
{
    for (size_t block = 0; block < BLOCKS; block++)
        if (a->pages == blocks[block].bytes)
            taken[block] = false;
}
#else
static struct array lend(size_t count, size_t width)
{
    size_t page = (size_t)sysconf(_SC_PAGESIZE), bytes = count * width, used = (bytes / page + 1) * page;
    struct array a = {.count = count, .mapped = used + page, .margin = used - bytes};
    a.pages = mmap(NULL, a.mapped, PROT_READ | PROT_WRITE, MAP_PRIVATE | MAP_ANONYMOUS, -1, 0);
    a.before = malloc(bytes + 1);
    if (a.pages == MAP_FAILED || a.before == NULL || mprotect(a.pages + used, page, PROT_NONE) != 0)
        stop(MALFORMED, "no memory");
    memset(a.pages, MARGIN, a.margin);
    /* An empty array is lent as a null pointer. */
    a.data = bytes == 0 ? NULL : a.pages + a.margin;
    return a;
}

static void take_back_array(struct array *a)
{
    if (a->pages != NULL)
        munmap(a->pages, a->mapped);
    free(a->before);
}
#endif

static void take_back(const struct kind *kind, struct table *t)
{
    for (size_t c = 0; c < kind->columns; c++)
        take_back_array(&t->columns[c]);
}

/* The filled bytes beside an array of `bytes` bytes. */
static void test_margin(const struct array *a, size_t bytes, const char *name)
{
    for (size_t i = 0; i < a->margin; i++)
        if (a->pages[i] != MARGIN)
            stop(WRONG, "memory before %s", name);
    for (size_t i = 0; i < a->behind; i++)
        if (a->pages[a->margin + bytes + i] != MARGIN)
            stop(WRONG, "memory behind %s", name);
}

static void test_margins(const struct kind *kind, const struct table *t)
{
    for (size_t c = 0; c < kind->columns; c++)
        test_margin(&t->columns[c], t->columns[c].count * kind->column[c].width, kind->column[c].name);
}

static uint64_t element(const struct array *a, size_t width, size_t i)
{
    uint64_t value = 0;
    for (size_t b = width; b-- > 0;)
        value = value << 8 | a->data[i * width + b];
    return value;
}

static void set_element(struct array *a, size_t width, size_t i, uint64_t value)
{
    for (size_t b = 0; b < width; b++)
        a->data[i * width + b] = (uint8_t)(value >> 8 * b);
}

static bool same_bytes(const uint8_t *a, const uint8_t *b, size_t count)
{
    return count == 0 || memcmp(a, b, count) == 0;
}

/* Another table of the same sizes and contents. */
static struct table twin(const struct kind *kind, const struct table *t)
{
    struct table copy = {0};
    for (size_t c = 0; c < kind->columns; c++) {
        const struct array *a = &t->columns[c];
        copy.columns[c] = lend(a->count, kind->column[c].width);
        if (a->count != 0)
            memcpy(copy.columns[c].data, a->data, a->count * kind->column[c].width);
    }
    return copy;
}

static void remember(const struct kind *kind, struct table *t)
{
    for (size_t c = 0; c < kind->columns; c++)
        if (t->columns[c].count != 0)
            memcpy(t->columns[c].before, t->columns[c].data, t->columns[c].count * kind->column[c].width);
}

/* ---- Keys in slots ---- */

/* Whether a slot's span is the bytes of the key. */
static bool holds_bytes(const struct kind *kind, const struct order *o, uint64_t slot)
{
    const struct array *arena = &o->table->columns[kind->columns - 1];
    uint64_t offset = element(&o->table->columns[1], 2, slot), length = element(&o->table->columns[2], 1, slot);
    return length == o->bytes.count && offset + length <= arena->count
        && (length == 0 || memcmp(arena->data + offset, o->bytes.data, length) == 0);
}

/* Whether a slot is live and holds the key. */
static bool holds_key(const struct kind *kind, const struct order *o, uint64_t slot)
{
    const struct table *t = o->table;
    if (slot >= t->columns[0].count || element(&t->columns[0], 1, slot) != 1)
        return false;
    return kind->bytes ? holds_bytes(kind, o, slot) : element(&t->columns[1], 8, slot) == o->key;
}

/* The offset and length that an answer tells are those of its slot. */
static bool tells_span(const struct order *o, const moss_answer *a)
{
    return a->offset == element(&o->table->columns[1], 2, a->slot) && a->length == element(&o->table->columns[2], 1, a->slot);
}

/* What get does not print: its slot holds the key, and a set's answer tells that key. */
static void test_found(const struct kind *kind, const struct order *o, const moss_answer *a)
{
    if (!holds_key(kind, o, a->slot))
        stop(WRONG, "slot");
    if (!kind->values && !(kind->bytes ? tells_span(o, a) : a->key == o->key))
        stop(WRONG, kind->bytes ? "offset or length" : "key");
}

/* What a fresh insert does not print: the offset is that of its slot, which holds the key. */
static void test_fresh(const struct kind *kind, const struct order *o, const moss_answer *a)
{
    if (!holds_key(kind, o, a->slot))
        stop(WRONG, "slot");
    if (kind->bytes && a->offset != element(&o->table->columns[1], 2, a->slot))
        stop(WRONG, "offset");
}

/* ---- Answers ---- */

/* Whether an answer has a value: in sets only a count is one. */
static bool has_value(const struct kind *kind, const moss_answer *a)
{
    return kind->values || a->which == MOSS_COUNT;
}

static void print_value(const struct kind *kind, const moss_answer *a)
{
    if (has_value(kind, a))
        printf("%" PRIu64, a->value);
    else
        putchar('-');
}

static void print_key(const struct kind *kind, const moss_answer *a)
{
    if (kind->bytes)
        printf("%" PRIu64 "+%" PRIu64, a->offset, a->length);
    else
        printf("%" PRIu64, a->key);
}

/* Prints a text with the numbers that it names. */
static void print_text(const struct kind *kind, const char *text, const moss_answer *a)
{
    for (; *text != '\0'; text++) {
        if (*text != '%') {
            putchar(*text);
            continue;
        }
        switch (*++text) {
        case 'k': print_key(kind, a); break;
        case 'v': print_value(kind, a); break;
        case 's': printf("%" PRIu64, a->slot); break;
        case 'x': printf("%" PRIu64, a->examined); break;
        case 'w': printf("%" PRIu64, a->walk); break;
        }
    }
}

static bool told(const char *text, char letter)
{
    const char names[] = {'%', letter, '\0'};
    return strstr(text, names) != NULL;
}

static void zero(bool carried, uint64_t number, const char *name)
{
    if (!carried && number != 0)
        stop(WRONG, "%s", name);
}

/* A refusal: zeros elsewhere, and the walk as it came. */
static void print_refusal(const struct order *o, enum call call, const moss_answer *a)
{
    zero(false, a->which, "which");
    zero(false, a->key, "key");
    zero(false, a->value, "value");
    zero(false, a->slot, "slot");
    zero(false, a->examined, "examined");
    zero(false, a->offset, "offset");
    zero(false, a->length, "length");
    if (a->walk != (call == STEP ? o->walk : 0))
        stop(WRONG, "walk");
    printf("refused %" PRIu64, a->refusal);
}

static void print_case(const struct kind *kind, const struct order *o, enum call call, const moss_answer *a)
{
    size_t row = 0, rows = sizeof answers / sizeof answers[0];
    while (row < rows && (answers[row].call != call || answers[row].which != a->which))
        row++;
    if (row == rows)
        stop(WRONG, "which");
    const char *text = answers[row].text;
    bool found = call == GET && a->which == MOSS_FOUND, fresh = call == INSERT && a->which == MOSS_FRESH;
    bool key = told(text, 'k') || (found && !kind->values);
    zero(key && !kind->bytes, a->key, "key");
    zero(told(text, 'v') && has_value(kind, a), a->value, "value");
    zero(told(text, 's') || found, a->slot, "slot");
    zero(told(text, 'x'), a->examined, "examined");
    zero(told(text, 'w'), a->walk, "walk");
    zero((key || fresh) && kind->bytes, a->offset, "offset");
    zero(key && kind->bytes, a->length, "length");
    if (found)
        test_found(kind, o, a);
    if (fresh)
        test_fresh(kind, o, a);
    print_text(kind, text, a);
}

static void print_array(const struct array *a, const struct column *column)
{
    printf("%s %lu", column->name, (unsigned long)a->count);
    for (size_t i = 0, run; i < a->count; i += run) {
        uint64_t value = element(a, column->width, i);
        for (run = 1; i + run < a->count && element(a, column->width, i + run) == value;)
            run++;
        if (run < 4)
            run = 1;
        printf(run == 1 ? " %" PRIu64 : " %" PRIu64 "*%lu", value, (unsigned long)run);
    }
    putchar('\n');
}

/* The arrays of a table that the call changed; how many they are. */
static size_t print_changes(const struct kind *kind, const struct table *t, char name)
{
    size_t changes = 0;
    for (size_t c = 0; c < kind->columns; c++) {
        const struct array *a = &t->columns[c];
        if (same_bytes(a->data, a->before, a->count * kind->column[c].width))
            continue;
        printf("  %c ", name);
        print_array(a, &kind->column[c]);
        changes++;
    }
    return changes;
}

static void print_memory(const struct kind *kind, const struct table tables[2])
{
    size_t changes = print_changes(kind, &tables[0], 'A');
    changes += print_changes(kind, &tables[1], 'B');
    if (changes == 0)
        puts("  same");
}

static uint64_t digest_number(uint64_t hash, uint64_t number, size_t bytes)
{
    for (size_t i = 0; i < bytes; i++) {
        hash ^= i < 8 ? (uint8_t)(number >> 8 * i) : 0;
        hash *= UINT64_C(0x100000001b3);
    }
    return hash;
}

/* A table's record, which is 0 0 here, and its arrays. */
static uint64_t digest_table(uint64_t hash, const struct kind *kind, const struct table *t)
{
    hash = digest_number(hash, 0, 8 + 4);
    for (size_t c = 0; c < kind->columns; c++) {
        const struct array *a = &t->columns[c];
        hash = digest_number(hash, a->count, 8);
        for (size_t i = 0; i < a->count; i++)
            hash = digest_number(hash, element(a, kind->column[c].width, i), kind->column[c].told);
    }
    return hash;
}

/* ---- The file ---- */

#ifdef STATIC_ARRAYS
static char line[1 << 18];

static bool read_line(void)
{
    return fgets(line, sizeof line, stdin) != NULL;
}
#else
static char *line = NULL;
static size_t line_room = 0;

static bool read_line(void)
{
    return getline(&line, &line_room, stdin) >= 0;
}
#endif

/* The next line without its newline; false at the end of the file. */
static bool next_line(void)
{
    if (!read_line())
        return false;
    line_number++;
    line[strcspn(line, "\n")] = '\0';
    return true;
}

static bool starts(const char *with)
{
    return strncmp(line, with, strlen(with)) == 0;
}

/* The next line; inside a scenario not an answer, a digest or memory after a call. Comments and empty lines are printed again. */
static bool next_thing(bool inside)
{
    while (next_line()) {
        if (inside && (starts("answer ") || starts("digest ") || starts("  ")))
            continue;
        if (line[0] != '#' && line[0] != '\0')
            return true;
        puts(line);
    }
    return false;
}

static void need_thing(void)
{
    if (!next_thing(true))
        stop(MALFORMED, "the file ends inside a scenario");
}

/* The next word of a text, cut off it; NULL where none is left. */
static char *cut(char **text)
{
    char *word = *text;
    if (word == NULL || *word == '\0')
        return NULL;
    char *space = strchr(word, ' ');
    *text = space == NULL ? NULL : space + 1;
    if (space != NULL)
        *space = '\0';
    return word;
}

static uint64_t number_of(const char *word, uint64_t most)
{
    uint64_t number = 0;
    if (word == NULL || *word == '\0')
        stop(MALFORMED, "a number is missing");
    for (const char *c = word; *c != '\0'; c++) {
        uint64_t digit = (uint64_t)(*c - '0');
        if (*c < '0' || *c > '9' || digit > most || number > (most - digit) / 10)
            stop(MALFORMED, "malformed number %s", word);
        number = number * 10 + digit;
    }
    return number;
}

static void no_more(const char *rest)
{
    if (rest != NULL)
        stop(MALFORMED, "more words than there should be: %s", rest);
}

/* `NAME COUNT ELEMENTS`, an element a number or V*N. */
static struct array read_array(const struct column *column)
{
    char *rest = line, *word = cut(&rest);
    if (word == NULL || strcmp(word, column->name) != 0)
        stop(MALFORMED, "expected %s", column->name);
    size_t count = (size_t)number_of(cut(&rest), 1 << 24), at = 0;
    uint64_t most = UINT64_MAX >> (64 - 8 * column->width);
    struct array a = lend(count, column->width);
    while ((word = cut(&rest)) != NULL) {
        char *star = strchr(word, '*');
        uint64_t times = star == NULL ? 1 : number_of(star + 1, count);
        if (star != NULL)
            *star = '\0';
        uint64_t value = number_of(word, most);
        if (times > count - at)
            stop(MALFORMED, "more elements than %lu", (unsigned long)count);
        for (; times > 0; times--)
            set_element(&a, column->width, at++, value);
    }
    if (at != count)
        stop(MALFORMED, "fewer elements than %lu", (unsigned long)count);
    return a;
}

static struct table read_table(const struct kind *kind, const char *head)
{
    struct table t = {0};
    if (strcmp(line, head) != 0)
        stop(MALFORMED, "expected %s", head);
    puts(line);
    need_thing();
    if (strcmp(line, "record 0 0") != 0)
        stop(MALFORMED, "expected record 0 0");
    puts(line);
    for (size_t c = 0; c < kind->columns; c++) {
        need_thing();
        puts(line);
        t.columns[c] = read_array(&kind->column[c]);
    }
    need_thing();
    return t;
}

/* A hexadecimal digit. */
static uint8_t digit_of(char c, const char *word)
{
    const char *digits = "0123456789abcdef", *at = c == '\0' ? NULL : strchr(digits, c);
    if (at == NULL)
        stop(MALFORMED, "malformed bytes %s", word);
    return (uint8_t)(at - digits);
}

/* Bytes: x and two hexadecimal digits a byte. */
static struct array bytes_of(const char *word)
{
    if (word == NULL || word[0] != 'x' || strlen(word) % 2 == 0)
        stop(MALFORMED, "expected bytes");
    struct array a = lend(strlen(word) / 2, 1);
    for (size_t i = 0; i < a.count; i++)
        a.data[i] = (uint8_t)(digit_of(word[2 * i + 1], word) << 4 | digit_of(word[2 * i + 2], word));
    return a;
}

static void read_key(const struct kind *kind, struct order *o, const char *word)
{
    if (kind->bytes)
        o->bytes = bytes_of(word);
    else
        o->key = number_of(word, UINT64_MAX);
}

/* A call's word by its letter. */
static void read_word(const struct kind *kind, struct order *o, char letter, const char *word, const char *other)
{
    switch (letter) {
    case 'k': read_key(kind, o, word); return;
    case 'v':
        if (kind->values)
            o->value = number_of(word, UINT64_MAX);
        else if (word == NULL || strcmp(word, "-") != 0)
            stop(MALFORMED, "expected - for a value");
        return;
    case 's': o->slot = number_of(word, UINT64_MAX); return;
    case 'a': o->asked = number_of(word, UINT64_MAX); return;
    case 'y': o->asked_bytes = number_of(word, UINT64_MAX); return;
    case 'w': o->walk = number_of(word, UINT64_MAX); return;
    case 'b': o->budget = number_of(word, UINT64_MAX); return;
    case '0': number_of(word, 0); return;
    case 'h':
        o->which = word != NULL && strcmp(word, "occupied") == 0 ? MOSS_OCCUPIED : MOSS_VACANT;
        if (word == NULL || (o->which == MOSS_VACANT && strcmp(word, "vacant") != 0))
            stop(MALFORMED, "expected occupied or vacant");
        return;
    case 'o':
        if (word == NULL || strcmp(word, other) != 0)
            stop(MALFORMED, "expected the other table, %s", other);
        return;
    }
}

/* `call T NAME WORDS`: the call, with its words in the order. */
static enum call read_call(const struct kind *kind, struct table tables[2], struct order *o)
{
    char *rest = line;
    if (strcmp(cut(&rest), "call") != 0)
        stop(MALFORMED, "expected a call or end");
    const char *table = cut(&rest), *name = cut(&rest);
    if (table == NULL || name == NULL || (strcmp(table, "A") != 0 && strcmp(table, "B") != 0))
        stop(MALFORMED, "expected A or B and the name of a call");
    bool first = strcmp(table, "A") == 0;
    o->table = &tables[first ? 0 : 1];
    o->other = &tables[first ? 1 : 0];
    for (enum call call = 0; call < CALLS; call++) {
        if (strcmp(name, calls[call].name) != 0 || kind->functions[call] == NULL)
            continue;
        for (const char *letter = calls[call].words; *letter != '\0'; letter++)
            read_word(kind, o, *letter, cut(&rest), first ? "B" : "A");
        no_more(rest);
        return call;
    }
    stop(MALFORMED, "no call %s of %s", name, kind->name);
    return CALLS;
}

/* Makes a call on a twin of the table: it answers what is due, and leaves what the table holds. */
static void compare(const struct kind *kind, const struct order *o, function *call, struct table *copy, const moss_answer *due,
    const struct table *left, const char *name)
{
    struct order on_copy = *o;
    on_copy.table = copy;
    moss_answer a = call(&on_copy);
    if (memcmp(&a, due, sizeof a) != 0)
        stop(WRONG, "the answer of %s", name);
    test_margins(kind, copy);
    for (size_t c = 0; c < kind->columns; c++)
        if (!same_bytes(copy->columns[c].data, left->columns[c].data, left->columns[c].count * kind->column[c].width))
            stop(WRONG, "the memory of %s", name);
}

/* Beside a removal by handle: remove_entry answers the same, with the key where it is a word, and leaves the same memory. */
static void compare_remove_entry(const struct kind *kind, const struct order *o, struct table *copy, const moss_answer *a)
{
    moss_answer due = *a;
    due.key = a->refusal == 0 ? o->key : 0;
    compare(kind, o, kind->functions[REMOVE_ENTRY], copy, &due, o->table, "remove_entry");
}

/* Beside a step: the lent walk's step answers the same and leaves the same memory, and the walk is the answer's. */
static void compare_walk_on(const struct kind *kind, const struct order *o, struct table *copy, const moss_answer *a)
{
    uint64_t walk = o->walk;
    struct order lending = *o;
    lending.lent = &walk;
    compare(kind, &lending, kind->functions[WALK_ON], copy, a, o->table, "walk_on");
    if (walk != a->walk)
        stop(WRONG, "the walk of walk_on");
}

/* Beside or_insert and insert_entry: a case that is neither occupied nor vacant is a vacant handle of slot S. */
static void compare_neither(const struct kind *kind, const struct order *o, function *call, struct table *copy)
{
    static const uint64_t neither[] = {0, MOSS_DONE, MOSS_PAIR, UINT64_MAX};
    struct table was = twin(kind, copy);
    struct order other = *o;
    other.table = copy;
    other.which = MOSS_VACANT;
    other.slot = copy->columns[0].count;
    moss_answer due = call(&other);
    other.slot = o->slot;
    for (size_t i = 0; i < sizeof neither / sizeof neither[0]; i++) {
        other.which = neither[i];
        compare(kind, &other, call, copy, &due, &was, "neither occupied nor vacant");
    }
    take_back(kind, &was);
}

/* Makes a call, and prints what it answers and leaves. */
static void play(const struct kind *kind, struct table tables[2], bool memory)
{
    struct order o = {0};
    enum call call = read_call(kind, tables, &o);
    struct table copy = twin(kind, o.table);
    for (int t = 0; t < 2; t++)
        remember(kind, &tables[t]);
    moss_answer a = kind->functions[call](&o);
    for (int t = 0; t < 2; t++)
        test_margins(kind, &tables[t]);
    test_margin(&o.bytes, o.bytes.count, "the key");
    if (call == OCCUPIED_REMOVE)
        compare_remove_entry(kind, &o, &copy, &a);
    if (call == STEP)
        compare_walk_on(kind, &o, &copy, &a);
    if (call == OR_INSERT || call == INSERT_ENTRY)
        compare_neither(kind, &o, kind->functions[call], &copy);
    take_back(kind, &copy);
    printf("answer ");
    if (a.refusal != 0)
        print_refusal(&o, call, &a);
    else
        print_case(kind, &o, call, &a);
    putchar('\n');
    take_back_array(&o.bytes);
    if (!memory)
        printf("digest %016" PRIx64 "\n", digest_table(digest_table(UINT64_C(0xcbf29ce484222325), kind, &tables[0]), kind, &tables[1]));
    else
        print_memory(kind, tables);
}

/* `scenario ID KIND after N`: the kind. Nothing is decided by the number N. */
static const struct kind *read_kind(void)
{
    char *rest = line, *word = cut(&rest), *after;
    if (strcmp(word, "scenario") != 0 || cut(&rest) == NULL || (word = cut(&rest)) == NULL)
        stop(MALFORMED, "expected scenario ID KIND after N");
    if ((after = cut(&rest)) == NULL || strcmp(after, "after") != 0)
        stop(MALFORMED, "expected after N");
    number_of(cut(&rest), UINT64_MAX);
    no_more(rest);
    for (size_t i = 0; i < sizeof kinds / sizeof kinds[0]; i++)
        if (strcmp(word, kinds[i].name) == 0)
            return &kinds[i];
    stop(MALFORMED, "no kind %s", word);
    return NULL;
}

static void play_scenario(bool memory)
{
    puts(line);
    const struct kind *kind = read_kind();
    need_thing();
    struct table tables[2] = {0};
    tables[0] = read_table(kind, "table A");
    tables[1] = read_table(kind, "table B");
    for (; strcmp(line, "end") != 0; need_thing()) {
        puts(line);
        play(kind, tables, memory);
    }
    puts(line);
    take_back(kind, &tables[0]);
    take_back(kind, &tables[1]);
}

/* `digest BYTES HEX16` or `home BYTES COUNT ANSWER`, outside scenarios: the same with the library's answer. */
static void play_key(void)
{
    char *rest = line, *name = cut(&rest), *word = cut(&rest);
    struct array bytes = bytes_of(word);
    if (strcmp(name, "digest") == 0) {
        printf("digest %s %016" PRIx64 "\n", word, moss_digest(bytes.data, bytes.count));
    } else {
        uint64_t slots = number_of(cut(&rest), UINT64_MAX);
        printf("home %s %" PRIu64 " %" PRIu64 "\n", word, slots, moss_home(bytes.data, bytes.count, slots));
    }
    if (cut(&rest) == NULL)
        stop(MALFORMED, "an answer is missing");
    no_more(rest);
    take_back_array(&bytes);
}

int main(int count, char **words)
{
    bool memory = count == 2 && strcmp(words[1], "--memory") == 0;
    if (count > 1 && !memory)
        stop(MALFORMED, "the only option is --memory");
    while (next_thing(false)) {
        if (starts("digest ") || starts("home "))
            play_key();
        else
            play_scenario(memory);
    }
    return 0;
}
