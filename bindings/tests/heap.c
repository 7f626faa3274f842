/* Prints what heap the calls on words take at most for modules of many items of one kind: the words of an item, and the
 * bytes of heap for one word, rounded up. Memory that is asked for again counts twice while it is moved.
 *
 * The linker wraps malloc, realloc and free (--wrap).
 */
#include "answers.h"
#include <malloc.h>

#define NONE NAGA_CHECK_NONE
#define EXPRESSION(form, count) NAGA_CHECK_ITEM(NAGA_CHECK_EXPRESSION(NAGA_CHECK_FORM_##form), count)
#define GLOBAL(form, count) NAGA_CHECK_ITEM(NAGA_CHECK_GLOBAL_EXPRESSION(NAGA_CHECK_FORM_##form), count)

void *__real_malloc(size_t size);
void *__real_realloc(void *old, size_t size);
void __real_free(void *old);

static size_t live, most_live;

static void note(size_t more, size_t less) {
  live += more;
  if (live > most_live) most_live = live;
  live -= less;
}

void *__wrap_malloc(size_t size) {
  void *made = __real_malloc(size);
  if (made) note(malloc_usable_size(made), 0);
  return made;
}

void *__wrap_realloc(void *old, size_t size) {
  const size_t before = old ? malloc_usable_size(old) : 0;
  void *made = __real_realloc(old, size);
  if (made) note(malloc_usable_size(made), before);
  return made;
}

void __wrap_free(void *old) {
  if (old) note(0, malloc_usable_size(old));
  __real_free(old);
}

enum { MOST = 16385, LONGEST = 32 };

/* A kind of item: words that come first, and then those of an item, where NUMBER stands for its number. */
#define NUMBER 0xABCDEF01u
typedef struct {
  const char *name;
  uint32_t first[LONGEST];
  uint32_t item[LONGEST];
} kind;

/* Words end where five zeros follow: no item has a head of 0. */
static size_t length_of(const uint32_t *item) {
  size_t length = 0;
  while (length < LONGEST && item[length] != 0) length += 1 + (item[length] >> 8);
  return length;
}

static const kind kinds[] = {
    {"array", {NAGA_CHECK_ITEM(NAGA_CHECK_OP_SCALAR, 3), NONE, NAGA_CHECK_KIND_UINT, 4},
     {NAGA_CHECK_ITEM(NAGA_CHECK_OP_ARRAY, 5), NONE, 0, NAGA_CHECK_LENGTH_CONSTANT, NUMBER, 4}},
    {"struct of one member", {NAGA_CHECK_ITEM(NAGA_CHECK_OP_SCALAR, 3), NONE, NAGA_CHECK_KIND_UINT, 4},
     {NAGA_CHECK_ITEM(NAGA_CHECK_OP_STRUCT, 8), NONE, NUMBER, NONE, 0, 0, 0, 0, 0}},
    {"constant", {0}, {NAGA_CHECK_ITEM(NAGA_CHECK_OP_CONSTANT, 3), NONE, 0, 0}},
    {"override", {0}, {NAGA_CHECK_ITEM(NAGA_CHECK_OP_OVERRIDE, 4), NONE, 0, NONE, NONE}},
    {"global variable", {0}, {NAGA_CHECK_ITEM(NAGA_CHECK_OP_GLOBAL_VARIABLE, 5), NONE, 1, 0, 0, NONE}},
    {"global expression", {0}, {GLOBAL(ZERO_VALUE, 1), 0}},
    {"global composition", {0}, {GLOBAL(COMPOSE, 2), 0, 0}},
    {"function", {0}, {NAGA_CHECK_ITEM(NAGA_CHECK_OP_FUNCTION, 1), NONE}},
    {"entry point", {0}, {NAGA_CHECK_ITEM(NAGA_CHECK_OP_ENTRY_POINT, 1), 0}},
    {"argument", {NAGA_CHECK_ITEM(NAGA_CHECK_OP_FUNCTION, 1), NONE},
     {NAGA_CHECK_ITEM(NAGA_CHECK_OP_ARGUMENT, 5), NONE, 0, 0, 0, 0}},
    {"local variable", {NAGA_CHECK_ITEM(NAGA_CHECK_OP_FUNCTION, 1), NONE},
     {NAGA_CHECK_ITEM(NAGA_CHECK_OP_LOCAL_VARIABLE, 3), NONE, 0, NONE}},
    {"named expression", {NAGA_CHECK_ITEM(NAGA_CHECK_OP_FUNCTION, 1), NONE},
     {NAGA_CHECK_ITEM(NAGA_CHECK_OP_NAMED_EXPRESSION, 2), 0, 0}},
    {"expression", {NAGA_CHECK_ITEM(NAGA_CHECK_OP_FUNCTION, 1), NONE}, {EXPRESSION(RAY_QUERY_PROCEED_RESULT, 0)}},
    {"statement", {NAGA_CHECK_ITEM(NAGA_CHECK_OP_FUNCTION, 1), NONE},
     {NAGA_CHECK_ITEM(NAGA_CHECK_STATEMENT_KILL, 0)}},
    {"block", {NAGA_CHECK_ITEM(NAGA_CHECK_OP_FUNCTION, 1), NONE},
     {NAGA_CHECK_ITEM(NAGA_CHECK_STATEMENT_BLOCK, 0), NAGA_CHECK_ITEM(NAGA_CHECK_STATEMENT_END, 0)}},
    {"call", {NAGA_CHECK_ITEM(NAGA_CHECK_OP_FUNCTION, 1), NONE},
     {NAGA_CHECK_ITEM(NAGA_CHECK_STATEMENT_CALL, 3), 0, NONE, 0}},
    {"predeclared type", {0}, {NAGA_CHECK_ITEM(NAGA_CHECK_OP_PREDECLARED_TYPE, 1), 0}},
    {"filter", {0}, {NAGA_CHECK_ITEM(NAGA_CHECK_OP_FILTER, 1), NONE}},
    {"comment", {0}, {NAGA_CHECK_ITEM(NAGA_CHECK_OP_COMMENT_ON_TYPE, 1), 0}},
};

static uint32_t words[LONGEST + MOST * LONGEST];

static size_t add(const uint32_t *item, size_t at, uint32_t number) {
  const size_t length = length_of(item);
  size_t word;
  for (word = 0; word < length; word++) words[at + word] = item[word] == NUMBER ? number : item[word];
  return at + length;
}

/* The most bytes of heap that a call takes on so many items. */
static size_t heap_of(const kind *which, uint32_t items, size_t *count) {
  uint32_t number;
  naga_check_status status;
  *count = add(which->first, 0, 0);
  for (number = 1; number <= items; number++) *count = add(which->item, *count, number);
  most_live = live = 0;
  status = naga_check_functions(words, *count, &by_words, NULL, 0, NULL);
  if (status == NAGA_CHECK_UNREADABLE || status == NAGA_CHECK_MEMORY || live != 0) {
    printf("heap: %s: status %u\n", which->name, status);
    exit(1);
  }
  return most_live;
}

int main(void) {
  size_t at;
  for (at = 0; at < sizeof kinds / sizeof *kinds; at++) {
    size_t most = 0, count, items;
    for (items = 65; items <= MOST; items = items * 2 - 1) {
      const size_t bytes = heap_of(&kinds[at], (uint32_t)items, &count);
      const size_t for_word = (bytes + count - 1) / count;
      if (for_word > most) most = for_word;
    }
    printf("%s | %zu | %zu\n", kinds[at].name, length_of(kinds[at].item), most);
  }
  return 0;
}
