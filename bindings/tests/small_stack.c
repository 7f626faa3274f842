/* Makes each call on modules whose parts are nested deep, in a thread with the stack that the header asks for. A call
 * that needs more ends the process.
 */
#include <naga_check.h>
#include <pthread.h>
#include <stdio.h>
#include <stdlib.h>
#include <string.h>

#define NONE NAGA_CHECK_NONE
#define EXPRESSION(form, count) NAGA_CHECK_ITEM(NAGA_CHECK_EXPRESSION(NAGA_CHECK_FORM_##form), count)
#define GLOBAL(form, count) NAGA_CHECK_ITEM(NAGA_CHECK_GLOBAL_EXPRESSION(NAGA_CHECK_FORM_##form), count)
#define ADD(...) add((const uint32_t[]){__VA_ARGS__}, sizeof((const uint32_t[]){__VA_ARGS__}) / sizeof(uint32_t))

enum { DEEP = 20000, MOST_DEEP_WORDS = 1000000, STACK = 256 << 10 };

static uint32_t words[MOST_DEEP_WORDS];
static size_t count;
static uint32_t last_type;

static void add(const uint32_t *item, size_t length) {
  if (count + length > MOST_DEEP_WORDS) abort();
  memcpy(words + count, item, length * sizeof *item);
  count += length;
}

static void add_number(void) { ADD(NAGA_CHECK_ITEM(NAGA_CHECK_OP_SCALAR, 3), NONE, NAGA_CHECK_KIND_UINT, 4); }

static void add_structs(uint32_t depth) {
  add_number();
  for (last_type = 0; last_type < depth; last_type++)
    ADD(NAGA_CHECK_ITEM(NAGA_CHECK_OP_STRUCT, 8), NONE, 4, NONE, last_type, 0, 0, 0, 0);
}

static void structs(void) { add_structs(DEEP); }

/* As deep as the header says that slots bear. */
static void structs_of_slots(void) { add_structs(1000); }

static void arrays(void) {
  add_number();
  for (last_type = 0; last_type < DEEP; last_type++)
    ADD(NAGA_CHECK_ITEM(NAGA_CHECK_OP_ARRAY, 5), NONE, last_type, NAGA_CHECK_LENGTH_CONSTANT, 1, 4);
}

static void overrides(void) {
  uint32_t at;
  add_number();
  ADD(NAGA_CHECK_ITEM(NAGA_CHECK_OP_OVERRIDE, 4), NONE, 0, NONE, NONE);
  for (at = 0; at < DEEP; at++) {
    ADD(GLOBAL(OVERRIDE, 1), at);
    ADD(NAGA_CHECK_ITEM(NAGA_CHECK_OP_OVERRIDE, 4), NONE, 0, at, NONE);
  }
}

static void operators(void) {
  uint32_t at;
  add_number();
  ADD(NAGA_CHECK_ITEM(NAGA_CHECK_OP_OVERRIDE, 4), NONE, 0, NONE, NONE);
  ADD(GLOBAL(OVERRIDE, 1), 0);
  for (at = 0; at < DEEP; at++) ADD(GLOBAL(UNARY, 2), NAGA_CHECK_UNARY_BITWISE_NOT, at);
}

/* A function that divides by constant 0. */
static void add_division(void) {
  ADD(NAGA_CHECK_ITEM(NAGA_CHECK_OP_FUNCTION, 1), NONE);
  ADD(EXPRESSION(CONSTANT, 1), 0);
  ADD(EXPRESSION(BINARY, 3), NAGA_CHECK_BINARY_DIVIDE, 0, 0);
}

/* Each composition but the first has the one before, so it has too many components, which only the rule of constants
 * refuses. */
static void add_compositions(void) {
  uint32_t at;
  add_number();
  ADD(NAGA_CHECK_ITEM(NAGA_CHECK_OP_VECTOR, 4), NONE, 2, NAGA_CHECK_KIND_UINT, 4);
  ADD(GLOBAL(LITERAL, 3), NAGA_CHECK_LITERAL_U32, 1, 0);
  for (at = 0; at < DEEP; at++) ADD(GLOBAL(COMPOSE, 3), 1, at, 0);
  ADD(NAGA_CHECK_ITEM(NAGA_CHECK_OP_CONSTANT, 3), NONE, 1, DEEP);
  add_division();
}

static void compositions(void) { add_compositions(); }

static void expressions(void) {
  uint32_t at;
  ADD(NAGA_CHECK_ITEM(NAGA_CHECK_OP_FUNCTION, 1), NONE);
  ADD(EXPRESSION(LITERAL, 3), NAGA_CHECK_LITERAL_U32, 1, 0);
  for (at = 0; at < DEEP; at++) ADD(EXPRESSION(UNARY, 2), NAGA_CHECK_UNARY_BITWISE_NOT, at);
}

static void blocks(void) {
  uint32_t at;
  ADD(NAGA_CHECK_ITEM(NAGA_CHECK_OP_FUNCTION, 1), NONE);
  for (at = 0; at < 127; at++) ADD(NAGA_CHECK_ITEM(NAGA_CHECK_STATEMENT_LOOP, 0));
  for (at = 0; at < 127; at++) {
    ADD(NAGA_CHECK_ITEM(NAGA_CHECK_STATEMENT_CONTINUING, 0));
    ADD(NAGA_CHECK_ITEM(NAGA_CHECK_STATEMENT_END_LOOP, 1), NONE);
  }
}

static void functions(void) {
  uint32_t at;
  for (at = 0; at < DEEP; at++) {
    ADD(NAGA_CHECK_ITEM(NAGA_CHECK_OP_FUNCTION, 1), NONE);
    if (at > 0) ADD(NAGA_CHECK_ITEM(NAGA_CHECK_STATEMENT_CALL, 2), at - 1, NONE);
  }
}

static void filters(void) {
  uint32_t at;
  for (at = 0; at < DEEP; at++) ADD(NAGA_CHECK_ITEM(NAGA_CHECK_OP_FILTER, 1), at > 0 ? at - 1 : NONE);
}

static const struct {
  const char *name;
  void (*write)(void);
  naga_check_status of_words, of_functions;
  int has_slots;
} modules[] = {
    {"structs", structs, NAGA_CHECK_OK, NAGA_CHECK_OK, 0},
    {"structs for slots", structs_of_slots, NAGA_CHECK_OK, NAGA_CHECK_OK, 1},
    {"arrays", arrays, NAGA_CHECK_OK, NAGA_CHECK_OK, 1},
    {"overrides", overrides, NAGA_CHECK_OK, NAGA_CHECK_OK, 1},
    {"operators", operators, NAGA_CHECK_OK, NAGA_CHECK_OK, 1},
    {"expressions", expressions, NAGA_CHECK_OK, NAGA_CHECK_OK, 1},
    {"blocks", blocks, NAGA_CHECK_OK, NAGA_CHECK_OK, 1},
    {"functions", functions, NAGA_CHECK_OK, NAGA_CHECK_OK, 1},
    {"filters", filters, NAGA_CHECK_OK, NAGA_CHECK_OK, 1},
    {"compositions", compositions, NAGA_CHECK_REFUSED, NAGA_CHECK_REFUSED, 1},
    {"unchecked compositions", compositions, NAGA_CHECK_OK, NONE, 1},
};

/* Makes the calls on a module. Returns null if all return what they have to. */
static void *ask_about(void *at) {
  static naga_check_leaf leaves[4];
  static uint32_t paths[2 * DEEP];
  static naga_check_type_info infos[1];
  const size_t which = *(const size_t *)at;
  naga_check_outcome outcome;
  naga_check_counts counts;
  uint64_t slots;
  naga_check_status of_functions;
  naga_check_options options = NAGA_CHECK_OPTIONS_DEFAULT;
  options.capabilities = NAGA_CHECK_CAPABILITY_ALL;
  /* Compositions of which each has too many components are accepted only if constants are not validated. */
  if (modules[which].write == compositions && modules[which].of_words == NAGA_CHECK_OK)
    options.flags = NAGA_CHECK_VALIDATE_ALL & ~NAGA_CHECK_VALIDATE_CONSTANTS;
  if (naga_check_words(words, count, &options, infos, 0, &outcome) != modules[which].of_words) return at;
  of_functions = naga_check_functions(words, count, &options, paths, 0, &outcome);
  if (modules[which].of_functions != NONE && of_functions != modules[which].of_functions) return at;
  if (naga_check_declarations(words, count, &options, &outcome) == NAGA_CHECK_OK && of_functions != NAGA_CHECK_OK) return at;
  naga_check_leaves(words, count, &options, &last_type, 1, 1, leaves, 4, paths, 2 * DEEP, &counts, &outcome);
  if (modules[which].has_slots) naga_check_slots(words, count, &options, last_type, 0, &slots, &outcome);
  return NULL;
}

int main(void) {
  pthread_attr_t attributes;
  size_t at;
  int failed = 0;
  pthread_attr_init(&attributes);
  if (pthread_attr_setstacksize(&attributes, STACK) != 0) return 2;
  for (at = 0; at < sizeof modules / sizeof *modules; at++) {
    pthread_t thread;
    void *wrong;
    count = 0;
    last_type = 0;
    modules[at].write();
    printf("small_stack: %s in %lu words\n", modules[at].name, (unsigned long)count);
    fflush(stdout);
    if (pthread_create(&thread, &attributes, ask_about, &at) != 0) return 2;
    pthread_join(thread, &wrong);
    if (wrong != NULL) printf("small_stack: another answer about %s\n", modules[at].name);
    failed += wrong != NULL;
  }
  return failed != 0;
}
