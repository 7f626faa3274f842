/* Null pointers stand for buffers without elements, for what nobody wants, and for the default options; and what comes
 * with a module can't loosen the options. */
#include <naga_check.h>
#include <stdio.h>

#define NONE NAGA_CHECK_NONE

/* A f16, which needs a capability. */
static const uint32_t number[] = {NAGA_CHECK_ITEM(NAGA_CHECK_OP_SCALAR, 3), NONE, NAGA_CHECK_KIND_FLOAT, 2};
/* The same, with all capabilities that there are. */
static const uint32_t loosened[] = {
    NAGA_CHECK_ITEM(NAGA_CHECK_OP_CAPABILITIES, 2), 0xFFFFFFFFu, 0xFFFu,
    NAGA_CHECK_ITEM(NAGA_CHECK_OP_SCALAR, 3), NONE, NAGA_CHECK_KIND_FLOAT, 2};

static int failed;

static void require(int holds, const char *what) {
  if (holds) return;
  printf("nulls: %s\n", what);
  failed = 1;
}

static void try_nulls(void) {
  require(naga_check_words(NULL, 0, NULL, NULL, 0, NULL) == NAGA_CHECK_OK, "words");
  require(naga_check_functions(NULL, 0, NULL, NULL, 0, NULL) == NAGA_CHECK_OK, "functions");
  require(naga_check_declarations(NULL, 0, NULL, NULL) == NAGA_CHECK_OK, "declarations");
  require(naga_check_leaves(NULL, 0, NULL, NULL, 0, 0, NULL, 0, NULL, 0, NULL, NULL) == NAGA_CHECK_OK, "leaves");
  require(naga_check_count_leaves(NULL, 0, NULL, NULL, 0, 0, NULL, NULL) == NAGA_CHECK_OK, "counts");
  require(naga_check_slots(NULL, 0, NULL, 0, 0, NULL, NULL) == NAGA_CHECK_NO_TYPE, "slots");
  require(naga_check_text(NULL, 0, NULL, NULL, 0, NULL) == NAGA_CHECK_OK, "text");
  require(naga_check_report(NULL, 0, NULL, 0, NULL) == NAGA_CHECK_ROOM, "report");
  require(naga_check_error_text(NULL, NULL, 0) == 0, "text of errors");
}

static void try_closed(void) {
  naga_check_module module = NAGA_CHECK_MODULE_CLOSED, *const modules[] = {NULL, &module};
  const uint32_t type = 0;
  size_t at;
  for (at = 0; at < 2; at++) {
    naga_check_close(modules[at]);
    require(naga_check_module_types(modules[at], NULL, 0, NULL) == NAGA_CHECK_NOT_OPEN, "types of none");
    require(naga_check_module_functions(modules[at], NULL, 0, NULL) == NAGA_CHECK_NOT_OPEN, "functions of none");
    require(naga_check_module_declarations(modules[at], NULL) == NAGA_CHECK_NOT_OPEN, "declarations of none");
    require(naga_check_module_leaves(modules[at], &type, 1, 0, NULL, 0, NULL, 0, NULL, NULL) == NAGA_CHECK_NOT_OPEN,
            "leaves of none");
    require(naga_check_module_count_leaves(modules[at], &type, 1, 0, NULL, NULL) == NAGA_CHECK_NOT_OPEN,
            "counts of none");
    require(naga_check_module_slots(modules[at], 0, 0, NULL, NULL) == NAGA_CHECK_NOT_OPEN, "slots of none");
  }
  require(naga_check_open(NULL, 0, NULL, NULL, NULL) == NAGA_CHECK_OK, "a module that nobody wants");
  require(naga_check_open(number, 4, NULL, &module, NULL) == NAGA_CHECK_REFUSED && !module.at, "a refused one");
  require(naga_check_open(NULL, 0, NULL, &module, NULL) == NAGA_CHECK_OK && module.at, "an empty one");
  require(naga_check_module_types(&module, NULL, 0, NULL) == NAGA_CHECK_OK, "types of nothing");
  require(naga_check_module_functions(&module, NULL, 0, NULL) == NAGA_CHECK_OK, "functions of nothing");
  require(naga_check_module_declarations(&module, NULL) == NAGA_CHECK_OK, "declarations of nothing");
  require(naga_check_module_leaves(&module, NULL, 0, 0, NULL, 0, NULL, 0, NULL, NULL) == NAGA_CHECK_OK, "leaves");
  require(naga_check_module_count_leaves(&module, NULL, 0, 0, NULL, NULL) == NAGA_CHECK_OK, "counts of nothing");
  require(naga_check_module_slots(&module, 0, 0, NULL, NULL) == NAGA_CHECK_NO_TYPE, "slots of nothing");
  naga_check_close(&module);
  require(!module.at, "closed");
}

static void try_options(void) {
  naga_check_options options = NAGA_CHECK_OPTIONS_DEFAULT, zero = {0, 0, 0, 0, 0, 0, 0, 0};
  require(naga_check_words(number, 4, NULL, NULL, 0, NULL) == NAGA_CHECK_REFUSED, "no f16 by default");
  require(naga_check_words(loosened, 7, NULL, NULL, 0, NULL) == NAGA_CHECK_SETTINGS, "no settings by default");
  options.settings = NAGA_CHECK_SETTINGS_NARROW;
  require(naga_check_words(loosened, 7, &options, NULL, 0, NULL) == NAGA_CHECK_REFUSED, "settings only narrow");
  options.capabilities = NAGA_CHECK_CAPABILITY_ALL;
  require(naga_check_words(loosened, 7, &options, NULL, 0, NULL) == NAGA_CHECK_OK, "both allow it");
  options.size--;
  require(naga_check_words(number, 4, &options, NULL, 0, NULL) == NAGA_CHECK_OPTIONS, "another size");
  require(naga_check_words(NULL, 0, &zero, NULL, 0, NULL) == NAGA_CHECK_OPTIONS, "no size");
  zero.size = (uint32_t)sizeof zero;
  require(naga_check_words(number, 4, &zero, NULL, 0, NULL) == NAGA_CHECK_LIMIT, "zero lets nothing be read");
  zero.resolved = 2;
  require(naga_check_words(NULL, 0, &zero, NULL, 0, NULL) == NAGA_CHECK_OPTIONS, "resolved is 0 or 1");
}

int main(void) {
  try_nulls();
  try_closed();
  try_options();
  return failed;
}
