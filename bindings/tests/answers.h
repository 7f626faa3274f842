/* Every call on a module or a text, with all that it writes. */
#ifndef ANSWERS_H
#define ANSWERS_H

#include <naga_check.h>
#include <stdio.h>
#include <stdlib.h>
#include <string.h>

enum { MOST_WORDS = 4096, MOST_TYPES = 64, MOST_CALLABLES = 16, MOST_LEAVES = 64, MOST_INDEXES = 256 };
enum { MOST_BYTES = 256 };
enum {
  ABOUT_REPORT,
  ABOUT_TEXT,
  ABOUT_WORDS,
  ABOUT_FUNCTIONS,
  ABOUT_DECLARATIONS,
  ABOUT_LEAVES,
  ABOUT_SLOTS,
  DIRECT_CALLS
};
/* The same on a module that is opened before and closed after the call. */
enum { OPEN_WORDS = DIRECT_CALLS, OPEN_FUNCTIONS, OPEN_DECLARATIONS, OPEN_LEAVES, OPEN_SLOTS, CALLS };

static const char *const call_names[CALLS] = {"report", "text", "words", "functions", "declarations", "leaves", "slots",
                                              "words of an open module", "functions of an open module",
                                              "declarations of an open module", "leaves of an open module",
                                              "slots of an open module"};

/* Options that leave what may be used to the words. */
static const naga_check_options by_words = {
    sizeof(naga_check_options), NAGA_CHECK_VALIDATE_ALL, NAGA_CHECK_CAPABILITY_ALL, 0, NAGA_CHECK_SETTINGS_NARROW,
    UINT64_MAX, UINT64_MAX, UINT64_MAX};

/* What a call returned and wrote. What it left as it was is 0. */
typedef struct {
  naga_check_status status;
  naga_check_outcome outcome;
  naga_check_type_info infos[MOST_TYPES];
  uint32_t stages[MOST_CALLABLES];
  naga_check_leaf leaves[MOST_LEAVES];
  uint32_t paths[MOST_INDEXES];
  naga_check_counts counts;
  uint64_t slots;
  uint8_t report[MOST_BYTES];
  size_t length;
} answer;

/* What is asked about. */
typedef struct {
  const char *text;
  uint32_t words[MOST_WORDS];
  size_t word_count;
  uint32_t type; /* whose leaves and slots are asked for */
} question;

/* The words of a file, a line each. */
static inline void read_words(const char *path, question *asked) {
  unsigned long word;
  FILE *file = fopen(path, "r");
  if (!file) {
    perror(path);
    exit(2);
  }
  asked->word_count = 0;
  while (asked->word_count < MOST_WORDS && fscanf(file, "%lu", &word) == 1)
    asked->words[asked->word_count++] = (uint32_t)word;
  fclose(file);
}

/* Opens a module, makes a call on it if it is open, and closes it. */
static inline void ask_open(const question *asked, int call, answer *given) {
  naga_check_module module;
  naga_check_counts counts;
  given->status = naga_check_open(asked->words, asked->word_count, &by_words, &module, &given->outcome);
  if (given->status == NAGA_CHECK_OK) {
    switch (call) {
    case OPEN_WORDS:
      given->status = naga_check_module_types(&module, given->infos, MOST_TYPES, &given->outcome);
      break;
    case OPEN_FUNCTIONS:
      given->status = naga_check_module_functions(&module, given->stages, MOST_CALLABLES, &given->outcome);
      break;
    case OPEN_DECLARATIONS:
      given->status = naga_check_module_declarations(&module, &given->outcome);
      break;
    case OPEN_LEAVES:
      given->status = naga_check_module_leaves(&module, &asked->type, 1, 3, given->leaves, MOST_LEAVES, given->paths,
                                               MOST_INDEXES, &given->counts, &given->outcome);
      if (given->status == NAGA_CHECK_OK &&
          naga_check_module_count_leaves(&module, &asked->type, 1, 3, &counts, NULL) == NAGA_CHECK_OK &&
          memcmp(&counts, &given->counts, sizeof counts) != 0)
        given->counts = counts;
      break;
    default:
      given->status = naga_check_module_slots(&module, asked->type, 4, &given->slots, &given->outcome);
    }
  }
  naga_check_close(&module);
}

static inline void ask(const question *asked, int call, answer *given) {
  const uint32_t *words = asked->words;
  const size_t count = asked->word_count;
  memset(given, 0, sizeof *given);
  if (call >= DIRECT_CALLS) {
    ask_open(asked, call, given);
    return;
  }
  switch (call) {
  case ABOUT_REPORT:
    given->status = naga_check_report((const uint8_t *)asked->text, strlen(asked->text), given->report, MOST_BYTES,
                                      &given->length);
    break;
  case ABOUT_TEXT:
    given->status = naga_check_text((const uint8_t *)asked->text, strlen(asked->text), &by_words, given->infos,
                                    MOST_TYPES, &given->outcome);
    break;
  case ABOUT_WORDS:
    given->status = naga_check_words(words, count, &by_words, given->infos, MOST_TYPES, &given->outcome);
    break;
  case ABOUT_FUNCTIONS:
    given->status = naga_check_functions(words, count, &by_words, given->stages, MOST_CALLABLES, &given->outcome);
    break;
  case ABOUT_DECLARATIONS:
    given->status = naga_check_declarations(words, count, &by_words, &given->outcome);
    break;
  case ABOUT_LEAVES:
    given->status = naga_check_leaves(words, count, &by_words, &asked->type, 1, 3, given->leaves, MOST_LEAVES,
                                      given->paths, MOST_INDEXES, &given->counts, &given->outcome);
    break;
  default:
    given->status = naga_check_slots(words, count, &by_words, asked->type, 4, &given->slots, &given->outcome);
  }
}

#endif
