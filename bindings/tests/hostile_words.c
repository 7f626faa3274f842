/* Puts 0, 1, 2^31 and 2^32 - 1 in the place of each word of a module, and cuts it after each word; and then ROUNDS times
 * changes a few words that are chosen by a seed, cuts it, or has an item say that it has more operands. Each call has to
 * return one of its statuses, and to keep to its buffers: behind each is a page that can't be read or written. What is
 * accepted with settings within the words, by options that let them narrow, is accepted without them.
 *
 *   hostile_words WORDS TYPE [ROUNDS]
 */
#define _DEFAULT_SOURCE
#include "answers.h"
#include <sys/mman.h>
#include <unistd.h>

/* So many bytes that end where a page begins that can't be used. */
static void *allocate_at_edge(size_t size) {
  const size_t page = (size_t)sysconf(_SC_PAGESIZE);
  const size_t pages = (size + page - 1) / page * page;
  char *start = mmap(NULL, pages + page, PROT_READ | PROT_WRITE, MAP_PRIVATE | MAP_ANONYMOUS, -1, 0);
  if (start == (char *)MAP_FAILED || mprotect(start + pages, page, PROT_NONE) != 0) {
    perror("hostile_words");
    exit(2);
  }
  return start + pages - size;
}

enum { FEW_TYPES = 40, FEW_CALLABLES = 8, FEW_LEAVES = 16, FEW_INDEXES = 32 };

static uint32_t *words_end;
static naga_check_type_info *infos;
static naga_check_outcome *outcome;
static naga_check_leaf *leaves;
static naga_check_counts *counts;
static uint32_t *stages, *paths, *type;
static uint64_t *slots;
static unsigned long seen[NAGA_CHECK_NOT_OPEN + 1];

/* A number that the one before decides, so that each run does the same. */
static uint64_t next_random(void) {
  static uint64_t state = 0x9E3779B97F4A7C15u;
  state ^= state << 13;
  state ^= state >> 7;
  state ^= state << 17;
  return state >> 16;
}

static void require(int holds, const char *what) {
  if (holds) return;
  printf("hostile_words: %s\n", what);
  exit(1);
}

static void note(naga_check_status status) {
  require(status <= NAGA_CHECK_NOT_OPEN, "a status that is none");
  seen[status]++;
}

/* Whether calls on a module that is opened end as those on its words, which are gone by then. */
static void try_open(uint32_t *words, size_t count, const naga_check_outcome *declared) {
  naga_check_module open;
  naga_check_outcome first;
  const naga_check_status direct = naga_check_words(words, count, &by_words, infos, FEW_TYPES, &first);
  const naga_check_status opened = naga_check_open(words, count, &by_words, &open, outcome);
  note(opened);
  require((opened == NAGA_CHECK_OK) == (open.at != NULL), "a module that is open without NAGA_CHECK_OK, or closed");
  require(opened == direct || (opened == NAGA_CHECK_OK && direct == NAGA_CHECK_ROOM), "two ways to validate");
  memset(words, 0xFF, count * sizeof *words);
  if (opened == NAGA_CHECK_OK) {
    require(naga_check_module_types(&open, infos, FEW_TYPES, outcome) == direct, "types of an open module");
    require(memcmp(outcome, &first, sizeof first) == 0, "the outcome of an open module");
    note(naga_check_module_functions(&open, stages, FEW_CALLABLES, outcome));
    note(naga_check_module_declarations(&open, outcome));
    require(memcmp(outcome, declared, sizeof *declared) == 0, "the declarations of an open module");
    note(naga_check_module_leaves(&open, type, 1, 2, leaves, FEW_LEAVES, paths, FEW_INDEXES, counts, outcome));
    note(naga_check_module_slots(&open, *type, *type, slots, outcome));
  }
  naga_check_close(&open);
  note(naga_check_module_slots(&open, *type, *type, slots, outcome));
  require(open.at == NULL, "a module that is closed has an address");
}

static void try_words(const uint32_t *module, size_t count) {
  uint32_t *words = words_end - count;
  naga_check_status first, second, third;
  naga_check_outcome functions, declared;
  memcpy(words, module, count * sizeof *words);
  first = naga_check_words(words, count, &by_words, infos, FEW_TYPES, outcome);
  note(first);
  require(first != NAGA_CHECK_UNREADABLE || outcome->index <= count, "the item that can't be read is past the end");
  require((first == NAGA_CHECK_REFUSED) == (outcome->stage != 0), "a stage without a refusal, or none with one");
  second = naga_check_functions(words, count, &by_words, stages, FEW_CALLABLES, outcome);
  note(second);
  require(outcome->written <= FEW_CALLABLES, "more stages than there is room for");
  require(first != NAGA_CHECK_REFUSED || second == NAGA_CHECK_REFUSED, "functions of a refused module");
  require((first == NAGA_CHECK_UNREADABLE) == (second == NAGA_CHECK_UNREADABLE), "two ways to read");
  functions = *outcome;
  third = naga_check_declarations(words, count, &by_words, outcome);
  declared = *outcome;
  note(third);
  require((third == NAGA_CHECK_REFUSED) == (declared.stage != 0), "a stage of declarations without a refusal");
  require(declared.written == 0 && declared.value_count <= 5, "more than an outcome has");
  require(second != NAGA_CHECK_REFUSED || third == NAGA_CHECK_REFUSED, "declarations of a refused module");
  require(declared.stage < NAGA_CHECK_STAGE_DECLARATIONS || second != NAGA_CHECK_REFUSED,
          "declarations of refused functions");
  functions.written = 0;
  require(declared.stage >= NAGA_CHECK_STAGE_GLOBAL_VARIABLE || memcmp(&declared, &functions, sizeof declared) == 0,
          "another refusal of the same module or functions");
  for (*type = 0; *type < 20; *type += 5) {
    note(naga_check_leaves(words, count, &by_words, type, 1, 2, leaves, FEW_LEAVES, paths, FEW_INDEXES, counts,
                           outcome));
    require(first != NAGA_CHECK_REFUSED || outcome->stage != 0, "leaves of a refused module");
    require(counts->leaves <= FEW_LEAVES && counts->paths <= FEW_INDEXES, "more leaves than there is room for");
    note(naga_check_slots(words, count, &by_words, *type, *type, slots, outcome));
    require(first != NAGA_CHECK_REFUSED || outcome->stage != 0, "slots of a refused module");
  }
  *type = (uint32_t)(count % 20);
  try_open(words, count, &declared);
}

/* Leaves the settings out of words that can be read, and returns how many are left. */
static size_t leave_out_settings(uint32_t *words, size_t count) {
  size_t from = 0, to = 0;
  while (from < count) {
    const size_t length = 1 + (words[from] >> 8);
    const uint32_t opcode = words[from] & 0xFFu;
    if (opcode < NAGA_CHECK_OP_FLAGS || opcode > NAGA_CHECK_OP_RESOLVED) {
      memmove(words + to, words + from, length * sizeof *words);
      to += length;
    }
    from += length;
  }
  return to;
}

/* Whether settings within the words let nothing through that the options refuse. */
static void try_settings(const uint32_t *module, size_t count) {
  static uint32_t alone[MOST_WORDS];
  naga_check_options options = by_words;
  size_t left;
  options.capabilities = next_random() % 2 ? NAGA_CHECK_CAPABILITY_DEFAULT : NAGA_CHECK_CAPABILITY_ALL;
  options.flags = next_random() % 2 ? 0 : NAGA_CHECK_VALIDATE_ALL;
  if (naga_check_words(module, count, &options, infos, FEW_TYPES, outcome) != NAGA_CHECK_OK) return;
  memcpy(alone, module, count * sizeof *alone);
  left = leave_out_settings(alone, count);
  options.settings = NAGA_CHECK_SETTINGS_REFUSED;
  require(naga_check_words(alone, left, &options, infos, FEW_TYPES, outcome) == NAGA_CHECK_OK, "settings loosen");
  options.most_words = left;
  require(naga_check_words(alone, left, &options, infos, FEW_TYPES, outcome) == NAGA_CHECK_OK, "a limit too soon");
  options.most_words = left - (left != 0);
  require(left == 0 || naga_check_words(alone, left, &options, infos, FEW_TYPES, outcome) == NAGA_CHECK_LIMIT,
          "a limit too late");
}

/* One change that a seed chooses. Returns how many words are left. */
static size_t change_words(uint32_t *words, size_t count) {
  static const uint32_t likely[] = {0, 1, 2, 4, 0x101, 0x102, 0x203, 0x7FFFFFFFu, 0x80000000u, 0xFFFFFFFFu};
  const size_t at = count == 0 ? 0 : next_random() % count;
  if (count == 0) return 0;
  switch (next_random() % 4) {
  case 0:
    words[at] = likely[next_random() % (sizeof likely / sizeof *likely)];
    break;
  case 1:
    words[at] += (uint32_t)(next_random() % 5) << 8;
    break;
  case 2:
    words[at] = (uint32_t)next_random();
    break;
  default:
    if (next_random() % 8 == 0) return at;
  }
  return count;
}

static void try_many(const question *asked, unsigned long rounds) {
  static uint32_t words[MOST_WORDS];
  unsigned long round;
  for (round = 0; round < rounds; round++) {
    size_t count = asked->word_count, changes = 1 + next_random() % 4;
    memcpy(words, asked->words, count * sizeof *words);
    while (changes-- > 0) count = change_words(words, count);
    try_words(words, count);
    try_settings(words, count);
  }
}

int main(int argc, char **argv) {
  static const uint32_t hostile[] = {0, 1, 0x80000000u, 0xFFFFFFFFu};
  static question asked;
  size_t at, value, cut;
  read_words(argv[1], &asked);
  words_end = (uint32_t *)allocate_at_edge(sizeof asked.words) + MOST_WORDS;
  infos = allocate_at_edge(FEW_TYPES * sizeof *infos);
  outcome = allocate_at_edge(sizeof *outcome);
  leaves = allocate_at_edge(FEW_LEAVES * sizeof *leaves);
  counts = allocate_at_edge(sizeof *counts);
  stages = allocate_at_edge(FEW_CALLABLES * sizeof *stages);
  paths = allocate_at_edge(FEW_INDEXES * sizeof *paths);
  type = allocate_at_edge(sizeof *type);
  slots = allocate_at_edge(sizeof *slots);
  for (at = 0; at < asked.word_count; at++) {
    const uint32_t right = asked.words[at];
    for (value = 0; value < sizeof hostile / sizeof *hostile; value++) {
      asked.words[at] = hostile[value];
      try_words(asked.words, asked.word_count);
    }
    asked.words[at] = right;
  }
  for (cut = 0; cut <= asked.word_count; cut++) try_words(asked.words, cut);
  try_many(&asked, argc > 3 ? strtoul(argv[3], NULL, 10) : 0);
  printf("hostile_words: statuses");
  for (at = 0; at <= NAGA_CHECK_NOT_OPEN; at++) printf(" %lu", seen[at]);
  printf(" from 0 to %d\n", NAGA_CHECK_NOT_OPEN);
  for (at = NAGA_CHECK_OK; at <= NAGA_CHECK_UNREADABLE; at++) require(seen[at] != 0, "a status was never returned");
  require(!seen[NAGA_CHECK_MEMORY], "memory was refused");
  return 0;
}
