/* The text of an outcome's errors is written as far as there is room for it and for the 0 after it, and no further. Any
 * outcome has one, also such as no call writes. */
#include <naga_check.h>
#include <stdio.h>
#include <string.h>

#define MOST 256
#define MOST_OF_ANY 1024
#define ROUNDS 100000

/* A scalar of half a width, an array whose elements don't fit its stride, variables, a function and entry points that
 * declare what they may not, and numbers that no call writes. */
static const naga_check_outcome refused[] = {
    {3, 4, 0, 0, 0, {NAGA_CHECK_KIND_FLOAT, 2, NAGA_CHECK_CAPABILITY_SHADER_FLOAT16, 0, 0}, NAGA_CHECK_STAGE_TYPE,
     NAGA_CHECK_ITEM_KIND_TYPE,
     {NAGA_CHECK_TYPE_ERROR_WIDTH_ERROR, NAGA_CHECK_WIDTH_ERROR_MISSING_CAPABILITY, 0, 0}, 3, 0},
    {12, 13, 0, 0, 0, {8, 16, 0, 0, 0}, NAGA_CHECK_STAGE_TYPE, NAGA_CHECK_ITEM_KIND_TYPE,
     {NAGA_CHECK_TYPE_ERROR_INVALID_ARRAY_STRIDE, 0, 0, 0}, 2, 0},
    {1, 5, 0, 0, 0, {NAGA_CHECK_SPACE_STORAGE, 4, 1, 20, 16}, NAGA_CHECK_STAGE_GLOBAL_VARIABLE,
     NAGA_CHECK_ITEM_KIND_GLOBAL_VARIABLE,
     {NAGA_CHECK_GLOBAL_VARIABLE_ERROR_ALIGNMENT, NAGA_CHECK_DISALIGNMENT_MEMBER_OFFSET, 0, 0}, 5, 0},
    {0, 1, 0, 0, 0, {NAGA_CHECK_TYPE_DATA | NAGA_CHECK_TYPE_SIZED | NAGA_CHECK_TYPE_HOST_SHAREABLE, 0, 0, 0, 0},
     NAGA_CHECK_STAGE_GLOBAL_VARIABLE, NAGA_CHECK_ITEM_KIND_GLOBAL_VARIABLE,
     {NAGA_CHECK_GLOBAL_VARIABLE_ERROR_MISSING_TYPE_FLAGS, 0, 0, 0}, 2, 0},
    {2, 1, 3, 0, 0, {1, NAGA_CHECK_SPACE_STORAGE, NAGA_CHECK_ACCESS_LOAD, 0, 0}, NAGA_CHECK_STAGE_DECLARATIONS,
     NAGA_CHECK_ITEM_KIND_FUNCTION,
     {NAGA_CHECK_FUNCTION_DECLARATION_ERROR_INVALID_ARGUMENT_POINTER_SPACE, 0, 0, 0}, 3, 0},
    {0, 1, 0, 1, 0, {2, 7, 0, 0, 0}, NAGA_CHECK_STAGE_INTERFACE, NAGA_CHECK_ITEM_KIND_ENTRY_POINT,
     {NAGA_CHECK_ENTRY_POINT_ERROR_FUNCTION, NAGA_CHECK_FUNCTION_DECLARATION_ERROR_LOCAL_VARIABLE,
      NAGA_CHECK_LOCAL_VARIABLE_ERROR_INVALID_TYPE, 0}, 2, 0},
    {0, 1, 0, 1, 0, {3, NAGA_CHECK_BUILT_IN_POSITION, 0, 0, 0}, NAGA_CHECK_STAGE_INTERFACE,
     NAGA_CHECK_ITEM_KIND_ENTRY_POINT,
     {NAGA_CHECK_ENTRY_POINT_ERROR_ARGUMENT, NAGA_CHECK_VARYING_ERROR_INVALID_BUILT_IN_STAGE, 0, 0}, 2, 0},
    {0, 1, 2, 1, 0, {UINT64_MAX, 0, 0, 0, 0}, NAGA_CHECK_STAGE_ENTRY_POINT, NAGA_CHECK_ITEM_KIND_EXPRESSION,
     {NAGA_CHECK_EXPRESSION_ERROR_LITERAL, 7, 0, 0}, 0, 5},
    {0, 0, 0, 0, 0, {0, 0, 0, 0, 0}, 77, 0, {0, 0, 0, 0}, 0, 0},
    {9, 0, 0, 0, 0, {0, 0, 0, 0, 0}, NAGA_CHECK_STAGE_NONE, 0, {3, 0, 0, 0}, 0, 0},
};
static const char *const texts[] = {
    "Type [3] is invalid: Using `f16` values requires the `naga::valid::Capabilities::SHADER_FLOAT16` flag",
    "Type [12] is invalid: Array stride 8 does not match the expected 16",
    "Global variable [1] is invalid: Alignment requirements for address space Storage are not met by [4]: "
    "The struct member[1] offset 20 is not a multiple of the required alignment 16",
    "Global variable [0] is invalid: Type flags TypeFlags(0x0) do not meet the required "
    "TypeFlags(DATA | SIZED | HOST_SHAREABLE)",
    "Function [2] is invalid: Argument at index 1 is a pointer of space "
    "Storage { access: StorageAccess { load: true, store: false, atomic: false } }, which can't be passed into "
    "functions",
    "Entry point [0] is invalid: Local variable [2] is invalid: "
    "Local variable has a type [7] that can't be stored in a local variable",
    "Entry point [0] is invalid: Argument 3 varying error: "
    "Built-in Position { invariant: false } is not available at this stage",
    "Expression [5] of entry point [0] is invalid: unknown error",
    "unknown error",
    "",
};

static int failed;

static void require(int holds, const char *what, size_t room) {
  if (holds) return;
  printf("error_text: %s, with room for %u\n", what, (unsigned)room);
  failed = 1;
}

/* Writes a text with some room, between bytes that have to stay as they are. */
static void try_room(const naga_check_outcome *outcome, const char *text, size_t room) {
  char buffer[MOST];
  const size_t length = strlen(text), written = length < room ? length : room ? room - 1 : 0;
  size_t at = room ? written + 1 : 0;
  memset(buffer, '#', sizeof buffer);
  require(naga_check_error_text(outcome, buffer, room) == length, "another length", room);
  require(memcmp(buffer, text, written) == 0, "another text", room);
  require(!room || buffer[written] == 0, "no 0 at the end", room);
  for (; at < MOST; at++) require(buffer[at] == '#', "more than the text and a 0", room);
}

/* The next of many numbers, which are the same each time. */
static uint64_t next_number(void) {
  static uint64_t state = 1;
  state ^= state << 13;
  state ^= state >> 7;
  state ^= state << 17;
  return state;
}

/* An outcome of any numbers: mostly such as some error has, or holds. */
static naga_check_outcome any_outcome(void) {
  naga_check_outcome outcome = {0, 0, 0, 0, 0, {0, 0, 0, 0, 0}, 0, 0, {0, 0, 0, 0}, 0, 0};
  size_t each;
  outcome.index = next_number();
  outcome.stage = (uint32_t)(next_number() % 14);
  outcome.kind = (uint32_t)(next_number() % 11);
  outcome.expression = (uint32_t)next_number();
  for (each = 0; each < 5; each++) outcome.values[each] = next_number() >> (next_number() % 4 ? 60 : 0);
  for (each = 0; each < 4; each++) outcome.errors[each] = (uint32_t)(next_number() % (each ? 24 : 66));
  return outcome;
}

/* The text of any outcome, whole and cut. */
static void try_any_outcome(void) {
  const naga_check_outcome outcome = any_outcome();
  char whole[MOST_OF_ANY], cut[MOST];
  const size_t length = naga_check_error_text(&outcome, whole, sizeof whole);
  require(length < sizeof whole && strlen(whole) == length, "no text of any outcome", sizeof whole);
  require(naga_check_error_text(&outcome, cut, sizeof cut) == length, "another length", sizeof cut);
  require(strlen(cut) == (length < MOST ? length : MOST - 1), "a text of another length", sizeof cut);
  require(strncmp(cut, whole, strlen(cut)) == 0, "another text", sizeof cut);
}

int main(void) {
  size_t each, room;
  for (each = 0; each < sizeof texts / sizeof *texts; each++)
    for (room = 0; room < MOST; room++) try_room(&refused[each], texts[each], room);
  for (each = 0; each < ROUNDS; each++) try_any_outcome();
  require(naga_check_error_text(&refused[1], NULL, 0) == strlen(texts[1]), "another length to a null pointer", 0);
  require(naga_check_error_text(&refused[1], NULL, 9) == strlen(texts[1]), "another length to a null pointer", 9);
  require(naga_check_error_text(NULL, NULL, 0) == 0, "a text of a null pointer", 0);
  return failed;
}
