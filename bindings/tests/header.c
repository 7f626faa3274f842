/* What the header promises of its structs and macros, checked where it is compiled: as C and as C++, in any version.
 * CONSTANT_COUNT and LOCAL_COUNT are how many operands an item of a constant and one of a function have: with a number
 * that no item may have this can't be compiled. */
#include <naga_check.h>

#define HOLDS(name, condition) typedef char name[(condition) ? 1 : -1]
#define IS_AT(type, field, place) HOLDS(type##_##field, offsetof(type, field) == (place))

HOLDS(size_of_status, sizeof(naga_check_status) == 4);

HOLDS(size_of_options, sizeof(naga_check_options) == 48);
IS_AT(naga_check_options, size, 0);
IS_AT(naga_check_options, flags, 4);
IS_AT(naga_check_options, capabilities, 8);
IS_AT(naga_check_options, resolved, 16);
IS_AT(naga_check_options, settings, 20);
IS_AT(naga_check_options, most_words, 24);
IS_AT(naga_check_options, most_items, 32);
IS_AT(naga_check_options, most_leaves, 40);

HOLDS(size_of_outcome, sizeof(naga_check_outcome) == 112);
IS_AT(naga_check_outcome, index, 0);
IS_AT(naga_check_outcome, types, 8);
IS_AT(naga_check_outcome, functions, 16);
IS_AT(naga_check_outcome, entry_points, 24);
IS_AT(naga_check_outcome, written, 32);
IS_AT(naga_check_outcome, values, 40);
IS_AT(naga_check_outcome, stage, 80);
IS_AT(naga_check_outcome, kind, 84);
IS_AT(naga_check_outcome, errors, 88);
IS_AT(naga_check_outcome, value_count, 104);
IS_AT(naga_check_outcome, expression, 108);

HOLDS(size_of_type_info, sizeof(naga_check_type_info) == 32);
IS_AT(naga_check_type_info, flags, 0);
IS_AT(naga_check_type_info, size, 4);
IS_AT(naga_check_type_info, alignment, 8);
IS_AT(naga_check_type_info, uniform_alignment, 12);
IS_AT(naga_check_type_info, uniform_error, 16);
IS_AT(naga_check_type_info, storage_alignment, 20);
IS_AT(naga_check_type_info, storage_error, 24);
IS_AT(naga_check_type_info, immediates, 28);

HOLDS(size_of_leaf, sizeof(naga_check_leaf) == 32);
IS_AT(naga_check_leaf, first, 0);
IS_AT(naga_check_leaf, path_at, 8);
IS_AT(naga_check_leaf, path_length, 16);
IS_AT(naga_check_leaf, size, 20);
IS_AT(naga_check_leaf, alignment, 24);
IS_AT(naga_check_leaf, query, 28);

HOLDS(size_of_counts, sizeof(naga_check_counts) == 16);
IS_AT(naga_check_counts, leaves, 0);
IS_AT(naga_check_counts, paths, 8);

#ifndef CONSTANT_COUNT
#define CONSTANT_COUNT NAGA_CHECK_MOST_OPERANDS
#endif
#ifndef LOCAL_COUNT
#define LOCAL_COUNT NAGA_CHECK_MOST_OPERANDS
#endif
#define LOAD NAGA_CHECK_EXPRESSION(NAGA_CHECK_FORM_LOAD)
#define LITERAL NAGA_CHECK_GLOBAL_EXPRESSION(NAGA_CHECK_FORM_LITERAL)

HOLDS(head_of_a_struct, NAGA_CHECK_ITEM(NAGA_CHECK_OP_STRUCT, 14) == 0xE18u);
HOLDS(longest_item, NAGA_CHECK_ITEM(255, NAGA_CHECK_MOST_OPERANDS) == 0xFFFFFFFFu);
HOLDS(same_head, NAGA_CHECK_ITEM_OF(NAGA_CHECK_OP_STRUCT, 14) == 0xE18u);
HOLDS(no_head, NAGA_CHECK_ITEM_OF(NAGA_CHECK_OP_STRUCT, NAGA_CHECK_MOST_OPERANDS + 1) == NAGA_CHECK_NONE);
HOLDS(load, LOAD == 128 + 12);
HOLDS(literal, LITERAL == 64);
HOLDS(low_word, NAGA_CHECK_LOW(NAGA_CHECK_CAPABILITY_ALL) == 0xFFFFFFFFu);
HOLDS(high_word, NAGA_CHECK_HIGH(NAGA_CHECK_CAPABILITY_SHADER_INT16 | NAGA_CHECK_CAPABILITY_FLOAT64) == 0x800u);
HOLDS(wide_flags, sizeof(NAGA_CHECK_CAPABILITY_IMMEDIATES) == 8);
HOLDS(plain_location, NAGA_CHECK_LOCATION(NAGA_CHECK_BINDING_LOCATION, NAGA_CHECK_INTERPOLATION_NONE,
                                          NAGA_CHECK_SAMPLING_NONE, 0) == 2);
HOLDS(location, NAGA_CHECK_LOCATION(NAGA_CHECK_BINDING_BLEND_SOURCE, NAGA_CHECK_INTERPOLATION_FLAT,
                                    NAGA_CHECK_SAMPLING_EITHER, 1) == 0x01050303u);

static const uint32_t words[] = {
    NAGA_CHECK_ITEM(NAGA_CHECK_OP_FLAGS, 1), NAGA_CHECK_VALIDATE_ALL & ~NAGA_CHECK_VALIDATE_CONSTANTS,
    NAGA_CHECK_ITEM(NAGA_CHECK_OP_CAPABILITIES, 2), NAGA_CHECK_LOW(NAGA_CHECK_CAPABILITY_DEFAULT),
    NAGA_CHECK_HIGH(NAGA_CHECK_CAPABILITY_DEFAULT), NAGA_CHECK_ITEM(LITERAL, 3), NAGA_CHECK_LITERAL_U32, 7, 0,
    NAGA_CHECK_ITEM(LOAD, 1), 0, NAGA_CHECK_ITEM(NAGA_CHECK_STATEMENT_CALL, CONSTANT_COUNT),
};

#ifdef __cplusplus
constexpr uint32_t constants[] = {NAGA_CHECK_ITEM(LOAD, 1), NAGA_CHECK_ITEM_OF(LOAD, 2), NAGA_CHECK_TYPE_SIZED};
static_assert(constants[0] == 0x18Cu && constants[1] == 0x28Cu, "macros are constant expressions");
#endif

/* Each kind of number of operands that is known at run time only. */
static uint32_t heads(size_t components, int arguments, unsigned char members, uint32_t flags) {
  const uint32_t head = NAGA_CHECK_ITEM(LOAD, LOCAL_COUNT);
  uint32_t all = NAGA_CHECK_ITEM_OF(NAGA_CHECK_EXPRESSION(NAGA_CHECK_FORM_COMPOSE), components);
  all ^= NAGA_CHECK_ITEM_OF(NAGA_CHECK_STATEMENT_CALL, arguments);
  all ^= NAGA_CHECK_ITEM_OF(NAGA_CHECK_OP_STRUCT, members);
  return flags & NAGA_CHECK_TYPE_HOST_SHAREABLE ? all | NAGA_CHECK_SHADER_STAGE_VERTEX : head;
}

int main(void) {
  const uint32_t expected = (0x284u ^ 0x3D5u ^ 0x418u) | 1;
  if (heads(2, 3, 4, 0x10) != expected || heads(2, 3, 4, 0) != 0xFFFFFF8Cu) return 1;
  if (sizeof words != 12 * 4 || NAGA_CHECK_ITEM_OF(LOAD, words[1] << 24) != NAGA_CHECK_NONE) return 1;
  return naga_check_abi_version() == NAGA_CHECK_ABI_VERSION ? 0 : 1;
}
