/* Checks a module and packs a value of its struct { u32, vec4<f32> } into a buffer, each part where the shader reads
 * it. */
#include <naga_check.h>
#include <stdio.h>
#include <string.h>

#define NONE NAGA_CHECK_NONE

static const uint32_t words[] = {
    NAGA_CHECK_ITEM(NAGA_CHECK_OP_SCALAR, 3), NONE, NAGA_CHECK_KIND_UINT, 4,     /* type 0: u32 */
    NAGA_CHECK_ITEM(NAGA_CHECK_OP_VECTOR, 4), NONE, 4, NAGA_CHECK_KIND_FLOAT, 4, /* type 1: vec4<f32> */
    NAGA_CHECK_ITEM(NAGA_CHECK_OP_STRUCT, 14), NONE, 32,                         /* type 2, of 32 bytes */
    NONE, 0, 0, NAGA_CHECK_BINDING_NONE, 0, 0,                                   /* a u32 at byte 0 */
    NONE, 1, 16, NAGA_CHECK_BINDING_NONE, 0, 0,                                  /* a vec4<f32> at byte 16 */
};
static const size_t word_count = sizeof words / sizeof *words;

int main(void) {
  const uint32_t pair = 2, number = 7;
  const float vector[4] = {1, 2, 3, 4};
  naga_check_type_info infos[3];
  naga_check_outcome outcome;
  naga_check_leaf leaves[2];
  naga_check_counts counts;
  uint32_t paths[2];
  uint8_t buffer[32] = {0};
  size_t i;

  if (naga_check_words(words, word_count, NULL, infos, 3, &outcome) != NAGA_CHECK_OK) {
    fprintf(stderr, "stage %u, item %llu: error %u\n", (unsigned)outcome.stage,
            (unsigned long long)outcome.index, (unsigned)outcome.errors[0]);
    return 1;
  }
  if (infos[pair].size > sizeof buffer) return 1;
  if (naga_check_leaves(words, word_count, NULL, &pair, 1, 0, leaves, 2, paths, 2, &counts, NULL) != NAGA_CHECK_OK) {
    return 1;
  }
  for (i = 0; i < counts.leaves; i++) {
    const uint32_t member = paths[leaves[i].path_at];
    memcpy(buffer + leaves[i].first, member == 0 ? (const void *)&number : vector, leaves[i].size);
  }
  for (i = 0; i < sizeof buffer; i++) printf("%02x%c", buffer[i], i % 16 == 15 ? '\n' : ' ');
  return 0;
}
