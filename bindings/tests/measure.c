/* Times calls on a module by turns, and prints the median of each in nanoseconds.
 *
 *   measure TEXT WORDS
 */
#define _POSIX_C_SOURCE 199309L
#include <naga_check.h>
#include <stdio.h>
#include <stdlib.h>
#include <time.h>

enum { MOST_WORDS = 1 << 20, MOST_TYPES = 1 << 16, MOST_BYTES = 1 << 22, TURNS = 9 };

static uint8_t text[MOST_BYTES], report[MOST_BYTES];
static uint32_t words[MOST_WORDS];
static naga_check_type_info infos[MOST_TYPES];
static size_t text_count, word_count;
static naga_check_module kept;

static naga_check_status ask_version(void) {
  return naga_check_abi_version() == NAGA_CHECK_ABI_VERSION ? NAGA_CHECK_OK : NAGA_CHECK_REFUSED;
}

static naga_check_status ask_about_words(size_t count) {
  naga_check_outcome outcome;
  return naga_check_words(words, count, NULL, infos, MOST_TYPES, &outcome);
}

static naga_check_status ask_nothing(void) { return ask_about_words(0); }

static naga_check_status ask_words(void) { return ask_about_words(word_count); }

static naga_check_status ask_open(void) {
  naga_check_module module;
  const naga_check_status status = naga_check_open(words, word_count, NULL, &module, NULL);
  naga_check_close(&module);
  return status;
}

static naga_check_status ask_kept(void) { return naga_check_module_types(&kept, infos, MOST_TYPES, NULL); }

static naga_check_status ask_text(void) {
  naga_check_outcome outcome;
  return naga_check_text(text, text_count, NULL, infos, MOST_TYPES, &outcome);
}

static naga_check_status ask_report(void) {
  size_t length;
  return naga_check_report(text, text_count, report, MOST_BYTES, &length);
}

static const struct {
  const char *name;
  naga_check_status (*make)(void);
} calls[] = {{"version", ask_version}, {"nothing", ask_nothing}, {"words", ask_words}, {"text", ask_text},
             {"report", ask_report},    {"open", ask_open},       {"kept", ask_kept}};

enum { CALLS = sizeof calls / sizeof *calls };

static FILE *opened(const char *path) {
  FILE *file = fopen(path, "rb");
  if (!file) {
    perror(path);
    exit(2);
  }
  return file;
}

static double nanoseconds(void) {
  struct timespec now;
  clock_gettime(CLOCK_MONOTONIC, &now);
  return (double)now.tv_sec * 1e9 + (double)now.tv_nsec;
}

/* The nanoseconds that a call takes, of so many. */
static double time_of(int call, long rounds) {
  const double begun = nanoseconds();
  long round;
  for (round = 0; round < rounds; round++)
    if (calls[call].make() != NAGA_CHECK_OK) {
      printf("%s: the module is not accepted\n", calls[call].name);
      exit(1);
    }
  return (nanoseconds() - begun) / (double)rounds;
}

static int compare(const void *a, const void *b) {
  const double *left = a, *right = b;
  return (*left > *right) - (*left < *right);
}

int main(int argc, char **argv) {
  static double times[CALLS][TURNS];
  long rounds[CALLS];
  unsigned long word;
  int call, turn;
  FILE *file;
  if (argc != 3) return 2;
  file = opened(argv[1]);
  text_count = fread(text, 1, MOST_BYTES, file);
  fclose(file);
  file = opened(argv[2]);
  while (word_count < MOST_WORDS && fscanf(file, "%lu", &word) == 1) words[word_count++] = (uint32_t)word;
  fclose(file);

  if (naga_check_open(words, word_count, NULL, &kept, NULL) != NAGA_CHECK_OK) return 1;
  /* A turn of a call takes some 20 ms. */
  for (call = 0; call < CALLS; call++)
    for (rounds[call] = 1; time_of(call, rounds[call]) * (double)rounds[call] < 2e7;) rounds[call] *= 2;
  for (turn = 0; turn < TURNS; turn++)
    for (call = 0; call < CALLS; call++) times[call][turn] = time_of(call, rounds[call]);
  for (call = 0; call < CALLS; call++) {
    qsort(times[call], TURNS, sizeof **times, compare);
    printf("%s %.1f\n", calls[call].name, times[call][TURNS / 2]);
  }
  naga_check_close(&kept);
  return 0;
}
