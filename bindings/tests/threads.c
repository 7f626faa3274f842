/* Four threads at once make each call over and over, and get what one thread gets.
 *
 *   threads WORDS TYPE
 */
#include "answers.h"
#include <pthread.h>

enum { THREADS = 4, ROUNDS = 100 };

static question asked;
static answer right[CALLS];

/* Returns null if all answers are right. */
static void *ask_often(void *room) {
  answer *given = room;
  int round, call;
  for (round = 0; round < ROUNDS; round++)
    for (call = 0; call < CALLS; call++) {
      ask(&asked, call, given);
      if (memcmp(given, &right[call], sizeof *given) != 0) return room;
    }
  return NULL;
}

int main(int argc, char **argv) {
  static answer given[THREADS];
  pthread_t threads[THREADS];
  void *wrong;
  int at, failed = 0;
  (void)argc;
  read_words(argv[1], &asked);
  asked.type = (uint32_t)atol(argv[2]);
  asked.text = "type scalar float 4\ntype vector 4 float 4\n";
  for (at = 0; at < CALLS; at++) ask(&asked, at, &right[at]);
  for (at = DIRECT_CALLS; at < CALLS; at++)
    if (memcmp(&right[at], &right[at - DIRECT_CALLS + ABOUT_WORDS], sizeof *right) != 0) {
      printf("threads: what the call gives on words differs from the %s\n", call_names[at]);
      return 1;
    }
  for (at = 0; at < THREADS; at++)
    if (pthread_create(&threads[at], NULL, ask_often, &given[at]) != 0) return 2;
  for (at = 0; at < THREADS; at++) {
    pthread_join(threads[at], &wrong);
    failed += wrong != NULL;
  }
  printf("threads: %d of %d gave another answer\n", failed, THREADS);
  return failed != 0;
}
