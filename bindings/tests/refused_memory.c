/* Refuses one request for memory after another to each call: it has to return what it does otherwise, or to say that
 * memory was refused and nothing else. Nothing may stay allocated.
 *
 *   refused_memory WORDS TYPE
 *
 * The linker wraps malloc, realloc and free (--wrap).
 */
#include "answers.h"

void *__real_malloc(size_t size);
void *__real_realloc(void *old, size_t size);
void __real_free(void *old);

static long requests, refused, live;

static int is_refused(void) { return ++requests == refused; }

void *__wrap_malloc(size_t size) {
  void *made = is_refused() ? NULL : __real_malloc(size);
  live += made != NULL;
  return made;
}

void *__wrap_realloc(void *old, size_t size) {
  void *made = is_refused() ? NULL : __real_realloc(old, size);
  live += made != NULL && old == NULL;
  return made;
}

void __wrap_free(void *old) {
  live -= old != NULL;
  __real_free(old);
}

/* Asks with the request of this number refused, from 1; 0 refuses none. Returns how many requests there were. */
static long ask_with_refusal(const question *asked, int call, long request, answer *given) {
  const long before = live;
  requests = 0;
  refused = request;
  ask(asked, call, given);
  refused = 0;
  if (live != before) {
    printf("refused_memory: %s keeps memory if request %ld is refused\n", call_names[call], request);
    exit(1);
  }
  return requests;
}

/* Whether a call says that memory was refused, and nothing else. Some leaves may have been written. */
static int says_refused(int call, const answer *given) {
  static const answer nothing = {.status = NAGA_CHECK_MEMORY};
  if ((call == ABOUT_LEAVES || call == OPEN_LEAVES) && given->status == NAGA_CHECK_MEMORY) return 1;
  return memcmp(given, &nothing, sizeof nothing) == 0;
}

int main(int argc, char **argv) {
  static question asked;
  static answer right, given;
  int call;
  (void)argc;
  read_words(argv[1], &asked);
  asked.type = (uint32_t)atol(argv[2]);
  asked.text = "type scalar float 4\ntype vector 4 float 4\ntype matrix 2 3 float 4\n";
  for (call = 0; call < CALLS; call++) {
    long request, reported = 0;
    const long all = ask_with_refusal(&asked, call, 0, &right);
    for (request = 1; request <= all; request++) {
      ask_with_refusal(&asked, call, request, &given);
      if (says_refused(call, &given)) {
        reported++;
        continue;
      }
      if (memcmp(&given, &right, sizeof given) == 0) continue;
      printf("refused_memory: %s returns %u if request %ld is refused\n", call_names[call], given.status, request);
      return 1;
    }
    if (all > 0 && reported == 0) {
      printf("refused_memory: %s reports none of %ld refusals\n", call_names[call], all);
      return 1;
    }
    printf("refused_memory: %s: status %u, and each of %ld requests refused in turn\n", call_names[call],
           right.status, all);
  }
  return 0;
}
