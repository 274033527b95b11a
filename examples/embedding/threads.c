/*
 * Four threads ask, each by a snapshot of its own, while the main thread edits and publishes. The current snapshot stands under a
 * lock, and its number in an atomic: a reader takes the lock only where the number moved.
 * Usage: threads [PUBLISHES]
 */
#include <pthread.h>
#include <stdatomic.h>
#include <stdio.h>
#include <stdlib.h>
#include <string.h>

#include "casbin.h"

#define READERS 4
#define TEXT(text) (const uint8_t *)(text), strlen(text)

static const char model[] =
    "[request_definition]\nr = sub, obj, act\n[policy_definition]\np = sub, obj, act\n"
    "[policy_effect]\ne = some(where (p.eft == allow))\n"
    "[matchers]\nm = r.sub == p.sub && r.obj == p.obj && r.act == p.act\n";

static pthread_mutex_t lock = PTHREAD_MUTEX_INITIALIZER;
static casbin_enforcer current;
static atomic_uint version;
static unsigned publishes = 100;

/* Whether the snapshot allows the user of this number to read. */
static uint32_t allows(casbin_enforcer *snapshot, unsigned user, casbin_decision *told) {
  char texts[32];
  size_t name = (size_t)snprintf(texts, sizeof texts, "user%udata1read", user) - 9;
  size_t ends[3] = {name, name + 5, name + 9};
  return casbin_enforce(snapshot, (const uint8_t *)texts, ends[2], ends, 3, told);
}

/* Asks until it has seen the last publish, and counts what was wrong: at version v the users up to v may read, and no others. */
static void *reader(void *count) {
  casbin_enforcer mine = {0};
  unsigned seen = 0, wrong = 0;
  uint32_t code = CASBIN_CLOSED;
  do {
    unsigned now = atomic_load(&version);
    if (now != seen || code != CASBIN_OK) {
      pthread_mutex_lock(&lock);
      code = casbin_snapshot(&current, &mine);
      seen = atomic_load(&version);
      pthread_mutex_unlock(&lock);
    }
    casbin_decision last, next;
    if (code != CASBIN_OK || allows(&mine, seen, &last) != CASBIN_OK || allows(&mine, seen + 1, &next) != CASBIN_OK ||
        last.version != seen || (last.kind == CASBIN_ALLOW) != (seen > 0) || next.kind != CASBIN_DENY)
      wrong++;
  } while (seen < publishes);
  pthread_mutex_lock(&lock); /* the sanitizer for threads does not see who counts the snapshot's owners */
  casbin_close(&mine);
  pthread_mutex_unlock(&lock);
  *(unsigned *)count = wrong;
  return NULL;
}

/* Adds the rule of a user, publishes it, and makes a snapshot of it the current one. */
static int publish(casbin_enforcer *enforcer, unsigned user) {
  char rule[48];
  uint8_t line[64];
  size_t length;
  uint32_t number;
  casbin_enforcer next = {0};
  snprintf(rule, sizeof rule, "add p, user%u, data1, read", user);
  if (casbin_call(enforcer, TEXT(rule), line, sizeof line, &length) != CASBIN_OK) return 1;
  if (casbin_publish(enforcer, &number) != CASBIN_OK || number != user) return 1;
  if (casbin_snapshot(enforcer, &next) != CASBIN_OK) return 1;
  pthread_mutex_lock(&lock);
  uint32_t code = casbin_snapshot(&next, &current);
  atomic_store(&version, user);
  pthread_mutex_unlock(&lock);
  casbin_close(&next);
  return code != CASBIN_OK;
}

int main(int argc, char **argv) {
  if (argc > 1) publishes = (unsigned)atoi(argv[1]);
  casbin_enforcer enforcer = {0};
  uint8_t line[256];
  size_t length;
  if (casbin_open(TEXT(model), TEXT(""), TEXT(""), &enforcer, line, sizeof line, &length) != CASBIN_OK) return 1;
  if (casbin_snapshot(&enforcer, &current) != CASBIN_OK) return 1;
  pthread_t threads[READERS];
  unsigned wrong[READERS], all = 0;
  for (int at = 0; at < READERS; at++)
    if (pthread_create(&threads[at], NULL, reader, &wrong[at]) != 0) return 1;
  for (unsigned user = 1; user <= publishes; user++)
    if (publish(&enforcer, user) != 0) return 1;
  for (int at = 0; at < READERS; at++) pthread_join(threads[at], NULL), all += wrong[at];
  casbin_close(&current);
  casbin_close(&enforcer);
  printf("%d readers saw %u publishes, %u answers were wrong\n", READERS, publishes, all);
  return all != 0;
}
