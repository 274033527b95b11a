/*
 * Prints the nanoseconds of a request through the library for C: the last rule's, and one that no rule fits, by turns.
 * Usage: request MODEL POLICY USER REQUESTS
 */
#include <stdio.h>
#include <stdlib.h>
#include <string.h>
#include <time.h>

#include "casbin.h"

static uint8_t *read_file(const char *name, size_t *length) {
  FILE *file = fopen(name, "rb");
  if (!file) exit(6);
  fseek(file, 0, SEEK_END);
  *length = (size_t)ftell(file);
  rewind(file);
  uint8_t *bytes = malloc(*length + 1);
  if (!bytes || fread(bytes, 1, *length, file) != *length) exit(6);
  fclose(file);
  return bytes;
}

static double now(void) {
  struct timespec t;
  clock_gettime(CLOCK_MONOTONIC, &t);
  return (double)t.tv_sec * 1e9 + (double)t.tv_nsec;
}

int main(int argc, char **argv) {
  if (argc != 5) return 2;
  size_t model_length, policy_length, length;
  uint8_t *model = read_file(argv[1], &model_length), *policy = read_file(argv[2], &policy_length), line[256];
  casbin_enforcer enforcer = {0};
  if (casbin_open(model, model_length, policy, policy_length, (const uint8_t *)"", 0, &enforcer, line, sizeof line, &length) != CASBIN_OK) return 3;
  char texts[2][64];
  size_t ends[2][3];
  for (int i = 0; i < 2; i++) {
    const char *act = i == 0 ? "read" : "write";
    ends[i][0] = (size_t)snprintf(texts[i], 64, "user%s", argv[3]);
    ends[i][1] = ends[i][0] + (size_t)snprintf(texts[i] + ends[i][0], 32, "data%s", argv[3]);
    ends[i][2] = ends[i][1] + (size_t)snprintf(texts[i] + ends[i][1], 16, "%s", act);
  }
  long requests = atol(argv[4]), allowed = 0;
  casbin_decision told;
  double begin = now();
  for (long i = 0; i < requests; i++) {
    if (casbin_enforce(&enforcer, (uint8_t *)texts[i % 2], ends[i % 2][2], ends[i % 2], 3, &told) != CASBIN_OK) return 4;
    allowed += told.kind == CASBIN_ALLOW;
  }
  double took = now() - begin;
  if (allowed != (requests + 1) / 2) return 5;
  printf("%.1f\n", took / (double)requests);
  casbin_close(&enforcer);
  free(model), free(policy);
  return 0;
}
