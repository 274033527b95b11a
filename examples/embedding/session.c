/*
 * Answers a script of requests and edits as `casbin_cli session` does, through the library. Fields of requests are taken as they
 * stand, without quotes.
 * Usage: session MODEL POLICY SCRIPT
 */
#include <ctype.h>
#include <stdbool.h>
#include <stdio.h>
#include <stdlib.h>
#include <string.h>

#include "casbin.h"

/* One field more than a request may have, so that the library refuses what has too many. */
#define FIELDS 35

/* The bytes of a file, with a 0 behind them. */
static char *read_file(const char *name, size_t *length) {
  FILE *file = fopen(name, "rb");
  if (!file || fseek(file, 0, SEEK_END) != 0) return perror(name), exit(6), NULL;
  *length = (size_t)ftell(file);
  char *bytes = malloc(*length + 1);
  rewind(file);
  if (!bytes || fread(bytes, 1, *length, file) != *length) return perror(name), exit(6), NULL;
  fclose(file);
  bytes[*length] = 0;
  return bytes;
}

/* Puts the fields of a line one behind the other, without blanks around them, and gives how many they are. */
static size_t cut_fields(const char *line, char *bytes, size_t *ends) {
  size_t count = 0, at = 0;
  for (const char *field = line; field && count < FIELDS; count++) {
    const char *comma = strchr(field, ',');
    const char *end = comma ? comma : field + strlen(field);
    while (field < end && isblank((unsigned char)*field)) field++;
    while (end > field && isblank((unsigned char)end[-1])) end--;
    memcpy(bytes + at, field, (size_t)(end - field));
    at += (size_t)(end - field);
    ends[count] = at;
    field = comma ? comma + 1 : NULL;
  }
  return count;
}

/* Asks a request, and prints the line of its answer. */
static void ask(casbin_enforcer *enforcer, unsigned number, const char *fields) {
  char *bytes = malloc(strlen(fields) + 1);
  if (!bytes) exit(CASBIN_NO_MEMORY);
  size_t ends[FIELDS], count = cut_fields(fields, bytes, ends);
  casbin_decision told;
  uint32_t code = casbin_enforce(enforcer, (const uint8_t *)bytes, ends[count - 1], ends, count, &told);
  free(bytes);
  if (code != CASBIN_OK) {
    printf("%u refused: code %u, cause %u at %u\n", number, code, told.cause, told.at);
  } else if (told.kind == CASBIN_FAULT) {
    printf("%u fault @%u cause %u at %u\n", number, told.version, told.cause, told.at);
  } else if (told.row == 0) {
    printf("%u %s @%u -\n", number, told.kind == CASBIN_ALLOW ? "allow" : "deny", told.version);
  } else {
    uint8_t rule[512];
    size_t length = 0;
    casbin_rule(enforcer, told.row, rule, sizeof rule, &length);
    printf("%u %s @%u p#%u %.*s\n", number, told.kind == CASBIN_ALLOW ? "allow" : "deny", told.version, told.row,
           (int)length, (const char *)rule);
  }
}

/* Makes a call, and prints its line with its own number. Only a query has a long line: it is asked again with more room. */
static void call(casbin_enforcer *enforcer, unsigned number, const char *text, size_t length) {
  uint8_t room[256], *line = room;
  size_t told = 0;
  uint32_t code = casbin_call(enforcer, (const uint8_t *)text, length, line, sizeof room, &told);
  if (told > sizeof room) {
    size_t more = told;
    line = malloc(more);
    if (!line) exit(CASBIN_NO_MEMORY);
    code = casbin_call(enforcer, (const uint8_t *)text, length, line, more, &told);
  }
  if (code != CASBIN_OK && code != CASBIN_REFUSED) {
    fprintf(stderr, "code %u: %.*s", code, (int)told, (const char *)line);
    exit((int)code);
  }
  printf("%u%.*s", number, (int)told - 1, (const char *)line + 1);
  if (line != room) free(line);
}

/* Whether a line is `end` alone, with blanks behind it at most. */
static bool is_end(const char *line) {
  if (strncmp(line, "end", 3) != 0) return false;
  line += 3 + strspn(line + 3, " \t\r");
  return *line == '\n' || *line == 0;
}

/* The length of an item: a line, or the lines up to `end` behind one that begins a block. */
static size_t item_length(const char *text) {
  size_t length = strcspn(text, "\n");
  bool open = strncmp(text, "begin", 5) == 0 && !isalnum((unsigned char)text[5]);
  while (open && text[length]) {
    const char *line = text + length + 1;
    length += 1 + strcspn(line, "\n");
    open = !is_end(line);
  }
  return length;
}

int main(int argc, char **argv) {
  if (argc != 4) return fprintf(stderr, "usage: session MODEL POLICY SCRIPT\n"), 2;
  size_t model_length, policy_length, script_length, told = 0;
  char *model = read_file(argv[1], &model_length), *policy = read_file(argv[2], &policy_length);
  char *script = read_file(argv[3], &script_length);
  uint8_t line[256];
  casbin_enforcer enforcer = {0};
  uint32_t code = casbin_open((uint8_t *)model, model_length, (uint8_t *)policy, policy_length, (const uint8_t *)"", 0, &enforcer,
                              line, sizeof line, &told);
  if (code != CASBIN_OK) {
    fprintf(stderr, "%.*s", told <= sizeof line ? (int)told : 0, (const char *)line);
    return (int)code;
  }
  unsigned number = 0;
  for (char *at = script; *at;) {
    size_t length = item_length(at);
    char behind = at[length];
    at[length] = 0;
    char first = at[strspn(at, " \t\r")];
    if (first && first != '#') {
      number++;
      if (strncmp(at, "ask ", 4) == 0) ask(&enforcer, number, at + 4);
      else call(&enforcer, number, at, length);
    }
    at += length + (behind ? 1 : 0);
  }
  casbin_close(&enforcer);
  free(model), free(policy), free(script);
  return 0;
}
