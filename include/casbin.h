/*
 * An authorization engine with the behaviour of Casbin, as a library: libcasbin.a and libcasbin.so.
 *
 * An enforcer is opened from the text of a model and the text of a policy. It judges requests by the policy that is published,
 * takes management calls, which change drafts alone, and publishes them. A snapshot of it is an enforcer that judges by what was
 * published when it was taken, and is never edited; other threads may ask theirs while the owner edits.
 *
 * What the caller owes, and nothing checks:
 *  - A handle begins as zeros and is moved by nobody but its owner: pass its address, never copy, read or write it.
 *    A handle that is not closed leaks what it holds.
 *  - One call at a time uses a handle. It may go from one thread to another where that is ordered by a lock, by the start or
 *    the end of a thread, or by an atomic; each thread may have a handle of its own.
 *  - Two arguments of one call do not overlap, so the two handles of casbin_snapshot are two. Pointers are not null, also where a
 *    length is 0, and are aligned. Texts need no byte 0 at their end, and may hold any bytes.
 *  - malloc, realloc and free are of one allocator, and no call is made from a signal handler or a forked child of a process
 *    with threads.
 */
#ifndef CASBIN_H
#define CASBIN_H

#include <stdbool.h>
#include <stddef.h>
#include <stdint.h>

#ifdef __cplusplus
extern "C" {
#endif

/* Two words of the library's: `casbin_enforcer e = {0};` is a closed handle. */
typedef struct { bool full; void *at; } casbin_enforcer;

/*
 * What calls answer. The numbers from 2 to 9 are the statuses of the program `casbin_cli`. What a call tells by a pointer is written
 * where its comment says so, and is as it was before otherwise.
 */
enum {
  CASBIN_OK = 0,
  CASBIN_CLOSED = 1,      /* the handle is closed; nothing else was read or written */
  CASBIN_OPTIONS = 2,     /* the options are none */
  CASBIN_MODEL = 3,       /* the model's text is no model, or lacks what an option names */
  CASBIN_POLICY = 4,      /* the policy's text is no policy for the model */
  CASBIN_SCRIPT = 5,      /* the text of a call is no script, not one item, or a request; the line says why where it is no script */
  CASBIN_TOO_LONG = 8,    /* a model above 64 KiB, a policy above 16 MiB */
  CASBIN_NO_MEMORY = 9,   /* memory ran out, and nothing was done */
  CASBIN_NO_REQUEST = 10, /* the texts are no request for the model: `cause` and `at` say why */
  CASBIN_REFUSED = 11,    /* the call was refused, and nothing changed; its line says why */
  CASBIN_NO_ROOM = 12,    /* the rule or the policy is longer than the room: its length is told, and nothing else is written */
  CASBIN_NO_RULE = 13,    /* there is no rule with this number */
  CASBIN_UNTOLD = 14,     /* the call was done, and memory ran out for its line */
  CASBIN_SNAPSHOT = 15    /* the handle holds a snapshot, which takes no calls */
};

/* `kind` of a decision. */
enum { CASBIN_DENY = 0, CASBIN_ALLOW = 1, CASBIN_FAULT = 2, CASBIN_NONE = 3 };

/* `cause` of a fault of the evaluation; `at` is the byte of the matcher, from 1. */
enum {
  CASBIN_KIND = 1, CASBIN_NO_ATTRIBUTE = 2, CASBIN_OVERFLOW = 3, CASBIN_ZERO_DIVISOR = 4,
  CASBIN_BAD_ADDRESS = 5, CASBIN_BAD_BLOCK = 6, CASBIN_PATTERN = 7, CASBIN_RULE_TEXT = 8
};

/* `cause` where there is no request; `at` is the number of the text, from 1, or how many there are. */
enum {
  CASBIN_ENDS = 1, CASBIN_NOT_UTF8 = 2, CASBIN_QUOTE = 3, CASBIN_TOO_MANY = 4, CASBIN_SYNTAX = 5,
  CASBIN_NOT_AN_ARRAY = 6, CASBIN_TOO_DEEP = 7, CASBIN_NOT_WHOLE = 8, CASBIN_ARITY = 9
};

typedef struct {
  uint32_t kind;
  uint32_t version; /* of the policy by which the request was judged */
  uint32_t row;     /* the rule of p that decided, from 1; 0 where there is none */
  uint32_t cause;
  uint32_t at;
} casbin_decision;

/*
 * Opens an enforcer; what the handle held is closed. `options` are those of the program, one a line:
 *   --limit=L   --match=g=keyMatch2,g2=globMatch   --domain-match=g=keyMatch
 * Where it is refused the handle is as it was, and the program's line, with its LF, is told by `line` and `*length`; `*length` is 0
 * where there is none.
 *
 * A line is written to the start of `line` where it fits the room, and else nothing is: so look first whether `*length` is above the
 * room. 256 bytes are enough for all lines but those of queries.
 */
uint32_t casbin_open(const uint8_t *model, size_t model_length, const uint8_t *policy, size_t policy_length,
                     const uint8_t *options, size_t options_length, casbin_enforcer *handle,
                     uint8_t *line, size_t room, size_t *length);

/* Closes a handle; a closed one stays so. */
void casbin_close(casbin_enforcer *handle);

/*
 * Judges a request by the published policy, or by a snapshot's. Its texts lie one behind the other in `bytes`; the place where
 * each ends stands in `ends`: "alicedata1read" with 5, 10, 14. The decision is written with CASBIN_OK and CASBIN_NO_REQUEST, and
 * only CASBIN_OK with the kind CASBIN_ALLOW allows.
 */
uint32_t casbin_enforce(casbin_enforcer *handle, const uint8_t *bytes, size_t length,
                        const size_t *ends, size_t count, casbin_decision *decision);

/* The same for the request that a line of JSON is: ["alice", {"name": "data1", "owner": "alice"}, "read"]. */
uint32_t casbin_enforce_json(casbin_enforcer *handle, const uint8_t *line, size_t length, casbin_decision *decision);

/*
 * Does one item of a script, or a block: `add p, alice, data1, read`, `roles g, alice`, `publish`, and all others but requests
 * (docs/SCRIPTS.md). Its line, as a session of this item has it, is told as that of casbin_open. A query whose line is longer than
 * the room may be asked again with more; other lines are short. Calls change the drafts: they count from the next publish on.
 */
uint32_t casbin_call(casbin_enforcer *handle, const uint8_t *text, size_t text_length,
                     uint8_t *line, size_t room, size_t *length);

/* Publishes what was called since the last publish, and tells the new version. After CASBIN_NO_MEMORY it may be tried again. */
uint32_t casbin_publish(casbin_enforcer *handle, uint32_t *version);

/* Tells the version by which it judges: how many calls that changed something were published. */
uint32_t casbin_version(casbin_enforcer *handle, uint32_t *version);

/*
 * Writes the rule of p with this number, from 1, of the policy by which it judges. `*length` is told with CASBIN_OK and
 * CASBIN_NO_ROOM.
 */
uint32_t casbin_rule(casbin_enforcer *handle, uint32_t row, uint8_t *text, size_t room, size_t *length);

/* Writes the policy by which it judges, as text that says the same policy; `*length` is told as that of casbin_rule. */
uint32_t casbin_policy(casbin_enforcer *handle, uint8_t *text, size_t room, size_t *length);

/*
 * Takes a snapshot of `from` into `to`; what that held is closed. Of an owner it copies what is published: its time and memory
 * grow with the policy, so take one a publish. Of a snapshot it shares the policy, and takes memory for its own finder alone.
 */
uint32_t casbin_snapshot(casbin_enforcer *from, casbin_enforcer *to);

#ifdef __cplusplus
}
#endif

#endif
