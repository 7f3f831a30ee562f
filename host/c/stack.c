/*
 * The stack that each call needs, found by running it: a stack of our own is
 * painted, the call made on it, and the lowest byte looked for that lost its
 * paint. Prints a line for each function: its name and the most bytes over
 * all states and requests here. A run shows only what it reached; host/c/stack
 * also adds up the frames of all paths.
 */
#define _XOPEN_SOURCE 700
#include "interface4.h"

#include <stdio.h>
#include <stdlib.h>
#include <string.h>
#include <ucontext.h>

#define STACK (512u * 1024u)
#define PAINT 0xa5
#define S INTERFACE4_STATE_WORDS
#define E INTERFACE4_EVENT_BUFFER_WORDS
#define L INTERFACE4_LISTING_BUFFER_WORDS

/* What a call is made with. */
static uint32_t state[S], events[E], listing[L], row[32], own[20], cursor[INTERFACE4_CURSOR_WORDS];
static uint32_t add_v4[18], del_v4[11], add_route4[34], del_route4[49];
/* The same requests for an address, with the mask of their prefix. */
static uint32_t add_v4_mask[18], del_v4_mask[11];
/* A message, and where it is read to. */
static uint8_t message[176];
static uint32_t request[INTERFACE4_REQUEST_BUFFER_WORDS];
/* An event, and where it is written to. */
static uint32_t event[INTERFACE4_EVENT_WORDS];
static uint8_t written[INTERFACE4_MESSAGE_BYTES];
/* Two recordings of events: an address, the most routes, and three events more. */
#define R ((INTERFACE4_ROUTES + 4) * INTERFACE4_EVENT_WORDS)
static uint32_t recording[R], second[R];
/* Destinations, and their answers. */
static uint32_t to[INTERFACE4_DESTINATIONS], answers[INTERFACE4_DESTINATIONS * INTERFACE4_ANSWER_WORDS];
static uint64_t now;
static uint32_t ip;
static interface4_reply reply;

#define B(words) (uint8_t *)(words), sizeof(words)
#define W(words) (words), sizeof(words) / 4

/* Each call, on words and on bytes. */
#define EACH(CALL)                                              \
  CALL(up, (P(state), P(events), now))                          \
  CALL(down, (P(state), P(events)))                             \
  CALL(add_v4, (P(state), P(add_v4), P(events), now))           \
  CALL(del_v4, (P(state), P(del_v4), P(events)))                \
  CALL(add_v4_mask, (P(state), P(add_v4_mask), P(events), now)) \
  CALL(del_v4_mask, (P(state), P(del_v4_mask), P(events)))      \
  CALL(expire, (P(state), P(events), now, INTERFACE4_FUZZ))     \
  CALL(add_route4, (P(state), P(add_route4), P(events)))        \
  CALL(del_route4, (P(state), P(del_route4), P(events)))        \
  CALL(dump4, (P(state), P(listing)))                           \
  CALL(dump4_begin, (P(state), P(listing), P(cursor), 256))     \
  CALL(dump4_next, (P(state), P(listing), P(cursor), 256))      \
  CALL(lookup4, (P(state), P(row), ip))                         \
  CALL(lookup4_flow, (P(state), P(row), ip, 8, 1))              \
  CALL(lookup4_many, (P(state), P(to), P(answers)))             \
  CALL(local4, (P(state), ip))                                  \
  CALL(source4, (P(state), P(row), ip))                         \
  CALL(source, (P(state), ip))                                  \
  CALL(select4, (P(state), 1, ip, 253))                         \
  CALL(left, (P(own), now))                                     \
  CALL(check, (P(state)))                                       \
  CALL(read, (message, sizeof message, P(request), 1))          \
  CALL(write, (P(event), written, sizeof written, 1, 2, now))   \
  CALL(rebuild, (P(recording), P(listing)))                     \
  CALL(same, (P(recording), P(second)))

#define P W
#define ON_WORDS(name, arguments) static void words_##name(void) { reply = interface4w_##name arguments; }
EACH(ON_WORDS)
#undef P
#define P B
#define ON_BYTES(name, arguments) static void bytes_##name(void) { reply = interface4_##name arguments; }
EACH(ON_BYTES)
#undef P
static void bytes_sizes(void) { reply = interface4_sizes(); }
static void bytes_prefix(void) { reply = interface4_prefix(ip); }

struct function {
  const char *name;
  void (*call)(void);
  size_t most;
};
#define WORDS_ROW(name, arguments) {"interface4w_" #name, words_##name, 0},
#define BYTES_ROW(name, arguments) {"interface4_" #name, bytes_##name, 0},
static struct function functions[] = {EACH(WORDS_ROW) EACH(BYTES_ROW) BYTES_ROW(sizes, ()) BYTES_ROW(prefix, ())};
#define FUNCTIONS (sizeof functions / sizeof functions[0])

static unsigned char stack[STACK];
static ucontext_t here, there;
static void (*wanted)(void);
static unsigned char *top;

static void on_painted_stack(void)
{
  unsigned char mark;
  top = &mark;
  wanted();
}

static size_t used(void (*call)(void))
{
  size_t lowest = 0;
  memset(stack, PAINT, sizeof stack);
  if (getcontext(&there) != 0) {
    perror("getcontext");
    exit(1);
  }
  there.uc_stack.ss_sp = stack;
  there.uc_stack.ss_size = sizeof stack;
  there.uc_link = &here;
  wanted = call;
  makecontext(&there, on_painted_stack, 0);
  if (swapcontext(&here, &there) != 0) {
    perror("swapcontext");
    exit(1);
  }
  while (lowest < STACK && stack[lowest] == PAINT)
    lowest++;
  return (size_t)(top - (stack + lowest));
}

static uint32_t mask(uint32_t prefix)
{
  return prefix == 0 ? 0 : UINT32_MAX << (32 - prefix);
}

/* Every call on the state as it is, which each gets anew. */
static void measure(void)
{
  static uint32_t kept[S];
  size_t i;
  memcpy(kept, state, sizeof state);
  memcpy(add_v4_mask, add_v4, sizeof add_v4);
  add_v4_mask[2] = mask(add_v4[2]);
  memcpy(del_v4_mask, del_v4, sizeof del_v4);
  del_v4_mask[4] = mask(del_v4[4]);
  for (i = 0; i < FUNCTIONS; i++) {
    size_t depth;
    /* in the middle of a listing, or past its end */
    memset(cursor, 0, sizeof cursor);
    cursor[0] = 100;
    depth = used(functions[i].call);
    if (depth > functions[i].most)
      functions[i].most = depth;
    memcpy(state, kept, sizeof state);
  }
}

static void must(const char *what)
{
  if (reply.number != 0) {
    printf("%s: refused %u\n", what, (unsigned)reply.number);
    exit(1);
  }
}

static void address(uint32_t local, uint32_t prefix, uint32_t life)
{
  memset(add_v4, 0, sizeof add_v4);
  add_v4[0] = add_v4[1] = local;
  add_v4[2] = prefix;
  add_v4[14] = add_v4[15] = life;
  add_v4[17] = 1;
}

static void route(uint32_t table, uint32_t dst, uint32_t prefsrc)
{
  memset(add_route4, 0, sizeof add_route4);
  add_route4[0] = table;
  add_route4[1] = dst;
  add_route4[2] = 24;
  add_route4[5] = 1;
  add_route4[7] = 253;
  add_route4[8] = prefsrc != 0;
  add_route4[9] = prefsrc;
  add_route4[12] = 1;
  add_route4[14] = 0x400;
  add_route4[33] = 1;
  memset(del_route4, 0, sizeof del_route4);
  memcpy(del_route4, add_route4, 12 * 4);
  del_route4[13] = 1;
}

static void del_by_local(uint32_t local)
{
  memset(del_v4, 0, sizeof del_v4);
  del_v4[0] = 1;
  del_v4[1] = local;
}

/* Addresses /prefix, this far apart, and routes in tables from `table` on, until there are this many of each. */
static void fill(uint32_t addresses, uint32_t prefix, uint32_t apart, uint32_t life, uint32_t routes, uint32_t table,
                 uint32_t tables, int prefsrc)
{
  uint32_t i;
  for (i = 1; state[0] < addresses; i++) {
    address(0x0c000000u + i * apart, prefix, life);
    words_add_v4();
    must("add_v4");
  }
  for (i = 0; state[1] < routes; i++) {
    route(table + i % tables, 0x0d000000u + (i << 8), prefsrc ? 0x0c000000u + apart : 0);
    words_add_route4();
    must("add_route4");
  }
}

/* A row and requests that reach far into the state. */
static void requests(void)
{
  uint32_t i;
  if (state[1] > 0)
    memcpy(row, state + INTERFACE4_ROUTES_AT + 32 * (state[1] - 1), sizeof row);
  if (state[0] > 0)
    memcpy(own, state + INTERFACE4_ADDRESSES_AT + 20 * (state[0] - 1), sizeof own);
  now = 2000000000u;
  ip = 0x0d000007u;
  /* to the routes, some of them several times, and past them */
  for (i = 0; i < INTERFACE4_DESTINATIONS; i++)
    to[i] = 0x0cffff00u + i / 2 * 0x240u;
}

static void gateways(void)
{
  route(254, 0x0e000000u, 0);
  add_route4[7] = 0;
  add_route4[10] = 1;
  add_route4[11] = 0x0d000001u;
  measure();
  add_route4[13] = 4;
  measure();
}

static size_t attribute(size_t at, unsigned code, unsigned size)
{
  message[at] = (uint8_t)(4 + size);
  message[at + 1] = 0;
  message[at + 2] = (uint8_t)code;
  message[at + 3] = 0;
  memset(message + at + 4, 'x', size);
  return at + 4 + size;
}

/* A message of this type with its longest attributes: a label, or every metric; its length is that of `message`. */
static void carries(unsigned type)
{
  size_t at = type < INTERFACE4_RTM_NEWROUTE ? 24 : 28;
  unsigned metric;
  memset(message, 0, sizeof message);
  message[0] = sizeof message;
  message[4] = (uint8_t)type;
  message[16] = 2;
  at = attribute(at, type < INTERFACE4_RTM_NEWROUTE ? 2 : 1, 4);
  if (type < INTERFACE4_RTM_NEWROUTE) {
    at = attribute(at, 3, 12);
    attribute(at, 99, (unsigned)(sizeof message - at - 4));
    return;
  }
  attribute(at, 8, (unsigned)(sizeof message - at - 4));
  for (at += 4, metric = 1; metric <= 17; metric++)
    at = attribute(at, metric, 4);
}

/* An event of this kind whose message is the longest: a label of 15 bytes, or every metric. */
static void tells(uint32_t kind)
{
  size_t i;
  memset(event, 0, sizeof event);
  event[0] = kind;
  event[1] = 65535;
  if (kind <= INTERFACE4_DEL_ADDR4) {
    event[5] = event[9] = event[15] = event[16] = event[17] = 1;
    event[10] = 15;
    memset(&event[11], 'l', 15);
  } else {
    event[2] = 1000;
    event[4] = 24;
    event[6] = event[7] = event[10] = event[12] = event[14] = event[15] = event[16] = 1;
    for (i = 17; i < INTERFACE4_EVENT_WORDS; i++)
      event[i] = UINT32_MAX;
  }
  words_write();
  must("write");
}

/* An address, as many routes as there may be, all alike; the last taken out and put in again, the first replaced. */
static void records(void)
{
  uint32_t i, *at = recording;
  at[0] = INTERFACE4_NEW_ADDR4;
  for (i = 0; i < INTERFACE4_ROUTES + 3; i++) {
    at += INTERFACE4_EVENT_WORDS;
    at[0] = INTERFACE4_NEW_ROUTE4;
    at[1] = 0xc00;
    at[7] = 1;
    at[33] = i;
  }
  at = recording + (INTERFACE4_ROUTES + 1) * INTERFACE4_EVENT_WORDS;
  at[0] = INTERFACE4_DEL_ROUTE4;
  at[1] = 0;
  at[33] = INTERFACE4_ROUTES - 1;
  at += 2 * INTERFACE4_EVENT_WORDS;
  at[1] = 0x100;
  memcpy(second, recording, sizeof recording);
  words_rebuild();
  must("rebuild");
  words_same();
  must("same");
}

static void clear(int up)
{
  memset(state, 0, sizeof state);
  now = 0;
  if (up) {
    words_up();
    must("up");
  }
}

int main(void)
{
  static const uint32_t lives[] = {INTERFACE4_FOREVER, 1};
  size_t i, f;

  records();
  del_by_local(0x7f000001u);
  for (i = 0; i < 2; i++) {
    clear((int)i);
    carries(i ? INTERFACE4_RTM_DELADDR : INTERFACE4_RTM_NEWADDR);
    words_read();
    must("read");
    tells(i ? INTERFACE4_DEL_ADDR4 : INTERFACE4_NEW_ADDR4);
    address(0x0c000001u, 24, 10);
    route(254, 0x0e000000u, 0);
    requests();
    measure();
  }
  for (i = 0; i < 2; i++) {
    carries(i ? INTERFACE4_RTM_DELROUTE : INTERFACE4_RTM_NEWROUTE);
    words_read();
    must("read");
    tells(i ? INTERFACE4_DEL_ROUTE4 : INTERFACE4_NEW_ROUTE4);
    /* one subnet: a primary, its secondaries, routes from it */
    clear(0);
    fill(64, 24, 1, lives[i], 256, 254, 1, 1);
    requests();
    del_by_local(0x0c000001u);
    measure();
    address(0x0c000001u, 24, 5);
    add_v4[16] = 1;
    add_v4[13] = 5;
    measure();
    /* a subnet for each, and room for one more of each */
    clear(1);
    fill(63, 24, 256, lives[i], 255, 100, 29, 0);
    requests();
    address(0x0e000001u, 24, 10);
    del_by_local(0x0c000100u);
    measure();
    gateways();
    /* each list full */
    clear(1);
    fill(64, 32, 256, lives[i], 256, 100, 30, 0);
    requests();
    measure();
    /* half full, down */
    clear(0);
    fill(32, 24, 256, lives[i], 128, 254, 1, 1);
    requests();
    words_down();
    must("down");
    measure();
    gateways();
  }
  for (f = 0; f < FUNCTIONS; f++)
    printf("%s %zu\n", functions[f].name, functions[f].most);
  return 0;
}
