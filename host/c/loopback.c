/*
 * A loopback from C: up, an address, a lookup, a message off a socket and one
 * onto it, recordings, refusals; every function of the header on words, and
 * every one on bytes.
 * Each number is held against a literal; the status is 1 if one differs.
 */
#include "interface4.h"

#include <inttypes.h>
#include <stdio.h>
#include <string.h>

#define OWN 0x0a010005u       /* 10.1.0.5 */
#define PEER 0x0a01004du      /* 10.1.0.77 */
#define FAR 0xc0000201u       /* 192.0.2.1 */
#define LOCALHOST 0x7f000001u /* 127.0.0.1 */

/* A slice of words, and the same as bytes: this machine is little-endian as well. */
#define W(words) (words), sizeof(words) / 4
#define B(words) (uint8_t *)(words), sizeof(words)

static uint32_t state[INTERFACE4_STATE_WORDS];
static uint32_t events[INTERFACE4_EVENT_BUFFER_WORDS];
static uint32_t listing[INTERFACE4_LISTING_BUFFER_WORDS];
static uint32_t part[4 * INTERFACE4_ROUTE_WORDS];
static uint32_t cursor[INTERFACE4_CURSOR_WORDS];
static uint32_t row[INTERFACE4_ROW_BUFFER_WORDS];
static uint32_t own[INTERFACE4_ADDRESS_WORDS];
static uint32_t address[INTERFACE4_ADD_V4_WORDS];
static uint32_t by_local[INTERFACE4_DEL_V4_WORDS];
static uint32_t route[INTERFACE4_ADD_ROUTE4_WORDS];
static uint32_t same_route[INTERFACE4_DEL_ROUTE4_WORDS];
static uint32_t request[INTERFACE4_REQUEST_BUFFER_WORDS];
static uint8_t written[INTERFACE4_MESSAGE_BYTES];
/* Destinations, the second of which has no route; room for one answer more. */
static const uint32_t to[2] = {PEER, FAR};
static uint32_t answers[3 * INTERFACE4_ANSWER_WORDS];
/* One destination too many. */
static uint32_t too_many[INTERFACE4_DESTINATIONS + 1];
static uint32_t their_answers[(INTERFACE4_DESTINATIONS + 1) * INTERFACE4_ANSWER_WORDS];
/* Event rows, one call's behind the other's. */
static uint32_t recording[16 * INTERFACE4_EVENT_WORDS], again[16 * INTERFACE4_EVENT_WORDS];
static size_t recorded;
static int failed;

/* ip addr add 10.1.0.5/24 dev lo valid_lft 10 preferred_lft 5 */
static const uint8_t message[] = {
    /* length, type, flags, sequence, port */
    60, 0, 0, 0, INTERFACE4_RTM_NEWADDR, 0, 0x05, 0x06, 0, 0, 0, 0, 0, 0, 0, 0,
    /* family, prefix, flags, scope, index */
    2, 24, 0, 0, 1, 0, 0, 0,
    /* local, address */
    8, 0, 2, 0, 10, 1, 0, 5, 8, 0, 1, 0, 10, 1, 0, 5,
    /* cache information: preferred, valid, stamps */
    20, 0, 6, 0, 5, 0, 0, 0, 10, 0, 0, 0, 0, 0, 0, 0, 0, 0, 0, 0,
};

/* What tells of it, three seconds later, with sequence 7 and port 9. */
static const uint8_t notice[] = {
    76, 0, 0, 0, INTERFACE4_RTM_NEWADDR, 0, 0, 0, 7, 0, 0, 0, 9, 0, 0, 0,
    2, 24, 0, 0, 1, 0, 0, 0,
    /* address, local, label */
    8, 0, 1, 0, 10, 1, 0, 5, 8, 0, 2, 0, 10, 1, 0, 5, 7, 0, 3, 0, 'l', 'o', 0, 0,
    /* cache information, flags */
    20, 0, 6, 0, 2, 0, 0, 0, 7, 0, 0, 0, 0, 0, 0, 0, 0, 0, 0, 0, 8, 0, 8, 0, 0, 0, 0, 0,
};

static void is(const char *what, uint32_t found, uint32_t expected)
{
  if (found != expected) {
    printf("FAILED: %s is %" PRIu32 ", not %" PRIu32 "\n", what, found, expected);
    failed = 1;
  }
}

/* A reply without a refusal. */
static void told(const char *what, interface4_reply reply, uint32_t present, uint32_t value, uint32_t second)
{
  is(what, reply.number, 0);
  is(what, reply.present, present);
  is(what, reply.value, value);
  is(what, reply.second, second);
}

static void refused(const char *what, interface4_reply reply, uint32_t number)
{
  is(what, reply.number, number);
  is(what, reply.present | reply.value | reply.second, 0);
}

static void print_ip(const char *what, uint32_t ip)
{
  printf("%s %u.%u.%u.%u\n", what, ip >> 24, ip >> 16 & 255, ip >> 8 & 255, ip & 255);
}

static void requests(void)
{
  /* 10.1.0.5/24, labelled lo, for 10 seconds, preferred for 5; the device is up */
  address[0] = address[1] = OWN;
  address[2] = 24;
  address[8] = 2;
  memcpy(&address[9], "lo", 2);
  address[14] = 10;
  address[15] = 5;
  address[17] = 1;
  by_local[0] = 1;
  by_local[1] = OWN;
  /* 11.0.0.0/24 in the main table, unicast, of link scope, through the loopback; create; the device is up */
  route[0] = 254;
  route[1] = 0x0b000000u;
  route[2] = 24;
  route[5] = 1;
  route[7] = 253;
  route[12] = 1;
  route[14] = 0x400;
  route[33] = 1;
  memcpy(same_route, route, 12 * sizeof *route);
  same_route[13] = 1;
}

/* What `up` and `add_v4` left. */
static void two_addresses(void)
{
  const uint32_t *second = &state[INTERFACE4_ADDRESSES_AT + INTERFACE4_ADDRESS_WORDS];

  is("the addresses", state[0], 2);
  is("the routes", state[1], 6);
  is("the tables", state[2], 2);
  is("the first table", state[INTERFACE4_TABLES_AT], 254);
  is("the second table", state[INTERFACE4_TABLES_AT + 1], 255);
  /* behind 127.0.0.1, whose scope number is greater */
  is("the second address", second[0], OWN);
  memcpy(own, second, sizeof own);
}

/* Six rows in parts of four: the cursor, and what is behind the two rows of the last. */
static void first_part(void)
{
  is("the next place", cursor[0], 4);
  is("the start's count", cursor[1], 2);
  is("its high word", cursor[2], 0);
  is("its rows", (uint32_t)memcmp(part, listing, sizeof part), 0);
  memset(part, 0x5a, sizeof part);
}

static void last_part(void)
{
  const size_t two = 2 * INTERFACE4_ROUTE_WORDS;

  is("the last place", cursor[0], 6);
  is("the last rows", (uint32_t)memcmp(part, listing + 2 * two, two * sizeof *part), 0);
  is("what is behind them", part[two], 0x5a5a5a5au);
}

static void found_route(void)
{
  is("its table", row[0], 255);
  is("its dst", row[1], 0x0a010000u);
  is("its len", row[2], 24);
  is("its kind", row[5], 2);
}

/* The route that lookup4 gave, none for the second destination, and what is behind the two answers. */
static void two_answers(void)
{
  const uint32_t *second = answers + INTERFACE4_ANSWER_WORDS;

  is("the first answer's number", answers[0], 0);
  is("its route", (uint32_t)memcmp(answers + 1, row, sizeof row), 0);
  is("the second answer's number", second[0], INTERFACE4_NO_ROUTE_TO_NETWORK);
  is("its first word", second[1], 0);
  is("its last word", second[INTERFACE4_ROUTE_WORDS], 0);
  is("what is behind them", second[INTERFACE4_ANSWER_WORDS], 0x5a5a5a5au);
}

/* What the message is read as: the request above, and nothing behind it. */
static void same_request(void)
{
  is("the request", (uint32_t)memcmp(request, address, sizeof address), 0);
  is("what is behind it", request[INTERFACE4_ADD_V4_WORDS], 0x5a5a5a5au);
  memset(request, 0x5a, sizeof request);
}

/* What the event of that address is written as, and nothing behind it. */
static void same_notice(void)
{
  is("the message", (uint32_t)memcmp(written, notice, sizeof notice), 0);
  is("what is behind it", written[sizeof notice], 0x5a);
  memset(written, 0x5a, sizeof written);
}

static void on_words(void)
{
  interface4_reply reply;

  memset(state, 0, sizeof state);
  told("check", interface4w_check(W(state)), 0, 0, 0);
  told("up", interface4w_up(W(state), W(events), 5), 0, 4, 0);
  is("the first event", events[0], INTERFACE4_NEW_ADDR4);
  is("its address", events[2], LOCALHOST);
  is("the second event", events[INTERFACE4_EVENT_WORDS], INTERFACE4_NEW_ROUTE4);
  is("its flags", events[INTERFACE4_EVENT_WORDS + 1], 0x600);
  told("up again", interface4w_up(W(state), W(events), 6), 0, 0, 0);
  memset(request, 0x5a, sizeof request);
  reply = interface4w_read(message, sizeof message, W(request), 1);
  told("read", reply, 0, INTERFACE4_RTM_NEWADDR, INTERFACE4_ADD_V4_WORDS);
  told("add_v4", interface4w_add_v4(W(state), request, reply.second, W(events), 0), 0, 4, 0);
  same_request();
  memset(written, 0x5a, sizeof written);
  reply = interface4w_write(events, INTERFACE4_EVENT_WORDS, written, sizeof written, 7, 9, 3000000000u);
  told("write", reply, 0, sizeof notice, 0);
  same_notice();
  two_addresses();
  told("left", interface4w_left(W(own), 3000000000u), 0, 2, 7);

  told("lookup4", interface4w_lookup4(W(state), W(row), PEER), 0, 0, 0);
  found_route();
  memset(row, 0, sizeof row);
  told("lookup4_flow", interface4w_lookup4_flow(W(state), W(row), PEER, 8, 1), 0, 0, 0);
  found_route();
  refused("another device", interface4w_lookup4_flow(W(state), W(row), PEER, 1, 8), 101);
  memset(answers, 0x5a, sizeof answers);
  told("lookup4_many", interface4w_lookup4_many(W(state), W(to), W(answers)), 0, 6, 0);
  two_answers();
  told("lookup4_many of none", interface4w_lookup4_many(W(state), to, 0, answers, 0), 0, 0, 0);
  refused("room for one answer", interface4w_lookup4_many(W(state), W(to), answers, INTERFACE4_ANSWER_WORDS), 200);
  refused("257 destinations", interface4w_lookup4_many(W(state), W(too_many), W(their_answers)), 210);
  too_many[0] = 1;
  refused("a destination below another", interface4w_lookup4_many(W(state), too_many, 2, W(answers)), 211);
  two_answers();
  told("source4", interface4w_source4(W(state), W(row), PEER), 1, OWN, 0);
  reply = interface4w_source(W(state), PEER);
  told("source", reply, 0, OWN, 0);
  print_ip("to 10.1.0.77 from", reply.value);
  told("source of what has no route", interface4w_source(W(state), FAR), 0, LOCALHOST, 0);
  told("local4", interface4w_local4(W(state), OWN), 0, 1, 0);
  told("select4", interface4w_select4(W(state), 1, PEER, 253), 1, OWN, 0);
  told("select4 without a destination", interface4w_select4(W(state), 0, 0, 254), 1, LOCALHOST, 0);
  told("dump4", interface4w_dump4(W(state), W(listing)), 0, 6, 0);
  memset(cursor, 0x5a, sizeof cursor);
  told("dump4_begin", interface4w_dump4_begin(W(state), W(part), W(cursor), 4), 0, 4, 0);
  first_part();
  refused("no rows", interface4w_dump4_next(W(state), W(part), W(cursor), 0), 202);
  refused("room for four rows", interface4w_dump4_next(W(state), W(part), W(cursor), 5), 200);
  told("dump4_next", interface4w_dump4_next(W(state), W(part), W(cursor), 4), 0, 2, 1);
  last_part();

  reply = interface4w_add_v4(W(state), W(address), W(events), 8);
  refused("add_v4 again", reply, 17);
  printf("10.1.0.5/24 again: refused %" PRIu32 "\n", reply.number);
  refused("lookup4 of what has no route", interface4w_lookup4(W(state), W(row), FAR), 101);
  refused("a message cut short", interface4w_read(message, sizeof message - 1, W(request), 1), 204);
  reply = interface4w_write(events, INTERFACE4_EVENT_WORDS, written, sizeof written - 1, 7, 9, 0);
  refused("215 bytes for a message", reply, 200);
  refused("35 words for an event", interface4w_write(events, 35, written, sizeof written, 7, 9, 0), 201);
  refused("48 words for a request", interface4w_read(message, sizeof message, request, 48, 1), 200);
  refused("a short event buffer", interface4w_up(W(state), events, INTERFACE4_EVENT_BUFFER_WORDS - 1, 8), 200);
  address[2] = 33;
  refused("prefix 33", interface4w_add_v4(W(state), W(address), W(events), 8), 202);
  address[2] = 24;
  state[2] = 33;
  refused("33 tables", interface4w_check(W(state)), 201);
  state[2] = 2;
  refused("no change count", interface4w_check(state, INTERFACE4_COUNT_AT), 200);
  refused("no row counts", interface4w_check(state, INTERFACE4_ROW_COUNTS_AT), 200);
  is("the routes of 255", state[INTERFACE4_ROW_COUNTS_AT + 1], 6);
  state[INTERFACE4_ROW_COUNTS_AT + 1] = 5;
  refused("a wrong row count", interface4w_check(W(state)), 201);
  state[INTERFACE4_ROW_COUNTS_AT + 1] = 6;

  told("add_route4", interface4w_add_route4(W(state), W(route), W(events)), 0, 1, 0);
  is("its event", events[0], INTERFACE4_NEW_ROUTE4);
  is("the changes", state[INTERFACE4_COUNT_AT], 3);
  reply = interface4w_dump4_next(W(state), W(part), W(cursor), 4);
  told("dump4_next after a change", reply, INTERFACE4_DUMP_INTERRUPTED, 1, 1);
  told("del_route4", interface4w_del_route4(W(state), W(same_route), W(events)), 0, 1, 0);
  is("its event", events[0], INTERFACE4_DEL_ROUTE4);
  told("expire", interface4w_expire(W(state), W(events), 6000000000u, INTERFACE4_FUZZ), 0, 1, 0);
  told("del_v4", interface4w_del_v4(W(state), W(by_local), W(events)), 0, 4, 0);
  is("its first event", events[0], INTERFACE4_DEL_ADDR4);
  told("down", interface4w_down(W(state), W(events)), 0, 1, 0);
  is("its event", events[0], INTERFACE4_LINK_DOWN);
  reply = interface4w_write(events, INTERFACE4_EVENT_WORDS, written, sizeof written, 7, 9, 0);
  refused("a message of it", reply, 201);
  is("the routes that are left", state[1], 2);
  is("of 255", state[INTERFACE4_ROW_COUNTS_AT + 1], 2);
}

static void on_bytes(void)
{
  memset(state, 0, sizeof state);
  told("check, on bytes", interface4_check(B(state)), 0, 0, 0);
  told("up, on bytes", interface4_up(B(state), B(events), 5), 0, 4, 0);
  told("read, on bytes", interface4_read(message, sizeof message, B(request), 1), 0, 20, 18);
  same_request();
  told("add_v4, on bytes", interface4_add_v4(B(state), B(address), B(events), 0), 0, 4, 0);
  told("write, on bytes",
       interface4_write((uint8_t *)events, INTERFACE4_EVENT_BYTES, written, sizeof written, 7, 9, 3000000000u), 0,
       sizeof notice, 0);
  same_notice();
  refused("part of a word, on bytes",
          interface4_write((uint8_t *)events, INTERFACE4_EVENT_BYTES + 1, written, sizeof written, 7, 9, 0), 201);
  two_addresses();
  told("left, on bytes", interface4_left(B(own), 3000000000u), 0, 2, 7);
  told("lookup4, on bytes", interface4_lookup4(B(state), B(row), PEER), 0, 0, 0);
  found_route();
  memset(row, 0, sizeof row);
  told("lookup4_flow, on bytes", interface4_lookup4_flow(B(state), B(row), PEER, 8, 1), 0, 0, 0);
  found_route();
  refused("another device, on bytes", interface4_lookup4_flow(B(state), B(row), PEER, 1, 8), 101);
  memset(answers, 0x5a, sizeof answers);
  told("lookup4_many, on bytes", interface4_lookup4_many(B(state), B(to), B(answers)), 0, 6, 0);
  two_answers();
  refused("part of a destination", interface4_lookup4_many(B(state), (const uint8_t *)to, 5, B(answers)), 200);
  told("source4, on bytes", interface4_source4(B(state), B(row), PEER), 1, OWN, 0);
  told("source, on bytes", interface4_source(B(state), PEER), 0, OWN, 0);
  told("local4, on bytes", interface4_local4(B(state), OWN), 0, 1, 0);
  told("select4, on bytes", interface4_select4(B(state), 1, PEER, 253), 1, OWN, 0);
  told("dump4, on bytes", interface4_dump4(B(state), B(listing)), 0, 6, 0);
  told("dump4_begin, on bytes", interface4_dump4_begin(B(state), B(part), B(cursor), 4), 0, 4, 0);
  first_part();
  told("dump4_next, on bytes", interface4_dump4_next(B(state), B(part), B(cursor), 4), 0, 2, 1);
  last_part();
  refused("words for bytes", interface4_check((const uint8_t *)state, INTERFACE4_STATE_WORDS), 200);
  told("add_route4, on bytes", interface4_add_route4(B(state), B(route), B(events)), 0, 1, 0);
  told("del_route4, on bytes", interface4_del_route4(B(state), B(same_route), B(events)), 0, 1, 0);
  is("its event, on bytes", events[0], INTERFACE4_DEL_ROUTE4);
  told("expire, on bytes", interface4_expire(B(state), B(events), 6000000000u, INTERFACE4_FUZZ), 0, 1, 0);
  told("del_v4, on bytes", interface4_del_v4(B(state), B(by_local), B(events)), 0, 4, 0);
  told("down, on bytes", interface4_down(B(state), B(events)), 0, 1, 0);
  is("the routes that are left, on bytes", state[1], 2);
}

static void record(const char *what, interface4_reply reply, uint32_t rows)
{
  told(what, reply, 0, rows, 0);
  memcpy(recording + recorded, events, rows * INTERFACE4_EVENT_BYTES);
  recorded += rows * INTERFACE4_EVENT_WORDS;
}

/* What the recording rebuilds is what the state has. */
static void rebuilt(const char *what, uint32_t rows)
{
  const size_t bytes = rows * INTERFACE4_ROUTE_BYTES;

  is("the rows that there are", state[1], rows);
  memset(listing, 0x5a, sizeof listing);
  told(what, interface4w_rebuild(recording, recorded, W(listing)), 0, rows, 0);
  is("the rows", (uint32_t)memcmp(listing, state + INTERFACE4_ROUTES_AT, bytes), 0);
  is("what is behind the rows", listing[rows * INTERFACE4_ROUTE_WORDS], 0x5a5a5a5au);
  memset(listing, 0x5a, sizeof listing);
  told(what, interface4_rebuild((uint8_t *)recording, 4 * recorded, B(listing)), 0, rows, 0);
  is("the rows, on bytes", (uint32_t)memcmp(listing, state + INTERFACE4_ROUTES_AT, bytes), 0);
}

static void recordings(void)
{
  const size_t up = 4 * INTERFACE4_EVENT_WORDS;

  memset(state, 0, sizeof state);
  record("up, recorded", interface4w_up(W(state), W(events), 0), 4);
  rebuilt("up, rebuilt", 3);
  record("add_route4, recorded", interface4w_add_route4(W(state), W(route), W(events)), 1);
  rebuilt("a route, rebuilt", 4);
  record("down, recorded", interface4w_down(W(state), W(events)), 1);
  rebuilt("down, rebuilt", 2);
  memcpy(again, recording, sizeof again);
  told("the same", interface4w_same(recording, recorded, again, recorded), 0, 1, 0);
  told("not the same", interface4_same((uint8_t *)recording, 4 * recorded, (uint8_t *)again, 4 * up), 0, 0, 0);
  by_local[1] = LOCALHOST;
  record("del_v4 of the last address, recorded", interface4w_del_v4(W(state), W(by_local), W(events)), 4);
  is("its last event", events[3 * INTERFACE4_EVENT_WORDS], INTERFACE4_IP_DISABLED);
  rebuilt("no address, rebuilt", 0);
  refused("a part of an event", interface4w_rebuild(recording, recorded - 1, W(listing)), 200);
  refused("short rows", interface4w_rebuild(recording, recorded, listing, INTERFACE4_LISTING_BUFFER_WORDS - 1), 200);
  recording[0] = 7;
  refused("an unknown event", interface4w_rebuild(recording, recorded, W(listing)), 208);
  refused("a part of a second one", interface4_same(B(recording), (uint8_t *)again, 35), 200);
  refused("a second one with it", interface4w_same(again, up, recording, recorded), 208);
  again[1] = 1;
  refused("an address with flags", interface4w_same(again, up, recording, recorded), 209);
}

int main(void)
{
  told("sizes", interface4_sizes(), INTERFACE4_PAPER, INTERFACE4_STATE_WORDS, INTERFACE4_EVENTS);
  requests();
  on_words();
  on_bytes();
  recordings();
  puts(failed ? "loopback: FAILED" : "loopback: every number as it must be");
  return failed;
}
