/*
 * IPv4 on a guest's loopback: addresses, routes, source choice, requests as
 * they come off an rtnetlink socket, events as they go onto it, and recordings
 * of events. The functions of libinterface4.a (`rt lib` in crates/interface4),
 * for x86-64 Linux, to be used from C99 or C++. Each is proved to do what
 * documents 01 and 02 say for any lent words at all.
 *
 * Each call is there twice: interface4w_* on words of 32 bits where they are,
 * and interface4_* on bytes, each word as four, the lowest first, which copies
 * them to words and back.
 *
 * What is lent. A slice is a pointer and a length in elements: words for
 * interface4w_*, bytes for interface4_* (a message is bytes for both). The
 * pointer is never NULL, not even for a length of 0. Words stand at a multiple
 * of 4; bytes anywhere. The caller keeps all of it: nothing is kept past the
 * call, freed or allocated. Through a pointer to const nothing is written, and
 * elsewhere nothing outside the length. No two slices of one call may overlap,
 * and nobody else may write them meanwhile. These are the only demands: any
 * length and any words in them are answered, if need be with a refusal.
 *
 * Re-entrancy. A call is a function of what it is lent and writes nothing
 * else: no globals, no clock, no input or output. So calls on different
 * slices may run at once, in any threads, and reading calls on one state too.
 * Every call ends. The library needs memcpy, memmove and memset.
 *
 * Stack. What a call needs besides is on its caller's stack: at most what
 * INTERFACE4W_STACK_* and INTERFACE4_STACK_* say, 4,096 to 94,208 bytes on
 * words and 4,096 to 188,416 on bytes.
 *
 * Addresses are 32-bit numbers, 10.1.0.5 being 0x0a010005. Clocks are in
 * nanoseconds, lifetimes in seconds.
 */
#ifndef INTERFACE4_H
#define INTERFACE4_H

#include <stddef.h>
#include <stdint.h>

#if !(defined(__x86_64__) && defined(__linux__) && !defined(__ILP32__))
#error "libinterface4.a is for 64-bit x86 Linux"
#endif

#ifdef __cplusplus
extern "C" {
#endif

/* Most of each. */
#define INTERFACE4_ADDRESSES 64
#define INTERFACE4_ROUTES 256
#define INTERFACE4_TABLES 32
#define INTERFACE4_EVENTS 385

/*
 * An address row, in words: local, address (a peer, or the same), prefix,
 * broadcast present, broadcast, scope, flags, proto, label length, label (16
 * bytes in 4), priority, valid, preferred, created (low, high), changed (low,
 * high).
 */
#define INTERFACE4_ADDRESS_WORDS 20
/*
 * A route row: table, dst, len, tos, priority, kind, proto, scope, prefsrc
 * present, prefsrc, gateway present, gateway, device, onlink, uses_gateway,
 * 17 metrics.
 */
#define INTERFACE4_ROUTE_WORDS 32
/*
 * An event row: what it is, the flags of a new route or 0, the address or
 * route row, zeros.
 */
#define INTERFACE4_EVENT_WORDS 34
#define INTERFACE4_NEW_ADDR4 1
#define INTERFACE4_DEL_ADDR4 2
#define INTERFACE4_NEW_ROUTE4 3
#define INTERFACE4_DEL_ROUTE4 4
/*
 * Two events are their number and zeros, and tell of rows that nothing else
 * tells of. Every down tells that the device's rows are gone, but for those of
 * scope 254. When the last address goes, all of them are gone, which is its
 * call's last event. Neither has a message.
 */
#define INTERFACE4_LINK_DOWN 5
#define INTERFACE4_IP_DISABLED 6

/*
 * A state: the counts of addresses, routes and tables, their rows (64, 256)
 * and the tables' numbers (32). What isn't used is 0; all 0 is a state. Behind
 * them the low and the high word of the change count, any of which will do: it
 * goes up by one with each call, refused or not, that changes an address, a
 * route or a table, and stops at 2^64 - 1. Behind that 32 row counts: at a
 * table's place how many routes it has, 0 at the places not in use; a state
 * with a wrong one is met by 201. Every call keeps them right.
 *
 * States of older libraries, 9,507 words (no change count) or 9,509 (no row
 * counts), are met by 200. They are taken over by putting behind them what is
 * missing: two words of 0 for the change count, and the row counts.
 */
#define INTERFACE4_STATE_WORDS 9541
#define INTERFACE4_ADDRESSES_AT 3
#define INTERFACE4_ROUTES_AT 1283
#define INTERFACE4_TABLES_AT 9475
#define INTERFACE4_COUNT_AT 9507
#define INTERFACE4_ROW_COUNTS_AT 9509
/* The fewest words of a buffer for events, for a listing, for one route. */
#define INTERFACE4_EVENT_BUFFER_WORDS 13090
#define INTERFACE4_LISTING_BUFFER_WORDS 8192
#define INTERFACE4_ROW_BUFFER_WORDS 32
/*
 * The cursor of a listing that is taken in parts: the next place, the low and
 * the high word of the start's change count. The mark of a part that isn't
 * sure to belong to what dump4 gave at the start is netlink's NLM_F_DUMP_INTR.
 */
#define INTERFACE4_CURSOR_WORDS 3
#define INTERFACE4_DUMP_INTERRUPTED 16
/*
 * The most destinations that are looked up together, and the words of the
 * answer to one: the number or 0, and the route row or zeros.
 */
#define INTERFACE4_DESTINATIONS 256
#define INTERFACE4_ANSWER_WORDS 33

/*
 * Requests, in words. An absent value has 0 in its word; where both stand
 * beside each other, the presence word is 0 or 1.
 *
 * add_v4: the first 14 of an address row, valid (not 0), preferred (at most
 *   valid), replace, up.
 * del_v4: local present, local, address present, address, prefix, label
 *   present, label length, label (4).
 * add_route4: the first 12 of a route row (any kind), oif, flags, request,
 *   metrics error, 17 metrics, up.
 * del_route4: the same 12, oif, list present, count, 17 pairs of a metric's
 *   index and its value.
 */
#define INTERFACE4_ADD_V4_WORDS 18
#define INTERFACE4_DEL_V4_WORDS 11
#define INTERFACE4_ADD_ROUTE4_WORDS 34
#define INTERFACE4_DEL_ROUTE4_WORDS 49

/* The same in bytes. */
#define INTERFACE4_ADDRESS_BYTES 80
#define INTERFACE4_ROUTE_BYTES 128
#define INTERFACE4_EVENT_BYTES 136
#define INTERFACE4_STATE_BYTES 38164
#define INTERFACE4_CURSOR_BYTES 12
#define INTERFACE4_ANSWER_BYTES 132
#define INTERFACE4_EVENT_BUFFER_BYTES 52360
#define INTERFACE4_LISTING_BUFFER_BYTES 32768
#define INTERFACE4_ROW_BUFFER_BYTES 128
#define INTERFACE4_ADD_V4_BYTES 72
#define INTERFACE4_DEL_V4_BYTES 44
#define INTERFACE4_ADD_ROUTE4_BYTES 136
#define INTERFACE4_DEL_ROUTE4_BYTES 196

/*
 * Messages: the fewest words of a buffer for a request that is read, which
 * fits each of the four; the types that are read, and the request of each:
 * add_v4, del_v4, add_route4, del_route4.
 */
#define INTERFACE4_REQUEST_BUFFER_WORDS 49
#define INTERFACE4_REQUEST_BUFFER_BYTES 196
#define INTERFACE4_RTM_NEWADDR 20
#define INTERFACE4_RTM_DELADDR 21
#define INTERFACE4_RTM_NEWROUTE 24
#define INTERFACE4_RTM_DELROUTE 25
/* The most bytes of a message that is written, and the fewest of a buffer for it. */
#define INTERFACE4_MESSAGE_BYTES 216

/* The last of document 02's papers that this header knows: see interface4_sizes. */
#define INTERFACE4_PAPER 10

/* A lifetime that never ends. */
#define INTERFACE4_FOREVER UINT32_MAX

/* The allowance of 20 ms that the Rust and Linux have, and the greatest that expire takes, in nanoseconds. */
#define INTERFACE4_FUZZ 20000000
#define INTERFACE4_ALLOWANCE_LIMIT 1000000000

/*
 * Why a call said no. Then no lent element has changed, but a refused
 * add_route4 may leave its table listed, and the change count one up, unless
 * the number is 200 to 203.
 * Besides these, the metrics error that a request carries in.
 */
#define INTERFACE4_NO_CREATE_FLAG 2        /* a new route, no create flag */
#define INTERFACE4_NO_SUCH_ROUTE 3         /* or no such table */
#define INTERFACE4_PROHIBITED 13           /* a route prohibits it */
#define INTERFACE4_THERE_ALREADY 17        /* the address or the route */
#define INTERFACE4_WRONG_DEVICE 19         /* not the loopback */
/* a bad request for a route; valid 0 or preferred above it; a blackhole */
#define INTERFACE4_INVALID 22
#define INTERFACE4_NOT_SUPPORTED 95        /* a kind of route */
#define INTERFACE4_NO_SUCH_ADDRESS 99
#define INTERFACE4_DOWN 100                /* the device */
#define INTERFACE4_NO_ROUTE_TO_NETWORK 101 /* no route fits */
#define INTERFACE4_UNREACHABLE 113         /* a route says so */
#define INTERFACE4_UNFIT_BUFFER 200        /* a slice of the wrong length */
#define INTERFACE4_UNFIT_STATE 201         /* not well-formed; a row or event too */
#define INTERFACE4_UNFIT_REQUEST 202       /* a field, clock or allowance out of range */
#define INTERFACE4_NO_SPACE 203            /* a list would pass its limit */
#define INTERFACE4_BAD_LENGTH 204          /* of a message, or in it */
#define INTERFACE4_NOT_IPV4 205            /* a message of another type or family */
#define INTERFACE4_BAD_ATTRIBUTE 206       /* of the wrong size; or no local address */
#define INTERFACE4_BAD_MASK 207            /* a netmask that isn't ones, then zeros */
#define INTERFACE4_UNKNOWN_EVENT 208       /* in a recording: of another kind */
#define INTERFACE4_UNFIT_EVENT 209         /* in a recording: its words, or for the rows so far */
/* looked up together */
#define INTERFACE4_TOO_MANY_DESTINATIONS 210
#define INTERFACE4_NOT_RISING 211          /* a destination below the one before it */

/* What every call replies: number is 0, or a refusal and then the rest 0. */
typedef struct interface4_reply {
  uint32_t number;
  uint32_t present;
  uint32_t value;
  uint32_t second;
} interface4_reply;

/*
 * Stack, in bytes: no call needs more on any input. Found by adding up the
 * frames of all paths, and by running (host/c/stack); rounded up to pages,
 * with at least 1,024 left for the C library's memcpy and its like.
 */
#define INTERFACE4W_STACK_UP 94208
#define INTERFACE4W_STACK_DOWN 4096
#define INTERFACE4W_STACK_ADD_V4 45056
#define INTERFACE4W_STACK_DEL_V4 4096
#define INTERFACE4W_STACK_EXPIRE 4096
#define INTERFACE4W_STACK_ADD_ROUTE4 4096
#define INTERFACE4W_STACK_DEL_ROUTE4 4096
#define INTERFACE4W_STACK_DUMP4 8192
#define INTERFACE4W_STACK_DUMP4_BEGIN 36864
#define INTERFACE4W_STACK_DUMP4_NEXT 36864
#define INTERFACE4W_STACK_LOOKUP4 4096
#define INTERFACE4W_STACK_LOOKUP4_FLOW 4096
#define INTERFACE4W_STACK_LOOKUP4_MANY 4096
#define INTERFACE4W_STACK_LOCAL4 4096
#define INTERFACE4W_STACK_SOURCE4 4096
#define INTERFACE4W_STACK_SOURCE 4096
#define INTERFACE4W_STACK_SELECT4 4096
#define INTERFACE4W_STACK_LEFT 4096
#define INTERFACE4W_STACK_CHECK 4096
#define INTERFACE4W_STACK_READ 4096
#define INTERFACE4W_STACK_WRITE 4096
#define INTERFACE4W_STACK_REBUILD 40960
#define INTERFACE4W_STACK_SAME 77824
#define INTERFACE4W_STACK_ADD_V4_MASK 45056
#define INTERFACE4W_STACK_DEL_V4_MASK 4096
#define INTERFACE4_STACK_UP 188416
#define INTERFACE4_STACK_DOWN 40960
#define INTERFACE4_STACK_ADD_V4 135168
#define INTERFACE4_STACK_DEL_V4 98304
#define INTERFACE4_STACK_EXPIRE 98304
#define INTERFACE4_STACK_ADD_ROUTE4 94208
#define INTERFACE4_STACK_DEL_ROUTE4 94208
#define INTERFACE4_STACK_DUMP4 77824
#define INTERFACE4_STACK_DUMP4_BEGIN 110592
#define INTERFACE4_STACK_DUMP4_NEXT 110592
#define INTERFACE4_STACK_LOOKUP4 40960
#define INTERFACE4_STACK_LOOKUP4_FLOW 40960
#define INTERFACE4_STACK_LOOKUP4_MANY 77824
#define INTERFACE4_STACK_LOCAL4 40960
#define INTERFACE4_STACK_SOURCE4 40960
#define INTERFACE4_STACK_SOURCE 40960
#define INTERFACE4_STACK_SELECT4 40960
#define INTERFACE4_STACK_LEFT 4096
#define INTERFACE4_STACK_CHECK 40960
#define INTERFACE4_STACK_READ 4096
#define INTERFACE4_STACK_WRITE 4096
#define INTERFACE4_STACK_REBUILD 40960
#define INTERFACE4_STACK_SAME 77824
#define INTERFACE4_STACK_ADD_V4_MASK 172032
#define INTERFACE4_STACK_DEL_V4_MASK 131072
#define INTERFACE4_STACK_SIZES 4096
#define INTERFACE4_STACK_PREFIX 4096

/*
 * Calls that change the state. `value` is the number of rows written from
 * the start of `events`; what is behind them keeps what it held.
 */

/* The device goes up: 127.0.0.1/8 if it isn't there, every address's routes. */
interface4_reply interface4w_up(uint32_t *state, size_t state_len, uint32_t *events, size_t events_len, uint64_t now);
interface4_reply interface4_up(uint8_t *state, size_t state_len, uint8_t *events, size_t events_len, uint64_t now);

/* The device goes down: its routes go, but for those of host scope. One event, INTERFACE4_LINK_DOWN. */
interface4_reply interface4w_down(uint32_t *state, size_t state_len, uint32_t *events, size_t events_len);
interface4_reply interface4_down(uint8_t *state, size_t state_len, uint8_t *events, size_t events_len);

/* An address is put in, or changed where the request says replace. */
interface4_reply interface4w_add_v4(uint32_t *state, size_t state_len, const uint32_t *request, size_t request_len,
                                    uint32_t *events, size_t events_len, uint64_t now);
interface4_reply interface4_add_v4(uint8_t *state, size_t state_len, const uint8_t *request, size_t request_len,
                                   uint8_t *events, size_t events_len, uint64_t now);

/*
 * The first address that meets the conditions goes, a primary with its
 * secondaries; with the last address all routes of the device.
 */
interface4_reply interface4w_del_v4(uint32_t *state, size_t state_len, const uint32_t *request, size_t request_len,
                                    uint32_t *events, size_t events_len);
interface4_reply interface4_del_v4(uint8_t *state, size_t state_len, const uint8_t *request, size_t request_len,
                                   uint8_t *events, size_t events_len);

/*
 * The same two with a netmask in the prefix's word of the request. A mask that
 * isn't good is refused by 207, after 200 and 201 and before 202.
 */
interface4_reply interface4w_add_v4_mask(uint32_t *state, size_t state_len, const uint32_t *request,
                                         size_t request_len, uint32_t *events, size_t events_len, uint64_t now);
interface4_reply interface4_add_v4_mask(uint8_t *state, size_t state_len, const uint8_t *request, size_t request_len,
                                        uint8_t *events, size_t events_len, uint64_t now);
interface4_reply interface4w_del_v4_mask(uint32_t *state, size_t state_len, const uint32_t *request,
                                         size_t request_len, uint32_t *events, size_t events_len);
interface4_reply interface4_del_v4_mask(uint8_t *state, size_t state_len, const uint8_t *request, size_t request_len,
                                        uint8_t *events, size_t events_len);

/*
 * Addresses whose time is up go; those past their preferred time are marked.
 * A lifetime that ends within the allowance, in nanoseconds, counts as ended:
 * INTERFACE4_FUZZ, or what suits the host's timer. 202 for one over
 * INTERFACE4_ALLOWANCE_LIMIT, and where it passes UINT64_MAX with the clock.
 */
interface4_reply interface4w_expire(uint32_t *state, size_t state_len, uint32_t *events, size_t events_len,
                                    uint64_t now, uint64_t allowance);
interface4_reply interface4_expire(uint8_t *state, size_t state_len, uint8_t *events, size_t events_len, uint64_t now,
                                   uint64_t allowance);

/* A route is put in, or replaces one. */
interface4_reply interface4w_add_route4(uint32_t *state, size_t state_len, const uint32_t *request, size_t request_len,
                                        uint32_t *events, size_t events_len);
interface4_reply interface4_add_route4(uint8_t *state, size_t state_len, const uint8_t *request, size_t request_len,
                                       uint8_t *events, size_t events_len);

/* The first route that matches goes. */
interface4_reply interface4w_del_route4(uint32_t *state, size_t state_len, const uint32_t *request, size_t request_len,
                                        uint32_t *events, size_t events_len);
interface4_reply interface4_del_route4(uint8_t *state, size_t state_len, const uint8_t *request, size_t request_len,
                                       uint8_t *events, size_t events_len);

/*
 * Calls that read the state.
 */

/* The route rows in the order in which Linux lists tables; `value` of them. */
interface4_reply interface4w_dump4(const uint32_t *state, size_t state_len, uint32_t *listing, size_t listing_len);
interface4_reply interface4_dump4(const uint8_t *state, size_t state_len, uint8_t *listing, size_t listing_len);

/*
 * A listing in parts of 1 to 256 rows, with any other calls between them.
 * `begin` gives the first rows, `next` goes on from what the part before left
 * in `cursor` (any words will do; a place past the end gives no row and
 * finishes it). `listing` has room for `rows` rows, or for 256 if that is
 * less; what is behind the rows given keeps what it held. `value` is the
 * number of rows given, `present` INTERFACE4_DUMP_INTERRUPTED if the change
 * count isn't the start's or is at its largest, else 0, `second` 1 if the rows
 * reach the end, else 0. `cursor`, exactly INTERFACE4_CURSOR_WORDS, is written
 * by both and read by `next` alone; a refusal leaves it.
 *
 * 200, 201, then 202 for 0 rows or more than 256.
 */
interface4_reply interface4w_dump4_begin(const uint32_t *state, size_t state_len, uint32_t *listing,
                                         size_t listing_len, uint32_t *cursor, size_t cursor_len, uint32_t rows);
interface4_reply interface4_dump4_begin(const uint8_t *state, size_t state_len, uint8_t *listing, size_t listing_len,
                                        uint8_t *cursor, size_t cursor_len, uint32_t rows);
interface4_reply interface4w_dump4_next(const uint32_t *state, size_t state_len, uint32_t *listing,
                                        size_t listing_len, uint32_t *cursor, size_t cursor_len, uint32_t rows);
interface4_reply interface4_dump4_next(const uint8_t *state, size_t state_len, uint8_t *listing, size_t listing_len,
                                       uint8_t *cursor, size_t cursor_len, uint32_t rows);

/* The route to ip, written to `row`. */
interface4_reply interface4w_lookup4(const uint32_t *state, size_t state_len, uint32_t *row, size_t row_len,
                                     uint32_t ip);
interface4_reply interface4_lookup4(const uint8_t *state, size_t state_len, uint8_t *row, size_t row_len, uint32_t ip);

/* The same for a type of service and a device (0: any; 1: the loopback). */
interface4_reply interface4w_lookup4_flow(const uint32_t *state, size_t state_len, uint32_t *row, size_t row_len,
                                          uint32_t ip, uint32_t tos, uint32_t oif);
interface4_reply interface4_lookup4_flow(const uint8_t *state, size_t state_len, uint8_t *row, size_t row_len,
                                         uint32_t ip, uint32_t tos, uint32_t oif);

/*
 * The routes to up to INTERFACE4_DESTINATIONS addresses in rising order, equal
 * ones allowed: for each what lookup4 gives, refusals too, found by one walk of
 * the rows for each set of tables. The answers stand from the start of
 * `answers`, which has room for INTERFACE4_ANSWER_WORDS for each; what is
 * behind them keeps what it held, and a refusal leaves all. `value` is the
 * number of rows weighed: those of 254 and 255 whose dst isn't above the last
 * destination, and, if 253 is listed, those of 253 whose dst isn't above the
 * last destination for which 254 and 255 had none or a throw.
 *
 * 200, also for answers without room for all of too many destinations, and for
 * bytes of destinations that aren't whole words; then 201, 210 for too many,
 * 211 where one is below the one before it.
 */
interface4_reply interface4w_lookup4_many(const uint32_t *state, size_t state_len, const uint32_t *destinations,
                                          size_t destinations_len, uint32_t *answers, size_t answers_len);
interface4_reply interface4_lookup4_many(const uint8_t *state, size_t state_len, const uint8_t *destinations,
                                         size_t destinations_len, uint8_t *answers, size_t answers_len);

/* Whether ip is the loopback's: `value` is 1 or 0. */
interface4_reply interface4w_local4(const uint32_t *state, size_t state_len, uint32_t ip);
interface4_reply interface4_local4(const uint8_t *state, size_t state_len, uint32_t ip);

/* The source to ip by the route in `row`: `present` is 1 and `value` the address, or both are 0. */
interface4_reply interface4w_source4(const uint32_t *state, size_t state_len, const uint32_t *row, size_t row_len,
                                     uint32_t ip);
interface4_reply interface4_source4(const uint8_t *state, size_t state_len, const uint8_t *row, size_t row_len,
                                    uint32_t ip);

/* The source to ip: `value` is the address, 127.0.0.1 where there is no other. */
interface4_reply interface4w_source(const uint32_t *state, size_t state_len, uint32_t ip);
interface4_reply interface4_source(const uint8_t *state, size_t state_len, uint32_t ip);

/* The address chosen for a destination (or none: 0, 0) and a scope: `present` and `value` as of source4. */
interface4_reply interface4w_select4(const uint32_t *state, size_t state_len, uint32_t dst_present, uint32_t dst,
                                     uint32_t scope);
interface4_reply interface4_select4(const uint8_t *state, size_t state_len, uint32_t dst_present, uint32_t dst,
                                    uint32_t scope);

/* The lifetimes that the address in `row` has left: `value` the preferred, `second` the valid one. No state. */
interface4_reply interface4w_left(const uint32_t *row, size_t row_len, uint64_t now);
interface4_reply interface4_left(const uint8_t *row, size_t row_len, uint64_t now);

/* Looks at a state and does nothing else: 200 for a wrong length, 201 for words that are not well-formed, else 0. */
interface4_reply interface4w_check(const uint32_t *state, size_t state_len);
interface4_reply interface4_check(const uint8_t *state, size_t state_len);

/*
 * Requests off a socket. No state.
 */

/*
 * One rtnetlink message is read: netlink's header, ifaddrmsg or rtmsg, and
 * attributes. `message` is lent for reading, bytes in both, anywhere; only
 * those up to the length in its header are read, and a next message begins at
 * that length, rounded up to four. The request is written from the start of
 * `request`, at least INTERFACE4_REQUEST_BUFFER_WORDS; what is behind it keeps
 * what it held. `up` becomes the last word of a request of type 20 or 24 (0 or
 * 1, which add_v4 and add_route4 check); no message knows whether the device is
 * up. `value` is the type, `second` the number of words written: lend so many
 * to the call of that type.
 *
 * What has no field in a request is skipped. A host that wants to answer as
 * Linux does looks at these itself: ifa_index (a message for another device
 * reads as one for the loopback), NLM_F_REQUEST (not asked for), RTA_VIA and
 * RTA_MULTIPATH (skipped); 0.0.0.0 as a broadcast address, gateway or preferred
 * source is present here; an attribute longer than its field and a metric that
 * is a name are refused here with 206.
 *
 * 200, then 204, 205, 206.
 */
interface4_reply interface4w_read(const uint8_t *message, size_t message_len, uint32_t *request, size_t request_len,
                                  uint32_t up);
interface4_reply interface4_read(const uint8_t *message, size_t message_len, uint8_t *request, size_t request_len,
                                 uint32_t up);

/*
 * Events onto a socket. No state.
 */

/*
 * One event row is written as an rtnetlink message, type 20, 21, 24 or 25 by
 * its kind: the header with the event's flags, `sequence` and `port`, ifaddrmsg
 * or rtmsg, and attributes by rising code. `message` is bytes in both,
 * anywhere, at least INTERFACE4_MESSAGE_BYTES whatever this message takes; what
 * is behind the message keeps what it held. `value` is the message's bytes, a
 * multiple of 4. An address's lifetimes are those that left gives at `now`,
 * its stamps 0. The device index is 1, absent where a route's device is 0.
 *
 * 200 for a shorter buffer; then 201 for an event that isn't
 * INTERFACE4_EVENT_WORDS long, is of another kind, has flags over 65,535, or
 * whose row could stand in no state. What is behind an address row isn't
 * looked at.
 */
interface4_reply interface4w_write(const uint32_t *event, size_t event_len, uint8_t *message, size_t message_len,
                                   uint32_t sequence, uint32_t port, uint64_t now);
interface4_reply interface4_write(const uint8_t *event, size_t event_len, uint8_t *message, size_t message_len,
                                  uint32_t sequence, uint32_t port, uint64_t now);

/*
 * Recordings: the event rows that calls told, one behind the other. No state.
 */

/*
 * The route rows that a recording rebuilds, `value` of them, are written from
 * the start of `rows`, at least INTERFACE4_LISTING_BUFFER_WORDS; what is behind
 * them keeps what it held, and a refusal leaves all. Of all events of a run
 * from empty they are the state's route rows, in order. A new route with flag
 * 0x100 replaces the first row alike in dst, len, table, tos and priority; else
 * 0x800 adds it after the alike rows, otherwise before them. Addresses rebuild
 * nothing.
 *
 * 200 for a recording that isn't whole event rows, or shorter rows. Then the
 * earliest event that is refused decides: 208 for another kind; 209 for an
 * address or route row that could stand in no state, flags over 65,535 or of
 * another kind than a new route, another word that should be 0, a deletion of a
 * row not there, a replacement with no alike row, an addition of or replacement
 * by a row already there, or a 257th row.
 */
interface4_reply interface4w_rebuild(const uint32_t *recording, size_t recording_len, uint32_t *rows, size_t rows_len);
interface4_reply interface4_rebuild(const uint8_t *recording, size_t recording_len, uint8_t *rows, size_t rows_len);

/*
 * Whether two recordings rebuild the same rows in the same order: `value` is 1
 * or 0. 200 for either; then 208 or 209 for the first, then for the second.
 */
interface4_reply interface4w_same(const uint32_t *first, size_t first_len, const uint32_t *second, size_t second_len);
interface4_reply interface4_same(const uint8_t *first, size_t first_len, const uint8_t *second, size_t second_len);

/*
 * The prefix of a netmask, `value`, the count of its ones: 255.255.255.0 is 24.
 * 207 unless its ones and its trailing zeros together make 32. Nothing is lent.
 */
interface4_reply interface4_prefix(uint32_t mask);

/*
 * What the library means: `value` the words of a state, `second` the fewest
 * rows of an event buffer, `present` the last paper that it has. A host asks
 * once, and compares with INTERFACE4_STATE_WORDS, INTERFACE4_EVENTS and
 * INTERFACE4_PAPER. Nothing is lent.
 */
interface4_reply interface4_sizes(void);

#ifdef __cplusplus
}
#endif

#endif
