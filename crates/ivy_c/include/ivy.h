/* ivy.h: one node of a coherent shared memory, as a value.
 *
 * A node starts no thread, takes no lock, reads no clock, opens no socket and keeps no global state. The program around
 * it, the driver, moves strings of bytes between the nodes, by any transport, and says when to send again. Each node
 * runs the proved code of Ivy: whatever a transport loses, repeats or reorders, the replies of all nodes are those of
 * one flat memory, as long as each string that is delivered was made by one of the nodes. A forged string is safe to
 * deliver, but may do what a peer may do.
 *
 * THE DRIVER OWES
 *   1. All nodes have one configuration. Frames do not name it, so compare it before the first frame.
 *   2. Each string that arrives is handed to ivy_deliver. Any bytes are safe; losses, repeats and order do not matter.
 *   3. After each call the strings that wait are taken by ivy_next_frame and sent. Losing one is allowed.
 *   4. ivy_pulse to each peer now and then, by a timer: it makes again what is not acknowledged, and acknowledges what
 *      came. A pulse to a peer that is in neither ivy_kept_set nor ivy_owed_set makes no string. Without pulses what is
 *      kept grows, also where nothing is lost.
 *   5. 2 to 4 go on while the owner computes or waits for something else, and until no peer needs this node any more:
 *      a node owns pages that others ask for at any time.
 *   6. Where it lends pages (below): what is said there of images, and ivy_go_on.
 *
 * OWNERSHIP. An ivy_node begins as IVY_NONE. Its member is neither read nor written. It is never copied while open; it
 * may be moved to another thread. Two threads are never inside functions of one node at once: take a lock round them.
 * Different nodes are independent. No pointer is null, but for `bytes`, `from` and `room` where `len` is 0, and no memory
 * that is passed overlaps other memory that is passed and written. A node owns memory until ivy_close: its pages, strings
 * that came early, and what peers have not acknowledged.
 *
 * UNITS. Addresses and sizes are in bytes. A word has 1, 2, 4 or 8 bytes and is a number; in a page it is big-endian,
 * which only blocks show. The first page holds the eventcounts, page_size / 8 of them, numbered from 0; the heap begins at
 * address page_size and ends at pages * page_size.
 */
#ifndef IVY_H
#define IVY_H
#include <stddef.h>
#include <stdint.h>
#ifdef __cplusplus
extern "C" {
#endif

#define IVY_VERSION 1u
uint32_t ivy_version(void); /* of the library: compare it with IVY_VERSION */

/* ---- Statuses ---------------------------------------------------------------------------------------------------
 *
 * Below 256 a status is a reply of the memory: 0 the call was carried out, 3 to 10 it was refused and changed nothing
 * in the memory; it is over either way. IVY_PENDING says that a call is in progress, also one for which memory ran out as
 * it began. After each other status the node is as it was before the function was called, but for ivy_go_on, and what the
 * pointers lead to is not to be used, but for IVY_WANTED of ivy_wanted and ivy_go_on. */
typedef uint32_t ivy_status;
enum {
  IVY_DONE = 0,
  IVY_MISALIGNED = 3,       /* the address is no multiple of the width */
  IVY_OUT_OF_RANGE = 4,     /* the address is past the heap */
  IVY_RESERVED = 5,         /* the address is in the first page */
  IVY_NO_SUCH_COUNT = 6,
  IVY_COUNT_FULL = 7,       /* the count is at its greatest value */
  IVY_ZERO_SIZE = 8,        /* a block of no bytes */
  IVY_NO_ROOM = 9,          /* no room in the heap for the block */
  IVY_NOT_A_BLOCK = 10,     /* no live block begins at the address */
  /* From here on: 256 and the number of a fault that is no reply of the memory. */
  IVY_MEMORY = 257,         /* malloc gave no memory: try again */
  IVY_BAD_CONFIG = 258,     /* the configuration is out of its limits */
  IVY_SHORT_FRAME = 267,    /* 267 to 272: these bytes are no frame of this configuration */
  IVY_BAD_MAGIC = 268,
  IVY_BAD_VERSION = 269,
  IVY_BAD_KIND = 270,
  IVY_BAD_NODE = 271,
  IVY_BAD_BODY = 272,
  IVY_NUMBERS_SPENT = 273,  /* a message number above 2^64 - 1 would be needed */
  IVY_BUSY = 274,           /* a call is in progress already */
  IVY_PENDING = 300,
  IVY_NO_CALL = 301,        /* no call is in progress */
  IVY_NO_FRAME = 302,       /* no string waits */
  IVY_SHORT_BUFFER = 303,   /* the first string is longer than the buffer, and waits */
  IVY_BAD_ARGUMENT = 304,   /* no such kind, width, node or manager */
  IVY_CLOSED = 305,         /* the handle has no node */
  IVY_OPEN = 306,           /* the handle has a node already */
  IVY_WANTED = 307,         /* the string would take a page that is lent: give that back, then deliver the string again */
  IVY_LENT = 308,           /* the page of the call or of the block is lent */
  IVY_NO_PAGE = 309         /* the page is not here, or not here to be written, or a call waits for it */
};

/* The name of a status; never null. */
static inline const char *ivy_status_text(uint32_t status) {
  switch (status) {
    case IVY_DONE: return "done";
    case IVY_MISALIGNED: return "the address is no multiple of the width";
    case IVY_OUT_OF_RANGE: return "the address is past the heap";
    case IVY_RESERVED: return "the address is in the first page";
    case IVY_NO_SUCH_COUNT: return "there is no such eventcount";
    case IVY_COUNT_FULL: return "the eventcount is at its greatest value";
    case IVY_ZERO_SIZE: return "a block of no bytes";
    case IVY_NO_ROOM: return "no room in the heap";
    case IVY_NOT_A_BLOCK: return "no live block begins at the address";
    case IVY_MEMORY: return "no memory";
    case IVY_BAD_CONFIG: return "not 2 to 32 nodes, 2 to 65536 pages, or a power of two from 64 to 4096 bytes a page";
    case IVY_SHORT_FRAME: return "no frame: too short";
    case IVY_BAD_MAGIC: return "no frame: other first bytes";
    case IVY_BAD_VERSION: return "no frame: another version";
    case IVY_BAD_KIND: return "no frame: no such kind";
    case IVY_BAD_NODE: return "no frame: no such node";
    case IVY_BAD_BODY: return "no frame: length, number or field is wrong";
    case IVY_NUMBERS_SPENT: return "message numbers are spent";
    case IVY_BUSY: return "a call is in progress already";
    case IVY_PENDING: return "the call is in progress";
    case IVY_NO_CALL: return "no call is in progress";
    case IVY_NO_FRAME: return "no string waits";
    case IVY_SHORT_BUFFER: return "the buffer is shorter than the string";
    case IVY_BAD_ARGUMENT: return "no such kind, width, node or manager";
    case IVY_CLOSED: return "the handle has no node";
    case IVY_OPEN: return "the handle has a node already";
    case IVY_WANTED: return "the string would take a page that is lent";
    case IVY_LENT: return "the page is lent";
    case IVY_NO_PAGE: return "the page is not here, or not to be written";
    default: return "unknown status";
  }
}

/* ---- A node ----------------------------------------------------------------------------------------------------- */

typedef struct { void *at; } ivy_node;
#define IVY_NONE { 0 } /* what a node begins as; to be assigned it is ivy_none() */
static inline ivy_node ivy_none(void) {
  ivy_node none = IVY_NONE;
  return none;
}

typedef enum ivy_manager {
  IVY_FIXED = 0,  /* a fixed node for each page keeps who owns it */
  IVY_DYNAMIC = 1, /* each node keeps a hint of who owns each page */
  IVY_STEADY = 2   /* the same, but hints stay as copies end, and what finds a copy awaited is sent on: of ivy_open_by alone */
} ivy_manager;

/* No frame of a configuration is longer. */
#define IVY_FRAME_MOST(page_size) ((size_t)(page_size) + 41u)

/* Opens node `me` of 2 to 32 `nodes`, with 2 to 65,536 pages of a power of two from 64 to 4,096 bytes; of more than 256
 * pages each is made when it is first used. The first of these that holds: OPEN, BAD_ARGUMENT (no such manager),
 * BAD_CONFIG (out of these limits), BAD_ARGUMENT (no such node); else IVY_DONE, or MEMORY. After any but IVY_DONE the
 * handle is as it was. */
uint32_t ivy_open(ivy_node *node, uint32_t nodes, uint32_t pages, uint32_t page_size, uint32_t manager, uint32_t me);

/* The same by any manager, IVY_STEADY among them, which ivy_open refuses. All nodes of a run are opened by one manager. */
uint32_t ivy_open_by(ivy_node *node, uint32_t nodes, uint32_t pages, uint32_t page_size, uint32_t manager, uint32_t me);

/* Frees all that a node has. A handle without one stays as it is. */
void ivy_close(ivy_node *node);

/* ---- Calls: one at a time ------------------------------------------------------------------------------------------
 *
 *                         place             width       operand     expected  *value, where the status is IVY_DONE
 *   IVY_LOAD              address           1, 2, 4, 8                        what stands there
 *   IVY_STORE             address           1, 2, 4, 8  new value             as it was
 *   IVY_SWAP              address           1, 2, 4, 8  new value             what stood there
 *   IVY_COMPARE_AND_SWAP  address           1, 2, 4, 8  new value   expected  what stood there
 *   IVY_FETCH_AND_ADD     address           1, 2, 4, 8  addend                what stood there
 *   IVY_COUNT             number of a count                                   the count
 *   IVY_ADVANCE           number of a count                                   as it was
 *   IVY_AWAIT             number of a count             least                 the count, once it is at least `least`
 *   IVY_ALLOC                                           bytes                 the address, a multiple of 8
 *   IVY_FREE              address                                             as it was
 */
typedef enum ivy_kind {
  IVY_LOAD, IVY_STORE, IVY_SWAP, IVY_COMPARE_AND_SWAP, IVY_FETCH_AND_ADD, IVY_COUNT, IVY_ADVANCE, IVY_AWAIT, IVY_ALLOC,
  IVY_FREE
} ivy_kind;

/* Begins a call. Below 256: it is over. IVY_PENDING: it is in progress, and ivy_reply has its reply later; it cannot be
 * withdrawn. MEMORY, BUSY, BAD_ARGUMENT, CLOSED: it was not begun. Nor was it with LENT: its word's page is lent to be
 * written, or is lent to be read and the call is no load. A call that is refused with 3 to 7, or is BUSY, says so first. */
uint32_t ivy_begin(ivy_node *node, uint32_t kind, uint32_t width, uint64_t place, uint64_t operand, uint64_t expected,
                   uint64_t *value);

/* The reply of the call in progress, once: below 256. IVY_PENDING: none yet; ask again after an ivy_deliver. Strings may
 * wait after it: an await asks for its page again. MEMORY and NUMBERS_SPENT: nothing changed, the call is in progress
 * still. NO_CALL, CLOSED. */
uint32_t ivy_reply(ivy_node *node, uint64_t *value);

/* ---- Blocks -------------------------------------------------------------------------------------------------------
 *
 * Words of 8 bytes that follow one another are loaded into a buffer, or stored from one, in one call: each word as a call
 * of width 8 that is carried out at once, one after another, with nothing between them. In the buffer each word has its
 * highest byte first, on any machine: the number of a word is b[0] << 56 | b[1] << 48 | .. | b[7].
 *
 * `len` is the length of the buffer in bytes. As many words are carried out as lie in it whole and from `address` to the
 * end of its page, and *words says how many; the rest is asked for by further calls. What stands in the buffer behind
 * these words is not to be used after ivy_load_block. The buffer is the caller's, and is not kept.
 *
 * IVY_DONE with *words 0: nothing was done. The page is not here, or not here to be written; the address is no multiple of
 * 8, or no word of the heap is there; a call is in progress; the buffer has less than 8 bytes. Then begin what is left as a
 * block that waits (below), or make the first word's call by ivy_begin: each asks for the page, and the status of the call
 * says what is wrong. While the page is here, blocks go on.
 *
 * No string waits after a block that did not wait before, and none takes memory: such a node keeps no list of its calls.
 * A driver that keeps a log with a line for each call makes the calls one by one instead.
 *
 * A page that is lent may be loaded by blocks, and stored by them where it is lent to be written; else LENT says that
 * nothing was done. */

/* Loads a block: IVY_DONE, with the number of words, CLOSED. */
uint32_t ivy_load_block(ivy_node *node, uint64_t address, uint8_t *into, size_t len, size_t *words);

/* Stores a block: IVY_DONE, with the number of words; LENT: the page is lent to be read; CLOSED. */
uint32_t ivy_store_block(ivy_node *node, uint64_t address, const uint8_t *from, size_t len, size_t *words);

/* ---- Blocks that wait ---------------------------------------------------------------------------------------------
 *
 * Where the page of a block is not here, the calls of its words are made together, and the first of them asks for the
 * page. When it comes all of them are carried out, before another node can take it again, and their replies are taken at
 * once:
 *
 *   1. ivy_load_block, and for what it leaves again, while it loads any. 0 words: go on here.
 *   2. ivy_begin_load_block of what is left. IVY_PENDING: the calls of *words words are in progress, and cannot be
 *      withdrawn. IVY_DONE with *words 0: nothing was done, so make the first word's call by ivy_begin.
 *   3. Take the strings that wait, as after each call, and ask ivy_take_load_block after each ivy_deliver, until it gives
 *      words: they are all of those that began, and no call is in progress. Go on with what is left of the block.
 *
 * Stores are begun by ivy_begin_store_block and taken by ivy_take_store_block, in the same way.
 *
 * Whoever may make a call may begin a block: while one is in progress, calls are refused, blocks do nothing, and strings
 * and pulses go on. ivy_reply takes the reply of the first word that has none yet, as of any call; then those left are
 * taken by ivy_reply, or from the next word's address on. No buffer is kept: the replies may be taken into another one. */

/* Makes the loads, or the stores, of words from `address` on together, where the first has to wait: as many as lie in
 * `len` bytes whole and from `address` to the end of its page. No byte of `room` is read or written: the buffer for the
 * words will do. IVY_PENDING, with how many. IVY_DONE with *words 0: nothing was done; the first word need not wait, or is
 * none of the heap, `len` is less than 8, or a call is in progress. LENT: the page is lent. MEMORY, NUMBERS_SPENT: no call
 * was made, and nothing changed. CLOSED. */
uint32_t ivy_begin_load_block(ivy_node *node, uint64_t address, const uint8_t *room, size_t len, size_t *words);
uint32_t ivy_begin_store_block(ivy_node *node, uint64_t address, const uint8_t *from, size_t len, size_t *words);

/* Takes the replies to all calls in progress, where they are loads of words from just this address on, or stores there of
 * just the words at the head of `from`, the replies are there, and all of the words lie in `len` bytes: IVY_DONE, with how
 * many. Loaded words stand at the head of `into`. IVY_DONE with *words 0: nothing was done, and what stands in `into` is
 * not to be used. No string waits that did not before, and none takes memory. CLOSED. */
uint32_t ivy_take_load_block(ivy_node *node, uint64_t address, uint8_t *into, size_t len, size_t *words);
uint32_t ivy_take_store_block(ivy_node *node, uint64_t address, const uint8_t *from, size_t len, size_t *words);

/* How many turns the node has had since it was opened, modulo 2^64. An ivy_begin and an ivy_reply has one turn or none,
 * whatever its status, a block that is carried out or taken one for each of its words, one that begins one, an ivy_fetch
 * one where it asks for a page, and nothing else has any: so a driver that keeps a log of the node knows which had one.
 * It changes nothing. IVY_DONE, CLOSED. */
uint32_t ivy_turns(ivy_node *node, uint64_t *turns);

/* ---- Pages fetched ahead ------------------------------------------------------------------------------------------
 *
 * A page that will be needed may be asked for beforehand: it comes while the program goes on, and a later call or block
 * finds it here. A fetch is no call, has no reply, and cannot be withdrawn; what comes of it shows only in how long later
 * calls take. Up to seven pages are fetched at once. A page that came may be taken by another node again before it is used.
 *
 * Fetch no page to be written without need: all other nodes lose it. */

/* Asks for `page` ahead, to be read (IVY_TO_READ) or to be written (IVY_TO_WRITE; both below). IVY_DONE with *begun 1: it is
 * asked for from now on. IVY_DONE with *begun 0: nothing was done; the node may do that with the page already, or asked for
 * it already, seven pages are being fetched, the page is lent, or a call in progress stands in the way. Then ask again
 * later, or not at all. BAD_ARGUMENT: there is no such page, or `to` is neither; MEMORY, NUMBERS_SPENT: nothing changed;
 * CLOSED. The first page, of the counts, may be fetched too. Strings wait after *begun 1: take them, as after each call. */
uint32_t ivy_fetch(ivy_node *node, uint32_t page, uint32_t to, uint32_t *begun);

/* ---- Strings ------------------------------------------------------------------------------------------------------ */

typedef enum ivy_verdict {
  IVY_NEXT = 0,    /* new, and served: ask ivy_reply, take strings */
  IVY_REPEAT = 1,  /* seen before, or an acknowledgement alone */
  IVY_AHEAD = 2,   /* others before it are missing: held until they come, or dropped and sent again by its sender */
  IVY_NOT_MINE = 3 /* for another node; nothing changed */
} ivy_verdict;

/* A string comes. IVY_DONE, with the verdict; WANTED, 267 to 273, MEMORY, CLOSED: nothing changed, and nothing is
 * acknowledged. After WANTED, ivy_wanted says which page to give back; then the same string is delivered again. After
 * IVY_NEXT the node goes on with what it holds, up to a string that would take a lent page, or is refused (ivy_go_on). */
uint32_t ivy_deliver(ivy_node *node, const uint8_t *bytes, size_t len, uint32_t *verdict);

/* The first string that waits is written to `buffer` and waits no more: IVY_DONE, with its length and the node that it
 * is for. IVY_SHORT_BUFFER: it waits still, and *len is its length. IVY_NO_FRAME, CLOSED. */
uint32_t ivy_next_frame(ivy_node *node, uint8_t *buffer, size_t room, size_t *len, uint32_t *dest);

/* The first 32 messages that `peer` has not acknowledged wait to be sent again; where there is none and an
 * acknowledgement is owed, a frame with it; else nothing. IVY_DONE, MEMORY, BAD_ARGUMENT (no other node), CLOSED. */
uint32_t ivy_pulse(ivy_node *node, uint8_t peer);

/* ---- Pages lent to the program --------------------------------------------------------------------------------------
 *
 * So that a program may use plain pointers, its driver keeps an image of each page, and shows of it what the node lends:
 * a page that is lent is not taken from the node by any string. The node keeps marks alone; bytes go by the blocks above.
 * The first page is never lent.
 *
 *   to have a page     ivy_begin(IVY_LOAD, 1, its address), or to write it ivy_begin(IVY_FETCH_AND_ADD, 1, its address, 0);
 *                      once that is over ivy_load_block of the whole page into the image, and ivy_lend
 *   to keep a page     ivy_store_block of the whole image, while no call is in progress
 *   to give it back    lower what the program may do with the image, keep the page where it was lent to be written, then
 *                      ivy_give_back
 *
 * WHO LENDS OWES
 *   a. An image changes only by the program, while the page is lent to be written, or by the driver, before the program may
 *      see it, to the bytes that ivy_load_block gave, with no function of the node between that and ivy_lend.
 *   b. The program reads an image only while its page is lent, and a load gives what stands there.
 *   c. What ivy_store_block stores to a page that is lent to be written is what stands in its image. When such a page is
 *      given back, that is what stands there still, and the program does no more with it than it is lent for then.
 *   d. After each ivy_give_back, and after an ivy_deliver while pages are lent, ivy_go_on for each peer, until it says
 *      IVY_DONE; after its WANTED once the page was given back. The strings that wait are taken as after any call.
 *
 * Then the calls of all nodes, and all accesses to images, are of one flat memory. Threads of one process see one another's
 * accesses as their machine makes them; the order across nodes adds nothing weaker. Without d nodes may stand still, and no
 * answer is wrong. A string that answered WANTED was not delivered: until it is, whoever waits for it waits on. A page is
 * given back also while a call is in progress, but blocks do nothing then. So before a call that may wait a driver keeps each
 * page that may have been written and that others may ask for meanwhile, and lets no program write these until it is over.
 * Where each driver tells the others of a page before it first asks for it, these are the pages told of; else they are all.
 * One that was not kept is given back after the call, so nodes may stand still.
 *
 * None of these has a turn. No string waits after ivy_lend, ivy_give_back and ivy_wanted that did not wait before, and of
 * these ivy_lend alone may take memory. A driver that keeps a log with a line for each call does not lend. */

typedef enum ivy_lending { IVY_UNLENT = 0, IVY_TO_READ = 1, IVY_TO_WRITE = 2 } ivy_lending;

/* Lends a page to be read, or to be written: from now on no string takes it, until it is given back. One that is lent to be
 * read may be lent to be written. IVY_DONE. BAD_ARGUMENT: it is the first page, or there is no such page or lending, or it is
 * lent for as much already. NO_PAGE: the page is not here, or not here to be written, or a call without its reply is of
 * it. MEMORY, where there are more than 256 pages: it was not made yet, and is lent to be written. CLOSED. */
uint32_t ivy_lend(ivy_node *node, uint32_t page, uint32_t lending);

/* Gives a page back, whole (IVY_UNLENT), or all but the right to read it (IVY_TO_READ). IVY_DONE; BAD_ARGUMENT: it is not
 * lent for more than that, or there is no such page; CLOSED. */
uint32_t ivy_give_back(ivy_node *node, uint32_t page, uint32_t on);

/* Which page that is lent a string would take, were it delivered now, and what that may be lent for after it: IVY_WANTED,
 * with both. IVY_DONE: none. CLOSED. It changes nothing. */
uint32_t ivy_wanted(ivy_node *node, const uint8_t *bytes, size_t len, uint32_t *page, uint32_t *on);

/* Goes on with the strings of a peer that are held and due, as ivy_deliver does, one after another. IVY_DONE: none is due.
 * WANTED: the next one would take this page, which may be lent for that after it. MEMORY, NUMBERS_SPENT: the next one was
 * refused so, and stays held. Those before it were served: take strings, ask ivy_reply. BAD_ARGUMENT (no other node),
 * CLOSED. */
uint32_t ivy_go_on(ivy_node *node, uint8_t peer, uint32_t *page, uint32_t *on);

/* Bit i is set exactly where some message to peer i is not acknowledged yet; where an acknowledgement is owed to it. Only
 * a pulse to one of these makes a string. Neither changes anything. IVY_DONE, CLOSED. */
uint32_t ivy_kept_set(ivy_node *node, uint32_t *peers);
uint32_t ivy_owed_set(ivy_node *node, uint32_t *peers);

#ifdef __cplusplus
}
#endif
#endif
