/* ivy_map_inside.h: what the files of mapped memory share. No program includes it. */
#ifndef IVY_MAP_INSIDE_H
#define IVY_MAP_INSIDE_H
#ifndef _GNU_SOURCE
#define _GNU_SOURCE
#endif
#include "ivy_inside.h"
#include "ivy_map.h"
enum { MAP_PAGE = 4096, MAP_LEAST = 16 };

/* Pages of the runtime, from 1 on, which are the first block of the heap. All but the root's are used by calls alone. */
enum { TOKEN_PAGE = 1, COUNT_PAGE, ROUND_PAGE, LOCK_PAGES, LOCK_PAIRS = 2, ROOT_PAGE = LOCK_PAGES + 2 * LOCK_PAIRS, MAP_OWN = ROOT_PAGE };

typedef struct ivy_mapping ivy_mapping;

/* An image of the memory: how a page of it is shown to the program. Each function is called with the lock of the process. */
typedef struct {
  const char *name;
  /* Opens it, at its address. Whether it is there. */
  int (*open)(ivy_mapping *map);
  /* A page whose bytes are in its room may be loaded, or stored too. */
  void (*show)(ivy_mapping *map, uint32_t page, uint32_t to);
  /* So many pages that may be loaded may be stored too. */
  void (*raise)(ivy_mapping *map, uint32_t page, uint32_t many);
  /* They may no more, on any processor, than be loaded; or it is one, not even that. Then gives where its bytes stand, until
   * another call. */
  const uint8_t *(*lower)(ivy_mapping *map, uint32_t page, uint32_t many, uint32_t on);
  /* Waits for faults and serves them, until it is cancelled; null where a signal tells of them. */
  void *(*wait)(void *process);
} ivy_image;

/* A page: until when it is kept; what the node lends of it, what the image shows of it, and for what it is to be lent once it comes;
 * whether others may ask for it, and whether they know that this process may; and whether it is open: it may have been written since
 * the node had its bytes. Then it is in a list, at a place, if others may ask for it. */
enum { CLOSED, OPEN, LISTED };
typedef struct { int64_t until, taken; uint32_t place; uint8_t lent, shown, coming, is_common, is_told, is_open, chances[3]; } map_page;

/* Pages in a row: the first, and how many. */
typedef struct { uint32_t first, many; } map_row;

/* Faults of one kind that run upwards: the first page that came ahead, the one behind the last, and so many pages they are. */
typedef struct { uint32_t first, next, many; } map_run;

/* A thread that faults: the pages that it had last for what it does, how often they were gone before it could go on, and what
 * time of a processor it had taken when it got the last one. */
enum { MAP_THREADS = 64, MAP_LAST = 4, MAP_COMING = MOST_FETCHED + 1 };
typedef struct { uint32_t thread, many, failed, last[MAP_LAST]; int64_t ran; } map_thread;

/* A string that is kept back, with all that came later from its peer. */
typedef struct kept_string { struct kept_string *next; size_t len; uint8_t bytes[1]; } kept_string;

struct ivy_mapping {
  const ivy_image *image;
  uint8_t *base, *bytes, *room; /* what the program sees; the same bytes, for the runtime; and where a page is loaded to before it is shown,
                                   if that is not in `bytes` */
  uint32_t count;
  map_page *pages;
  uint32_t *open, opens; /* the pages that are listed */
  map_row opened, told;  /* how many were opened last in a row, at most, and the page behind them; the same of those told of */
  int faults, child_of, is_hidden; /* the descriptor of userfaultfd; the process; whether all is hidden, since the run is over */
  pthread_t thread;

  /* Who has mapped the memory; who is told what is asked for; who knows that of this process; who heard what is told now. */
  uint32_t met, members, known, heard;
  map_row asks[MOST_NODES];     /* what each may ask for, which is not heeded yet */

  kept_string *first[MOST_NODES];
  uint32_t kept, held;          /* so many of all; peers of which the node holds a string that is due */
  int gave;                     /* a page was given back, and nobody went on since */
  uint32_t late, late_on;       /* a page that is to be lowered still, if there is one, to what */
  int64_t due;                  /* when the first of them may take its page */

  uint32_t coming[MAP_COMING];  /* pages that were fetched, each in the place of its number, modulo so many */
  map_thread *waiting;          /* who waits for its page, if that is an instruction: the last one */
  int waits, is_fresh;          /* so many waits, before which all is kept, but for what is listed since */
  map_thread threads[MAP_THREADS];
  map_run runs[3];              /* those that load, and those that store */
  int has_token, lowers;        /* it has the token; pages are lowered before a call, since the program goes on meanwhile */
  map_thread *holder;
  int64_t shown_at;             /* when it was given its last page */
  ivy_map_counts counts;
};

#pragma GCC visibility push(hidden)

static inline int ivy_in_map_has(const ivy_mapping *map, uint64_t page) { return page >= ROOT_PAGE && page < map->count; }
static inline uint64_t ivy_in_map_address(uint32_t page) { return (uint64_t)page * MAP_PAGE; }
static inline uint8_t *ivy_in_map_at(uint8_t *base, uint32_t page) { return base + (size_t)page * MAP_PAGE; }

/* ---- ivy_map.c: pages go to and fro ------------------------------------------------------------------------------------ */

/* A page is lent to be read or to be written, and shown so: the lock is held, and no call is in progress. */
uint32_t ivy_in_map_acquire(ivy_process *p, uint32_t page, uint32_t to, map_thread *who);
/* An instruction of a thread needs a page: it has it after this. */
void ivy_in_map_fault(ivy_process *p, uint32_t page, uint32_t to, uint32_t thread);
/* The number of a word of 8 bytes, where it is here. */
int ivy_in_map_look(ivy_process *p, uint64_t place, uint64_t *number);
/* Gives the token back, if it is here. */
void ivy_in_map_end_token(ivy_process *p);
/* What was written is kept, since a call begins. */
void ivy_in_map_keep(ivy_process *p);

/* ---- ivy_map_image.c --------------------------------------------------------------------------------------------------- */

/* Opens the image that is allowed, and hands faults on to it; tells of addresses where nothing is. */
int ivy_in_map_catch(ivy_process *p);
void ivy_in_map_close(ivy_mapping *map);

#pragma GCC visibility pop
#endif
