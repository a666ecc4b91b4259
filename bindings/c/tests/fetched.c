/* What is fetched ahead of need: by two nodes in threads, with so many pages ahead as are named, and with progress of both forms.
 * Blocks of one page fetch none; those of many each page behind the first once, of their own pages alone, and not too far; hints
 * fetch as many as are free, and say what is wrong with a range. Nothing waits for a call of another thread. Where a log is written
 * it has each page that is asked for. Linked with --wrap=ivy_fetch --wrap=ivy_begin --wrap=ivy_load_block --wrap=ivy_store_block. */
#define _POSIX_C_SOURCE 200809L
#define CHANNEL_PAGES 32
#include "channel.h"

enum { PAGE = CHANNEL_PAGE, PAGES = CHANNEL_PAGES, END = PAGES * PAGE, FIRST = 3, MANY = 20, MET = 0, MOST = 64 };
enum { STRING_OF_MANY = 12 }; /* the kind of a string that has several of the node */

uint32_t __real_ivy_fetch(ivy_node *node, uint32_t page, uint32_t to, uint32_t *begun);
uint32_t __real_ivy_begin(ivy_node *node, uint32_t kind, uint32_t width, uint64_t place, uint64_t operand, uint64_t expected, uint64_t *value);
uint32_t __real_ivy_load_block(ivy_node *node, uint64_t address, uint8_t *into, size_t len, size_t *words);
uint32_t __real_ivy_store_block(ivy_node *node, uint64_t address, const uint8_t *from, size_t len, size_t *words);

/* What the thread that is watched did: which pages it fetched for what, and of which page a word or a block was tried last. */
static __thread int is_watched;
static uint32_t tried, begun, pages[MOST], current, farthest;
static uint32_t kinds; /* a bit for each lending */
static uint32_t all_begun; /* so many pages were asked for in all, also by threads that are not watched */

uint32_t __wrap_ivy_fetch(ivy_node *node, uint32_t page, uint32_t to, uint32_t *is_begun) {
  uint32_t status = __real_ivy_fetch(node, page, to, is_begun);
  all_begun += status == IVY_DONE && *is_begun;
  if (!is_watched) return status;
  tried++;
  kinds |= 1u << to;
  if (page - current > farthest) farthest = page - current;
  if (status == IVY_DONE && *is_begun && begun < MOST) pages[begun++] = page;
  return status;
}

uint32_t __wrap_ivy_begin(ivy_node *node, uint32_t kind, uint32_t width, uint64_t place, uint64_t operand, uint64_t expected, uint64_t *value) {
  if (is_watched && kind <= IVY_STORE) current = (uint32_t)(place / PAGE);
  return __real_ivy_begin(node, kind, width, place, operand, expected, value);
}

uint32_t __wrap_ivy_load_block(ivy_node *node, uint64_t address, uint8_t *into, size_t len, size_t *words) {
  if (is_watched) current = (uint32_t)(address / PAGE);
  return __real_ivy_load_block(node, address, into, len, words);
}

uint32_t __wrap_ivy_store_block(ivy_node *node, uint64_t address, const uint8_t *from, size_t len, size_t *words) {
  if (is_watched) current = (uint32_t)(address / PAGE);
  return __real_ivy_store_block(node, address, from, len, words);
}

static uint32_t ahead;      /* so many at most, which the environment says */
static int logs;            /* whether node 1 writes a log */
static uint64_t meetings[2]; /* of each node */
static uint8_t bytes[END];

static uint32_t least(uint32_t a, uint32_t b) { return a < b ? a : b; }

static void meet(ivy_process *ivy, uint32_t me) {
  ivy_advance(ivy, MET);
  ivy_await(ivy, MET, 2 * ++meetings[me]);
}

/* Node 0 has all pages to write, and node 1 none. */
static void take_all(ivy_process *ivy, uint32_t me) {
  meet(ivy, me);
  for (uint64_t at = PAGE; me == 0 && at < END; at += PAGE) ivy_fetch_add(ivy, 8, at, 1);
  meet(ivy, me);
}

static void watch(void) {
  tried = begun = kinds = farthest = current = 0;
  is_watched = 1;
}

/* So many pages were fetched from one on, each once and in order, for that. */
static void were_fetched(const char *what, uint32_t first, uint32_t many, uint32_t to) {
  is_watched = 0;
  should_be(what, begun, many);
  for (uint32_t i = 0; i < many; i++) should_be("a page that was fetched", pages[i], first + i);
  if (tried) should_be("for what", kinds, 1u << to);
}

/* ---- Blocks ------------------------------------------------------------------------------------------------------------- */

static void one_page(ivy_process *ivy) {
  watch();
  should_be("a read of one page", ivy_read(ivy, FIRST * PAGE, bytes, PAGE), IVY_DONE);
  should_be("a read within a page", ivy_read(ivy, (FIRST + 1) * PAGE + 16, bytes, PAGE - 32), IVY_DONE);
  should_be("a write of one page", ivy_write(ivy, (FIRST + 2) * PAGE, bytes, PAGE), IVY_DONE);
  should_be("a read of nothing", ivy_read(ivy, FIRST * PAGE, bytes, 0), IVY_DONE);
  should_be("a read of a part of a word", ivy_read(ivy, FIRST * PAGE, bytes, 2 * PAGE + 4), IVY_BAD_ARGUMENT);
  should_be("a read between words", ivy_read(ivy, (FIRST + 6) * PAGE + 4, bytes, 4 * PAGE), IVY_MISALIGNED);
  should_be("a read of the first page", ivy_read(ivy, PAGE - 8, bytes, 4 * PAGE), IVY_RESERVED);
  should_be("a read far past the heap", ivy_read(ivy, UINT64_MAX - 7, bytes, 4 * PAGE), IVY_OUT_OF_RANGE);
  were_fetched("what is fetched for blocks of one page, or refused ones", 0, 0, 0);
  should_be("what was tried for them", tried, 0);
}

/* Strings of several frames, of those that were kept. */
static uint32_t of_many(void) {
  uint32_t many = 0;
  pthread_mutex_lock(&keeping);
  for (uint32_t i = 0; i < kept_many; i++) many += kept[i].bytes[0] == STRING_OF_MANY;
  pthread_mutex_unlock(&keeping);
  return many;
}

static void many_pages(ivy_process *ivy) {
  uint32_t many = ahead ? MANY - 1 : 0, before = of_many();
  watch();
  should_be("a read of many pages", ivy_read(ivy, FIRST * PAGE + 8, bytes, MANY * PAGE - 16), IVY_DONE);
  were_fetched("what is fetched to be read", FIRST + 1, many, IVY_TO_READ);
  should_be("how often that was tried", tried, many);
  should_be("whether none is too far ahead", farthest <= ahead, 1);
  should_be("whether some are asked for by one string", of_many() > before, ahead > 2);
  watch();
  should_be("a write of many pages", ivy_write(ivy, FIRST * PAGE, bytes, MANY * PAGE), IVY_DONE);
  were_fetched("what is fetched to be written", FIRST + 1, many, IVY_TO_WRITE);
  should_be("how often that was tried", tried, many);
  should_be("whether none is too far ahead", farthest <= ahead, 1);
  watch();
  should_be("the same again", ivy_write(ivy, FIRST * PAGE, bytes, MANY * PAGE), IVY_DONE);
  should_be("a read of them", ivy_read(ivy, FIRST * PAGE, bytes, MANY * PAGE), IVY_DONE);
  were_fetched("what is fetched of pages that are here", 0, 0, 0);
  should_be("what was tried for them", tried, 0);
}

/* What lies past the heap is not fetched. */
static void past_the_end(ivy_process *ivy) {
  watch();
  should_be("a read past the heap", ivy_read(ivy, END - 3 * PAGE, bytes, 5 * PAGE), IVY_OUT_OF_RANGE);
  were_fetched("what is fetched for it", PAGES - 2, ahead ? 2 : 0, IVY_TO_READ);
  should_be("the last page", (uint64_t)ivy_is_here(ivy, END - 8), 1);
}

/* ---- Hints --------------------------------------------------------------------------------------------------------------- */

/* Serves until a page is here. */
static void wait_for_page(ivy_process *ivy, uint32_t page) {
  while (!ivy_is_here(ivy, (uint64_t)page * PAGE)) should_be("progress", ivy_progress_now(ivy), IVY_DONE);
}

static void hint(ivy_process *ivy) {
  uint32_t many = least(ahead, 3);
  watch();
  should_be("a hint of an odd range", ivy_prefetch(ivy, FIRST * PAGE + 3, 2 * PAGE), IVY_DONE);
  were_fetched("what is fetched for it", FIRST, many, IVY_TO_READ);
  for (uint32_t i = 0; i < many; i++) wait_for_page(ivy, FIRST + i);
  uint64_t misses = ivy_counts_of(ivy).misses;
  should_be("a read of what came", ivy_read(ivy, FIRST * PAGE, bytes, many * PAGE), IVY_DONE);
  should_be("waits for it", ivy_counts_of(ivy).misses - misses, 0);
  watch();
  should_be("a hint of what is had", ivy_prefetch(ivy, FIRST * PAGE, many * PAGE), IVY_DONE);
  should_be("a hint of one byte that is had", ivy_prefetch(ivy, FIRST * PAGE + 1, many ? 1 : 0), IVY_DONE);
  should_be("a hint of nothing", ivy_prefetch(ivy, (FIRST + 5) * PAGE, 0), IVY_DONE);
  should_be("a hint of nothing at the end", ivy_prefetch(ivy, END, 0), IVY_DONE);
  were_fetched("what is fetched for these", 0, 0, IVY_TO_READ);
  watch();
  should_be("a hint of many pages", ivy_prefetch(ivy, 8 * PAGE - 1, 10 * PAGE), IVY_DONE);
  were_fetched("what is fetched for it", 7, ahead, IVY_TO_READ);
  for (uint32_t i = 0; i < ahead; i++) wait_for_page(ivy, 7 + i);
  watch();
  should_be("a hint of the last byte", ivy_prefetch(ivy, END - 1, 1), IVY_DONE);
  were_fetched("what is fetched for it", PAGES - 1, least(ahead, 1), IVY_TO_READ);
}

static void wrong_hints(ivy_process *ivy) {
  watch();
  should_be("a hint past the heap", ivy_prefetch(ivy, END - 2 * PAGE, 2 * PAGE + 1), IVY_OUT_OF_RANGE);
  should_be("one that begins past it", ivy_prefetch(ivy, END + 1, 0), IVY_OUT_OF_RANGE);
  should_be("one of more bytes than there are", ivy_prefetch(ivy, 9 * PAGE, UINT64_MAX), IVY_OUT_OF_RANGE);
  should_be("one of the first page", ivy_prefetch(ivy, PAGE - 1, PAGE), IVY_RESERVED);
  should_be("the status", ivy_error(ivy), IVY_DONE);
  should_be("a load that is refused", ivy_load(ivy, 8, PAGE + 1), 0);
  should_be("a hint after a failure", ivy_prefetch(ivy, 9 * PAGE, 1), IVY_MISALIGNED);
  should_be("what is forgotten", ivy_forget(ivy), IVY_MISALIGNED);
  were_fetched("what is fetched for these", 0, 0, 0);
  should_be("what was tried for them", tried, 0);
}

/* ---- Beside a call of another thread ---------------------------------------------------------------------------------------- */

static int stage; /* node 0 serves before 1, and where it does so in calls alone, not before 2 */

static void go_to(int next) { __atomic_store_n(&stage, next, __ATOMIC_SEQ_CST); }
static int is_before(int next) { return __atomic_load_n(&stage, __ATOMIC_SEQ_CST) < next; }

static void *load(void *argument) {
  should_be("what node 0 wrote", ivy_load((ivy_process *)argument, 8, 20 * PAGE) > 0, 1);
  return NULL;
}

static void hint_beside(ivy_process *ivy) {
  const struct timespec nap = { 0, 50000000 };
  pthread_t other;
  ivy_use_threads(ivy);
  go_to(1);
  pthread_create(&other, NULL, load, ivy);
  nanosleep(&nap, NULL);
  should_be("a hint while a call waits", ivy_prefetch(ivy, 21 * PAGE, 3 * PAGE), IVY_DONE);
  go_to(2);
  pthread_join(other, NULL);
}

static void serve_late(ivy_process *ivy) {
  const struct timespec nap = { 0, 1000000 };
  while (is_before(1)) ivy_progress_now(ivy);
  while (is_before(2)) nanosleep(&nap, NULL);
}

/* ---- Runs ------------------------------------------------------------------------------------------------------------------ */

static void own_all(ivy_process *ivy, uint32_t me) {
  for (int i = 0; i < 5; i++) take_all(ivy, me);
  serve_late(ivy);
  meet(ivy, me);
}

static void look(ivy_process *ivy, uint32_t me) {
  take_all(ivy, me);
  one_page(ivy);
  take_all(ivy, me);
  many_pages(ivy);
  take_all(ivy, me);
  past_the_end(ivy);
  take_all(ivy, me);
  hint(ivy);
  wrong_hints(ivy);
  take_all(ivy, me);
  hint_beside(ivy);
  meet(ivy, me);
}

/* So many lines of a log begin with a word. */
static uint32_t lines_of(FILE *log, const char *word) {
  char line[2 * 4096 + 256];
  uint32_t many = 0;
  rewind(log);
  while (fgets(line, sizeof line, log)) many += !strncmp(line, word, strlen(word));
  return many;
}

static void run(const char *said, int with_log) {
  for (int progress = IVY_IN_CALLS; progress <= IVY_BY_THREAD; progress++) {
    setenv("IVY_AHEAD", said, 1);
    ahead = (uint32_t)atoi(said);
    logs = with_log;
    stage = 0;
    memset(meetings, 0, sizeof meetings);
    keeps = 1;
    kept_many = 0;
    channel_log = logs ? tmpfile() : NULL;
    all_begun = 0;
    channel_run_two((ivy_progress)progress, 0, own_all, look);
    if (channel_log) {
      should_be("lines of pages to be read", lines_of(channel_log, "fetch read ") > MANY, 1);
      should_be("lines of pages that were asked for", lines_of(channel_log, "fetch "), all_begun);
      fclose(channel_log);
    }
    should_be("whether pages were asked for together", of_many() > 0, ahead > 1);
  }
}

/* A process with a number of pages that cannot be is none. */
static void refuse(const char *said) {
  const ivy_start start = { { 2, 4, PAGE, IVY_DYNAMIC }, 0, channel_open(0), IVY_IN_CALLS, 100, 0, NULL, 0 };
  ivy_process *ivy;
  setenv("IVY_AHEAD", said, 1);
  should_be("a start with no such number", ivy_join_as(&start, &ivy), IVY_BAD_ARGUMENT);
}

int main(void) {
  run("0", 0);
  run("1", 0);
  run("3", 0);
  run("7", 0);
  run("7", 1);
  refuse("8");
  refuse("many");
  refuse("-1");
  puts("done");
  return 0;
}
