/* Checks of lftrace.h: the order of rows, misuse, refused memory, a process that is killed while it writes,
   files that may not grow, fronts of threads that run or hang; and all of these of a log that is written while the
   threads run. The tables are written into the current folder.

   cc -std=c11 -D_POSIX_C_SOURCE=200809L -O2 -pthread check.c -o check && ./check */
#include <pthread.h>
#include <sched.h>
#include <signal.h>
#include <stdbool.h>
#include <stdlib.h>
#include <sys/resource.h>
#include <sys/stat.h>
#include <sys/wait.h>
#include <unistd.h>

/* The allocation of this number is refused. */
static long refused = -1;
static _Atomic long allocations, freed;
static bool is_refused(void) { return allocations++ == refused; }
static void *check_malloc(size_t size) { return is_refused() ? NULL : malloc(size); }
static void *check_calloc(size_t count, size_t size) { return is_refused() ? NULL : calloc(count, size); }
static void *check_realloc(void *old, size_t size) { return is_refused() ? NULL : realloc(old, size); }
static void check_free(void *old) {
  freed++;
  free(old);
}
#define malloc check_malloc
#define calloc check_calloc
#define realloc check_realloc
#define free check_free
#define LFT_BLOCK 64
#define LFT_MOST 100000
#include "lftrace.h"

enum { THREADS = 4, RUNS = 2000 };
static const char trace_path[] = "check_trace.csv", externals_path[] = "check_externals.csv";
static const char trace_part[] = "check_trace.csv.part", externals_part[] = "check_externals.csv.part";
static const char log_path[] = "check_log.csv", right_path[] = "check_right.csv";

static int failed;
static void expect(bool right, const char *what) {
  if (right) return;
  failed++;
  printf("FAILED: %s\n", what);
}

static bool exists(const char *path) { return access(path, F_OK) == 0; }

/* Makes both tables of the whole lines of the log. */
static void split(void) {
  char line[256];
  FILE *log = fopen(log_path, "r"), *trace = fopen(trace_path, "w"), *externals = fopen(externals_path, "w");
  if (!log || !trace || !externals) exit(2);
  fputs(LFT_EXTERNALS_HEADER, externals);
  while (fgets(line, sizeof line, log)) {
    int commas = 0;
    for (const char *at = line; *at; at++) commas += *at == ',';
    if (strchr(line, '\n')) fputs(line, commas == 7 ? trace : externals);
  }
  fclose(log);
  fclose(trace);
  fclose(externals);
}

static lft_log *lft;
static lft_name reaction, port, action, key;
static pthread_mutex_t lock = PTHREAD_MUTEX_INITIALIZER;
static int64_t turn;

/* The turn is written under a lock, so the rows of all threads must be in its order. Each thread writes a log that
   is followed now and then. */
static void *work(void *arg) {
  unsigned slot = *(unsigned *)arg;
  for (unsigned i = 0; i < RUNS; i++) {
    lft_start(lft, slot, i, slot, reaction);
    lft_read(lft, slot, action, lft_bare());
    pthread_mutex_lock(&lock);
    lft_write(lft, slot, port, lft_int(turn++));
    if (i % 100 == 0) lft_event(lft, THREADS, i, slot, key, lft_int(i));
    pthread_mutex_unlock(&lock);
    lft_schedule(lft, slot, action, lft_int(-1), i);
    lft_end(lft, slot);
    if (i % 10 == slot) lft_flush(lft);
  }
  return NULL;
}

/* The rows of a table, its header among them. The turns that were written have to be in their order. */
static long rows_in_turn(int64_t *turns) {
  char line[256];
  long rows = 0;
  int64_t value;
  FILE *table = fopen(trace_path, "r");
  for (*turns = 0; table && fgets(line, sizeof line, table); rows++)
    if (sscanf(line, "write,%*u,%*u,%*u,main#1,main.p,%" SCNd64 ",\n", &value) == 1)
      expect(value == (*turns)++, "rows are in the order of the lock");
  if (table) fclose(table);
  return rows;
}

/* Saves while the threads run, or reads the log. Each front holds the one before it. */
static void fronts(bool followed) {
  long before = 0;
  while (lft_rows(lft) < 5L * THREADS * RUNS) {
    int64_t turns;
    const char *why = followed ? NULL : lft_save_front(lft, trace_path, externals_path, 7, 8);
    if (followed) {
      lft_flush(lft);
      split();
    }
    expect(!why, why ? why : "");
    long rows = rows_in_turn(&turns);
    expect(rows >= before, "a front grows");
    before = rows;
  }
}

static void record(bool followed) {
  pthread_t thread[THREADS];
  unsigned number[THREADS];
  FILE *file = fopen(log_path, "w");
  turn = 0;
  lft = lft_open(THREADS + 1);
  reaction = lft_register(lft, "main#1");
  port = lft_register(lft, "main.p");
  action = lft_register(lft, "main.a");
  key = lft_register(lft, "main.key");
  if (followed) lft_follow_to(lft, file);
  for (unsigned i = 0; i < THREADS; i++) {
    number[i] = i;
    if (pthread_create(&thread[i], NULL, work, &number[i])) exit(2);
  }
  fronts(followed);
  for (unsigned i = 0; i < THREADS; i++) pthread_join(thread[i], NULL);
  const char *why = followed ? lft_finish(lft, 7, 8) : lft_save(lft, trace_path, externals_path, 7, 8);
  expect(!why, why ? why : "");
  if (followed) split();
  lft_close(lft);
  fclose(file);
}

static void order_of_rows(void) {
  char line[256];
  long events = 0, runs[THREADS] = {0};
  int64_t turns;
  unsigned worker, time, microstep;
  long rows = rows_in_turn(&turns);
  FILE *table = fopen(trace_path, "r");
  while (table && fgets(line, sizeof line, table))
    if (sscanf(line, "end,%u,%u,%u,main#1,,,\n", &worker, &time, &microstep) == 3)
      expect(worker == microstep && time == runs[worker]++, "rows of a worker are in its order");
  if (table) fclose(table);
  table = fopen(externals_path, "r");
  while (table && fgets(line, sizeof line, table)) events += !strncmp(line, "event,", 6);
  if (table) fclose(table);
  expect(rows == 1 + 5L * THREADS * RUNS && turns == THREADS * RUNS, "all rows are there");
  expect(events == THREADS * RUNS / 100 && !strcmp(line, "stop,7,8,,\n"), "all events and the stop are there");
}

enum { RIGHT, UNENDED, NO_SLOT, NO_NAME, STILL_OPEN, OUTSIDE, LOST, TOO_MANY, NO_FILE, MISTAKES };
static const char *const whys[MISTAKES] = {
    "",
    "slot 0: a run was never ended, or two threads use one slot: main#1",
    "a call with the number of no slot",
    "a row has a name that wasn't registered",
    "slot 1: a run is still open: main#1",
    "slot 0: a step outside a run: main.p",
    "a row is missing: two threads used one slot at a time",
    "more rows than lftrace reads",
    "a table could not be written"};

/* Files may have so many bytes. */
static void limit_files(rlim_t bytes) {
  struct rlimit limit;
  if (getrlimit(RLIMIT_FSIZE, &limit)) exit(2);
  limit.rlim_cur = bytes;
  if (setrlimit(RLIMIT_FSIZE, &limit)) exit(2);
}

/* Records some runs with a mistake. A log that is followed is flushed at each tag with a number below 190. */
static void make_mistake(lft_log *log, int mistake) {
  lft_name sensor = lft_register(log, "main#1"), reading = lft_register(log, "main.p");
  for (unsigned i = 0; i < 200; i++) {
    bool now = i == 150;
    lft_start(log, i % 2, i, 0, sensor);
    if (mistake == UNENDED && now) lft_start(log, i % 2, i, 0, sensor);
    lft_write(log, mistake == NO_SLOT && now ? 2 : i % 2, mistake == NO_NAME && now ? reading + 1 : reading, lft_int(i));
    if (i % 50 == 0) lft_event(log, 1, i, 0, reading, lft_bare());
    if (mistake != STILL_OPEN || i != 199) lft_end(log, i % 2);
    if (mistake == OUTSIDE && now) lft_write(log, i % 2, reading, lft_bare());
    if (i < 190) lft_flush(log);
    if (log && log->writer && now) limit_files(RLIM_INFINITY); /* a file that failed may grow again */
  }
  if (mistake == LOST) log->slots[0].last->used--;
  for (unsigned i = 0; mistake == TOO_MANY && i < LFT_MOST; i++) lft_event(log, 0, i, 0, reading, lft_bare());
}

/* Records some runs with a mistake, and gives what lft_save says, "" for nothing. */
static const char *mistaken(int mistake) {
  static char said[200];
  remove(trace_path);
  lft_log *log = lft_open(2);
  make_mistake(log, mistake);
  const char *why = lft_save(log, mistake == NO_FILE ? "no/such/folder.csv" : trace_path, externals_path, 1000, 0);
  snprintf(said, sizeof said, "%s", why ? why : "");
  expect(exists(trace_path) == !why, "there is a table exactly if lft_save gives NULL");
  expect(!exists(trace_part) && !exists(externals_part), "no part of a table is left");
  lft_close(log);
  return said;
}

/* The same for a log that is followed, and lft_finish. */
static const char *mistaken_log(int mistake) {
  static char said[200];
  FILE *file = fopen(mistake == NO_FILE ? "no/such/folder.csv" : log_path, "w");
  lft_log *log = lft_open(2);
  lft_follow_to(log, file);
  make_mistake(log, mistake);
  const char *why = lft_finish(log, 1000, 0);
  snprintf(said, sizeof said, "%s", why ? why : "");
  expect(lft_finish(log, 1000, 0) != NULL, "a log ends once");
  lft_flush(log);
  lft_close(log);
  if (file) fclose(file);
  return said;
}

static char *text_of(const char *path) {
  struct stat about;
  FILE *file = fopen(path, "r");
  if (!file || fstat(fileno(file), &about)) exit(2);
  char *text = (char *)calloc((size_t)about.st_size + 1, 1);
  if (!text || fread(text, 1, (size_t)about.st_size, file) != (size_t)about.st_size) exit(2);
  fclose(file);
  return text;
}

static void expect_text(const char *path, const char *wanted, const char *what) {
  char *text = text_of(path);
  expect(!strcmp(text, wanted), what);
  free(text);
}

/* How many bytes the whole lines of the log have. They have to be a front of the right log. */
static size_t front_of_right(void) {
  char *log = text_of(log_path), *right = text_of(right_path), *end = strrchr(log, '\n');
  size_t size = end ? (size_t)(end + 1 - log) : 0;
  expect(!strncmp(log, right, size), "a log is a front of the right one");
  free(log);
  free(right);
  return size;
}

/* The tables of a log are those of lft_save, byte by byte. A log with a mistake is a front, without a stop. */
static void logs(void) {
  expect(!*mistaken_log(RIGHT), "a log is written");
  split();
  char *trace = text_of(trace_path), *externals = text_of(externals_path);
  mistaken(RIGHT);
  expect_text(trace_path, trace, "a log has the rows of the trace");
  expect_text(externals_path, externals, "a log has the rows of the external inputs");
  free(trace);
  free(externals);
  rename(log_path, right_path);
  char *right = text_of(right_path);
  size_t all = strlen(right);
  free(right);
  for (int mistake = 1; mistake < MISTAKES; mistake++) {
    const char *why = mistake == TOO_MANY  ? "rows are lost: too many weren't written yet"
                      : mistake == NO_FILE ? "the file could not be written"
                                           : whys[mistake];
    expect(!strcmp(mistaken_log(mistake), why), why);
    if (mistake != TOO_MANY && mistake != NO_FILE)
      expect(front_of_right() < all, "a log with a mistake has no stop");
  }
}

/* Each allocation is refused once. */
static long refuse_each(const char *(*record)(int)) {
  allocations = 0;
  record(RIGHT);
  long all = allocations;
  for (refused = 0; refused < all; refused++) {
    allocations = 0;
    expect(*record(RIGHT), "it is said that memory was refused");
    if (record == mistaken_log) front_of_right();
  }
  refused = -1;
  return all;
}

/* Waits for the lock in a run. */
static void *hang(void *arg) {
  (void)arg;
  lft_start(lft, 0, 2, 0, reaction);
  pthread_mutex_lock(&lock);
  lft_end(lft, 0);
  pthread_mutex_unlock(&lock);
  return NULL;
}

/* The front of a thread that hangs ends with the start of its run, and so does its log. Where it goes on, the end is
   written too. */
static void front_of_a_hang(bool followed) {
  pthread_t thread;
  FILE *file = fopen(log_path, "w");
  lft = lft_open(1);
  reaction = lft_register(lft, "main#1");
  if (followed) lft_follow_to(lft, file);
  pthread_mutex_lock(&lock);
  if (pthread_create(&thread, NULL, hang, NULL)) exit(2);
  for (lft_block *block = NULL; !block || !lft_load(&block->used); sched_yield())
    block = lft_load(&lft->slots[0].first);
  if (followed) lft_flush(lft);
  else expect(!lft_save_front(lft, trace_path, externals_path, 7, 8), "there is a front of a hang");
  const char *path = followed ? log_path : trace_path;
  expect_text(path, LFT_TRACE_HEADER "start,0,2,0,main#1,,,\n", "a front ends with an open run");
  if (followed) expect(!strcmp(lft_save_front(lft, trace_path, externals_path, 7, 8), "the log is followed: lft_flush writes what is there"), "a followed log isn't saved");
  pthread_mutex_unlock(&lock);
  pthread_join(thread, NULL);
  expect(!(followed ? lft_finish(lft, 7, 8) : lft_save(lft, trace_path, externals_path, 7, 8)), "it goes on");
  expect_text(path,
              followed ? LFT_TRACE_HEADER "start,0,2,0,main#1,,,\nend,0,2,0,main#1,,,\nstop,7,8,,\n"
                       : LFT_TRACE_HEADER "start,0,2,0,main#1,,,\nend,0,2,0,main#1,,,\n",
              "then all rows are there");
  lft_close(lft);
  fclose(file);
}

/* More rows than are kept. */
static void front_of_many(void) {
  int64_t turns;
  lft = lft_open(1);
  port = lft_register(lft, "main#1");
  for (unsigned i = 0; i < LFT_MOST; i++) {
    lft_start(lft, 0, i, 0, port);
    lft_end(lft, 0);
  }
  expect(!lft_save_front(lft, trace_path, externals_path, 7, 8), "there is a front of too many rows");
  expect(rows_in_turn(&turns) == 1 + LFT_MOST, "it has as many rows as are kept");
  lft_close(lft);
}

/* A run of 10,000,000 rows, and how many allocations it keeps. */
static void log_of_many(void) {
  FILE *file = fopen("/dev/null", "w");
  long kept = 0;
  lft = lft_open(2);
  port = lft_register(lft, "main#1");
  lft_follow_to(lft, file);
  for (unsigned i = 0; i < 5000000; i++) {
    lft_start(lft, i % 2, i, 0, port);
    lft_end(lft, i % 2);
    if (i % 100 == 0) lft_flush(lft);
    if (allocations - freed > kept) kept = allocations - freed;
  }
  expect(!lft_finish(lft, 5000000, 0), "a log has any number of rows");
  expect(lft_rows(lft) == 10000000 && kept < 40, "rows that are written are kept no longer");
  lft_close(lft);
  fclose(file);
}

/* Runs without an end, flushed at each tag. A byte goes to the pipe behind each flush. */
static void record_on(int flushed) {
  FILE *file = fopen(log_path, "w");
  lft_log *log = lft_open(1);
  lft_name sensor = lft_register(log, "main#1");
  lft_follow_to(log, file);
  for (unsigned i = 0; write(flushed, "", i > 0) >= 0; i++) {
    lft_start(log, 0, i, 0, sensor);
    lft_end(log, 0);
    lft_flush(log);
  }
  _exit(2);
}

/* A process is killed behind so many flushes, wherever it is then. */
static void killed_at(unsigned tags) {
  int ends[2];
  char byte;
  unsigned flushed = 0;
  size_t rows = 0;
  fflush(stdout);
  if (pipe(ends)) exit(2);
  pid_t child = fork();
  if (child == 0) record_on(ends[1]);
  close(ends[1]);
  for (; flushed < tags && read(ends[0], &byte, 1) == 1; flushed++) {}
  kill(child, SIGKILL);
  while (read(ends[0], &byte, 1) == 1) flushed++;
  close(ends[0]);
  if (waitpid(child, NULL, 0) != child) exit(2);
  FILE *right = fopen(right_path, "w");
  if (!right) exit(2);
  fputs(LFT_TRACE_HEADER, right);
  for (unsigned i = 0; i < flushed + 2; i++)
    fprintf(right, "start,0,%u,0,main#1,,,\nend,0,%u,0,main#1,,,\n", i, i);
  fclose(right);
  front_of_right();
  char *log = text_of(log_path);
  for (const char *at = log; *at; at++) rows += *at == '\n';
  expect(rows >= 1 + 2 * flushed, "a process that is killed loses the tag at hand alone");
  free(log);
}

/* Runs in a process of its own. Gives the exit status, or the signal. */
static int ended(void (*body)(void), int ignored) {
  int status = 0;
  fflush(stdout);
  pid_t child = fork();
  if (child == 0) {
    struct rlimit none = {0, 0};
    if (setrlimit(RLIMIT_CORE, &none)) _exit(2);
    if (ignored) signal(ignored, SIG_IGN);
    failed = 0;
    body();
    _exit(failed ? 1 : 0);
  }
  if (waitpid(child, &status, 0) != child) return -1;
  return WIFSIGNALED(status) ? WTERMSIG(status) : WEXITSTATUS(status);
}

/* A file that gets longer than it may ends the process by a signal, unless that is ignored: then the write fails. */
static void save_limited(void) {
  limit_files(1000);
  expect(!strcmp(mistaken(RIGHT), "a table could not be written"), "lft_save says that a file may not grow");
}

static void follow_limited(void) {
  limit_files(1000);
  expect(!strcmp(mistaken_log(RIGHT), "the file could not be written"), "lft_finish says that a file may not grow");
}

/* Nobody reads the pipe. A write ends the process by a signal, unless that is ignored. */
static void follow_unread(void) {
  int ends[2];
  if (pipe(ends) || close(ends[0])) _exit(2);
  lft_log *log = lft_open(2);
  lft_follow_to(log, fdopen(ends[1], "w"));
  make_mistake(log, RIGHT);
  expect(lft_finish(log, 1000, 0) != NULL, "lft_finish says that nobody reads");
}

static void processes(void) {
  expect(ended(save_limited, 0) == SIGXFSZ, "a process is killed while it saves");
  expect(exists(trace_part) && !exists(trace_path), "it leaves no table");
  expect(ended(save_limited, SIGXFSZ) == 0, "a table may not grow");
  mistaken_log(RIGHT);
  rename(log_path, right_path);
  expect(ended(follow_limited, 0) == SIGXFSZ, "a process is killed while it writes a log");
  front_of_right();
  expect(ended(follow_limited, SIGXFSZ) == 0, "a log may not grow");
  expect(front_of_right() > 900 && front_of_right() <= 1000, "what has place is written, and nothing behind it");
  expect(ended(follow_unread, 0) == SIGPIPE, "a process writes to a pipe that nobody reads");
  expect(ended(follow_unread, SIGPIPE) == 0, "a pipe that nobody reads");
  for (unsigned tags = 1; tags < 2000; tags += 100) killed_at(tags);
}

/* No log: nothing is recorded, and each call may stay. */
static void without_log(void) {
  lft_start(NULL, 0, 0, 0, 0);
  lft_end(NULL, 0);
  lft_follow_to(NULL, stdout);
  lft_flush(NULL);
  expect(lft_save(NULL, trace_path, externals_path, 0, 0) != NULL, "lft_save says that there is no log");
  expect(lft_finish(NULL, 0, 0) != NULL, "lft_finish says that there is no log");
  lft_close(NULL);
}

int main(void) {
  for (int followed = 0; followed < 2; followed++) {
    record(followed);
    order_of_rows();
    front_of_a_hang(followed);
  }
  front_of_many();
  for (int mistake = 0; mistake < MISTAKES; mistake++)
    expect(!strcmp(mistaken(mistake), whys[mistake]), whys[mistake]);
  logs();
  long all = refuse_each(mistaken) + refuse_each(mistaken_log);
  log_of_many();
  processes();
  without_log();

  remove(trace_path);
  remove(externals_path);
  remove(trace_part);
  remove(externals_part);
  remove(log_path);
  remove(right_path);
  if (failed) return 1;
  printf("lftrace.h: all checks passed, and each of %ld allocations was refused once\n", all);
  return 0;
}
