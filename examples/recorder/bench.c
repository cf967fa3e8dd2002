/* What a row costs: with lftrace.h, and as a line printed under a lock. Then the same of one long run, as bench.rs
   has it. The tables are written into the current folder and removed.

   cc -std=c11 -D_POSIX_C_SOURCE=200809L -O2 -pthread bench.c -o bench && ./bench */
#define LFT_MOST 100000000
#include "lftrace.h"
#include <pthread.h>
#include <time.h>

enum { RUNS = 25000, ROWS = 4 * RUNS, TURNS = 40 }; /* rows of each thread; the least of so many times counts */
enum { LONG_RUNS = 1000000, LONG_ROWS = 4 * LONG_RUNS, LONG_TURNS = 5 };
static const char trace_path[] = "bench_trace.csv", externals_path[] = "bench_externals.csv";
static lft_log *lft;
static FILE *file;
static lft_name reaction, port;
static pthread_mutex_t lock = PTHREAD_MUTEX_INITIALIZER;
static pthread_barrier_t begin;

static void *with_header(void *arg) {
  unsigned slot = *(unsigned *)arg;
  pthread_barrier_wait(&begin);
  for (unsigned i = 0; i < RUNS; i++) {
    lft_start(lft, slot, i, 0, reaction);
    lft_read(lft, slot, port, lft_int(i));
    lft_write(lft, slot, port, lft_int(i));
    lft_end(lft, slot);
  }
  return NULL;
}

static void print_line(const char *event, unsigned slot, unsigned time, const char *name, unsigned value) {
  pthread_mutex_lock(&lock);
  fprintf(file, "%s,%u,%u,0,main#1,%s,%u,\n", event, slot, time, name, value);
  pthread_mutex_unlock(&lock);
}

static void *with_printf(void *arg) {
  unsigned slot = *(unsigned *)arg;
  pthread_barrier_wait(&begin);
  for (unsigned i = 0; i < RUNS; i++) {
    print_line("start", slot, i, "", i);
    print_line("read", slot, i, "main.p", i);
    print_line("write", slot, i, "main.p", i);
    print_line("end", slot, i, "", i);
  }
  return NULL;
}

static double now(void) {
  struct timespec time;
  clock_gettime(CLOCK_MONOTONIC, &time);
  return (double)time.tv_sec * 1e9 + (double)time.tv_nsec;
}

/* Nanoseconds of wall time for a row of all threads together. */
static double measure(void *(*body)(void *), unsigned threads) {
  pthread_t thread[4];
  unsigned number[4];
  pthread_barrier_init(&begin, NULL, threads + 1);
  for (unsigned i = 0; i < threads; i++) {
    number[i] = i;
    if (pthread_create(&thread[i], NULL, body, &number[i])) exit(2);
  }
  double before = now();
  pthread_barrier_wait(&begin);
  for (unsigned i = 0; i < threads; i++) pthread_join(thread[i], NULL);
  double taken = now() - before;
  pthread_barrier_destroy(&begin);
  return taken / (ROWS * (double)threads);
}

/* One turn: recording, saving, printing. */
static void measure_all(unsigned threads, double taken[3]) {
  lft = lft_open(threads);
  reaction = lft_register(lft, "main#1");
  port = lft_register(lft, "main.p");
  taken[0] = measure(with_header, threads);
  double before = now();
  const char *why = lft_save(lft, trace_path, externals_path, 1000000, 0);
  taken[1] = (now() - before) / (ROWS * (double)threads);
  if (why) fprintf(stderr, "%s\n", why);
  lft_close(lft);
  file = fopen(trace_path, "w");
  if (why || !file) exit(2);
  taken[2] = measure(with_printf, threads);
  fclose(file);
}

/* One thread that fills four slots: a tag has 100 rows. */
static void record_long(FILE *followed) {
  lft = lft_open(4);
  reaction = lft_register(lft, "main#1");
  port = lft_register(lft, "main.p");
  if (followed) lft_follow_to(lft, followed);
  for (unsigned i = 0; i < LONG_RUNS; i++) {
    lft_start(lft, i % 4, i / 25, 0, reaction);
    lft_read(lft, i % 4, port, lft_int(i));
    lft_write(lft, i % 4, port, lft_int(i));
    lft_end(lft, i % 4);
    if (i % 25 == 24) lft_flush(lft);
  }
}

/* Nanoseconds of processor time for a row of a long run. */
static double spent(clock_t before) { return (double)(clock() - before) * (1e9 / CLOCKS_PER_SEC) / LONG_ROWS; }

/* One turn: recording, saving, recording as a log. */
static void measure_long(double taken[3]) {
  clock_t before = clock();
  record_long(NULL);
  taken[0] = spent(before);
  before = clock();
  const char *why = lft_save(lft, trace_path, externals_path, LONG_RUNS, 0);
  taken[1] = spent(before);
  lft_close(lft);
  file = fopen(trace_path, "w");
  if (why || !file) exit(2);
  before = clock();
  record_long(file);
  if (lft_finish(lft, LONG_RUNS, 0)) exit(2);
  taken[2] = spent(before);
  lft_close(lft);
  fclose(file);
}

static void keep_least(double least[3], const double taken[3]) {
  for (int i = 0; i < 3; i++)
    if (taken[i] < least[i]) least[i] = taken[i];
}

int main(void) {
  double taken[3];
  printf("| threads | recording | saving | printf under a lock |   ns of wall time a row, all threads together\n");
  for (unsigned threads = 1; threads <= 4; threads *= 2) {
    double least[3] = {1e9, 1e9, 1e9};
    for (int turn = 0; turn < TURNS; turn++) {
      measure_all(threads, taken);
      keep_least(least, taken);
    }
    printf("| %7u | %9.0f | %6.0f | %19.0f |\n", threads, least[0], least[1], least[2]);
  }
  double least[3] = {1e9, 1e9, 1e9};
  for (int turn = 0; turn < LONG_TURNS; turn++) {
    measure_long(taken);
    keep_least(least, taken);
  }
  printf("| recording | saving | recording as a log |   ns of processor time a row, of %d rows\n", LONG_ROWS);
  printf("| %9.0f | %6.0f | %18.0f |\n", least[0], least[1], least[2]);
  remove(trace_path);
  remove(externals_path);
  return 0;
}
