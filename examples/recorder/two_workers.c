/* Two workers run the program of two_workers.lf and record it. A third word turns on a fault.

   cc -std=c11 -D_POSIX_C_SOURCE=200809L -O2 -pthread two_workers.c -o two_workers
   ./two_workers trace.csv externals.csv
   ./two_workers trace.csv externals.csv careless     no reaction waits for those that precede it
   ./two_workers trace.csv externals.csv late-end     the end row is written after the other worker knows
   ./two_workers trace.csv externals.csv wrong-port   a write row names the port that receives the value
   lftrace judge two_workers.lf externals.csv trace.csv

   ./two_workers - writes one log while it runs, in place of both tables. Its fault is the second word. */
#include "lftrace.h"
#include <pthread.h>
#include <time.h>

#define MS UINT64_C(1000000)
#define STOP (100 * MS)

enum { SENSOR, FILTER_X, FILTER_T, ALARM_Y, ALARM_SHUTDOWN, REACTIONS };
static const char *const reaction_names[REACTIONS] = {"main.s#1", "main.f#1", "main.f#2", "main.a#1", "main.a#2"};
/* What is just before each reaction, as `lftrace show two_workers.lf` prints it. */
static const uint32_t before[REACTIONS] = {0, 1 << SENSOR, 1 << FILTER_X, 1 << FILTER_X, 1 << ALARM_Y};

static struct {
  pthread_mutex_t lock;
  pthread_cond_t change;
  uint64_t time, stop_time;
  uint32_t microstep, stop_microstep;
  uint32_t triggered, open, done; /* sets of reactions, at the tag */
  int64_t count, reading, y;      /* the state of the sensor, and two ports */
  bool over;
} runtime = {.lock = PTHREAD_MUTEX_INITIALIZER, .change = PTHREAD_COND_INITIALIZER, .stop_time = STOP};

static bool careless, late_end, wrong_port;
static lft_log *lft;
static lft_name reactions[REACTIONS], s_reading, f_x, f_y, a_y;
static pthread_barrier_t both;

/* Begins a tag with what is triggered there before any reaction runs. */
static void begin_tag(uint64_t time, uint32_t microstep) {
  runtime.time = time;
  runtime.microstep = microstep;
  runtime.done = runtime.open = runtime.triggered = 0;
  if (microstep == 0 && time % (10 * MS) == 0) runtime.triggered |= 1u << SENSOR;
  if (microstep == 0 && time % (5 * MS) == 0) runtime.triggered |= 1u << FILTER_T;
  if (time == runtime.stop_time && microstep == runtime.stop_microstep) runtime.triggered |= 1u << ALARM_SHUTDOWN;
}

/* All reactions that precede one, also through reactions that don't run at the tag. */
static uint32_t all_before(int reaction) {
  uint32_t all = before[reaction];
  for (int other = REACTIONS - 1; other >= 0; other--)
    if (all >> other & 1) all |= before[other];
  return all;
}

/* A reaction that may start, or -1. */
static int ready(void) {
  uint32_t left = runtime.triggered & ~runtime.done;
  for (int reaction = 0; reaction < REACTIONS; reaction++) {
    bool waits = !careless && (all_before(reaction) & left);
    if (left >> reaction & 1 && !(runtime.open >> reaction & 1) && !waits) return reaction;
  }
  return -1;
}

static void take_time(long microseconds) {
  struct timespec time = {0, 1000 * microseconds};
  nanosleep(&time, NULL);
}

/* The code of a reaction, outside the lock. Gives what it writes. */
static int64_t code(unsigned worker, int reaction, int64_t reading, int64_t y) {
  int64_t out = 0;
  take_time(50);
  switch (reaction) {
    case SENSOR:
      out = runtime.count++;
      lft_write(lft, worker, wrong_port ? f_x : s_reading, lft_int(out));
      break;
    case FILTER_X:
      out = 2 * reading;
      lft_write(lft, worker, f_y, lft_int(out));
      break;
    case ALARM_Y:
      if (y >= 8) lft_stop(lft, worker);
      break;
  }
  take_time(50);
  return out;
}

/* The reaction has run. `out` is what it wrote. */
static void settle(int reaction, int64_t out) {
  runtime.open &= ~(1u << reaction);
  runtime.done |= 1u << reaction;
  switch (reaction) {
    case SENSOR:
      runtime.reading = out;
      runtime.triggered |= 1u << FILTER_X;
      break;
    case FILTER_X:
      runtime.y = out;
      runtime.triggered |= 1u << ALARM_Y;
      break;
    case ALARM_Y:
      if (runtime.y < 8) break;
      runtime.stop_time = runtime.time;
      runtime.stop_microstep = runtime.microstep + 1;
      break;
  }
  pthread_cond_broadcast(&runtime.change);
}

/* Called with the lock, which it gives up while the code runs. */
static void run(unsigned worker, int reaction) {
  int64_t reading = runtime.reading, y = runtime.y;
  runtime.open |= 1u << reaction;
  lft_start(lft, worker, runtime.time, runtime.microstep, reactions[reaction]);
  if (reaction == FILTER_X) lft_read(lft, worker, f_x, lft_int(reading));
  if (reaction == ALARM_Y) lft_read(lft, worker, a_y, lft_int(y));
  pthread_mutex_unlock(&runtime.lock);
  int64_t out = code(worker, reaction, reading, y);
  pthread_mutex_lock(&runtime.lock);
  if (!late_end) lft_end(lft, worker); /* before the other worker knows */
  settle(reaction, out);
  if (late_end) {
    pthread_mutex_unlock(&runtime.lock);
    take_time(50);
    lft_end(lft, worker);
    pthread_mutex_lock(&runtime.lock);
  }
}

static void *work(void *arg) {
  unsigned worker = *(unsigned *)arg;
  pthread_barrier_wait(&both);
  pthread_mutex_lock(&runtime.lock);
  while (!runtime.over) {
    int reaction = ready();
    if (reaction >= 0) run(worker, reaction);
    else if (runtime.open || (runtime.triggered & ~runtime.done)) pthread_cond_wait(&runtime.change, &runtime.lock);
    else {
      lft_flush(lft);
      bool at_stop_time = runtime.time == runtime.stop_time;
      if (at_stop_time && runtime.microstep == runtime.stop_microstep) runtime.over = true;
      else if (at_stop_time) begin_tag(runtime.time, runtime.microstep + 1);
      else begin_tag(runtime.time + 5 * MS, 0);
      pthread_cond_broadcast(&runtime.change);
    }
  }
  pthread_mutex_unlock(&runtime.lock);
  return NULL;
}

int main(int argc, char **argv) {
  pthread_t thread[2];
  unsigned number[2] = {0, 1};
  bool is_log = argc > 1 && !strcmp(argv[1], "-");
  int least = is_log ? 2 : 3;
  const char *fault = argc > least ? argv[least] : "";
  careless = !strcmp(fault, "careless");
  late_end = !strcmp(fault, "late-end");
  wrong_port = !strcmp(fault, "wrong-port");
  if (argc < least || (*fault && !careless && !late_end && !wrong_port)) {
    fprintf(stderr, "two_workers TRACE EXTERNALS|- [careless | late-end | wrong-port]\n");
    return 2;
  }

  lft = lft_open(2);
  for (int reaction = 0; reaction < REACTIONS; reaction++)
    reactions[reaction] = lft_register(lft, reaction_names[reaction]);
  s_reading = lft_register(lft, "main.s.reading");
  f_x = lft_register(lft, "main.f.x");
  f_y = lft_register(lft, "main.f.y");
  a_y = lft_register(lft, "main.a.y");
  if (is_log) lft_follow_to(lft, stdout);

  pthread_barrier_init(&both, NULL, 2);
  begin_tag(0, 0);
  for (int worker = 0; worker < 2; worker++)
    if (pthread_create(&thread[worker], NULL, work, &number[worker])) return 1;
  for (int worker = 0; worker < 2; worker++) pthread_join(thread[worker], NULL);

  const char *why = is_log ? lft_finish(lft, STOP, 0) : lft_save(lft, argv[1], argv[2], STOP, 0);
  if (why) fprintf(stderr, "not recorded: %s\n", why);
  lft_close(lft);
  return why ? 1 : 0;
}
