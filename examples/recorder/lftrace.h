/* lftrace.h: records what the workers of a reactor runtime do, as the two tables that lftrace reads.

   One file for C11 and C++17. It needs the standard library alone, and takes no lock.

     lft_log *log = lft_open(workers + 1);             a slot for each worker, one for the thread that makes events
     lft_name filter = lft_register(log, "main.f#1");  each name once, before the workers begin

     lft_start     the worker has taken the reaction, and its code doesn't run yet
     lft_read      then, for each trigger and use that is a port or an action and is present
     lft_write, lft_schedule, lft_stop    where the code sets a port, schedules an action, asks for the end
     lft_end       the code has returned, and NO OTHER WORKER KNOWS IT YET
     lft_event     where a physical action gets its tag

     const char *why = lft_save(log, "trace.csv", "externals.csv", stop_time, stop_microstep);
     if (why) fprintf(stderr, "not recorded: %s\n", why);
     lft_close(log);

   One thread at a time uses a slot. lft_save is called after all workers have ended. Times are nanoseconds
   since the first tag. A log that is NULL records nothing, so the calls may stay in a runtime. Each name is
   0 then, so a runtime tells nothing apart by these names.

   Of a run that hangs lft_save_front writes the rows so far. A watchdog calls it where lft_rows stands still.

   A run of any length is written while it runs, as one log of both tables, which lftrace follow reads:

     lft_follow_to(log, stdout);     before the workers begin
     lft_flush(log);                 the runtime goes on to the next tag
     why = lft_finish(log, stop_time, stop_microstep);     in place of lft_save

   Order: each row takes the next number of one atomic counter, and the rows are written in this order. Where
   the runtime's own locks and atomics order two steps, the earlier step has the lesser number. A relaxed
   counter is enough for that: the changes of one atomic have one order, and it agrees with "happens
   before" (C11 5.1.2.4).

   Errors: no call fails, prints or ends the program. lft_save writes both tables whole, or none and says
   why. A lost row leaves a gap in the numbers, and lft_save looks for gaps: a table that lacks a row
   would accuse the runtime of what it didn't do. A log ends before the gap, and lft_finish says why.
   A write to a pipe that nobody reads any more sends SIGPIPE. It ends a program that doesn't ignore it. */
#ifndef LFTRACE_H
#define LFTRACE_H

#include <inttypes.h>
#include <stdbool.h>
#include <stdint.h>
#include <stdio.h>
#include <stdlib.h>
#include <string.h>

#ifdef __cplusplus
#include <atomic>
#define LFT_ATOMIC(type) std::atomic<type>
#define lft_load(place) (place)->load(std::memory_order_acquire)
#define lft_store(place, value) (place)->store(value, std::memory_order_release)
#define lft_take(counter) (counter)->fetch_add(1, std::memory_order_relaxed)
#define lft_swap(place, value) (place)->exchange(value, std::memory_order_acq_rel)
#else
#include <stdatomic.h>
#define LFT_ATOMIC(type) _Atomic(type)
#define lft_load(place) atomic_load_explicit(place, memory_order_acquire)
#define lft_store(place, value) atomic_store_explicit(place, value, memory_order_release)
#define lft_take(counter) atomic_fetch_add_explicit(counter, 1, memory_order_relaxed)
#define lft_swap(place, value) atomic_exchange_explicit(place, value, memory_order_acq_rel)
#endif

#ifndef LFT_BLOCK
#define LFT_BLOCK 4096 /* rows that are allocated at once: 160 KiB */
#endif
#ifndef LFT_MOST
#define LFT_MOST 4000000 /* the most rows that are kept, and the most of a table that lftrace reads */
#endif
#ifndef LFT_TEXT
#define LFT_TEXT 65536 /* bytes of a file that are written at once */
#endif

typedef uint32_t lft_name; /* a reaction, port or action: the number that lft_register gave */

typedef struct { int64_t number; bool bare; } lft_value;

/* Present without a value. */
static inline lft_value lft_bare(void) { lft_value value = {0, true}; return value; }
static inline lft_value lft_int(int64_t number) { lft_value value = {number, false}; return value; }
/* The bits of a double. */
static inline lft_value lft_double(double number) {
  lft_value value = {0, false};
  memcpy(&value.number, &number, sizeof number);
  return value;
}
/* A hash (FNV-1a) of the bytes of a string, or of a struct without padding. */
static inline lft_value lft_bytes(const void *bytes, size_t size) {
  uint64_t hash = UINT64_C(14695981039346656037);
  for (size_t i = 0; i < size; i++) hash = (hash ^ ((const unsigned char *)bytes)[i]) * UINT64_C(1099511628211);
  lft_value value = {0, false};
  memcpy(&value.number, &hash, sizeof hash);
  return value;
}

enum { LFT_START, LFT_READ, LFT_WRITE, LFT_SCHEDULE, LFT_STOP, LFT_END, LFT_EVENT };

/* The start row of a run has its tag and reaction for all of its rows. */
typedef struct {
  uint64_t order;     /* the number of the row */
  uint64_t time;      /* of the tag (start, event), or the delay (schedule) */
  int64_t number;     /* the value, unless it is bare */
  lft_name name;      /* the reaction (start), a port or action (other kinds), or 0 */
  uint32_t microstep; /* of the tag (start, event) */
  uint32_t kind, bare;
} lft_row;

/* A worker fills a block, and a thread that writes it may read it at the same time: `used` and `next` are stored
   behind what they speak of. A worker never comes back to a block that has a next one. */
typedef struct lft_block {
  LFT_ATOMIC(struct lft_block *) next;
  LFT_ATOMIC(size_t) used;
  lft_row rows[LFT_BLOCK];
} lft_block;

typedef struct {
  LFT_ATOMIC(lft_block *) first;
  lft_block *last;
  LFT_ATOMIC(const char *) fault; /* the first one, and the name that it is about */
  lft_name about;
  lft_name open;   /* the reaction that runs, or 0 */
  char apart[128]; /* keeps workers from writing to one line of a cache */
} lft_slot;

typedef struct {
  lft_slot *slots;
  char **names; /* names[0] is "" */
  unsigned slot_count;
  lft_name name_count;
  bool lacks_name;
  char why[200];
  struct lft_writer *writer; /* of a followed log, or NULL */
  char before[128];          /* the counters have a line of the cache of their own */
  LFT_ATOMIC(uint64_t) order;
  LFT_ATOMIC(uint64_t) written; /* rows that aren't kept any more, since they are in the followed log */
  char behind[128];
  LFT_ATOMIC(uint64_t) lost;   /* rows that weren't kept, since LFT_MOST were */
  LFT_ATOMIC(uint64_t) strays; /* calls with the number of no slot */
} lft_log;

/* A file that is written, and the text that isn't there yet. */
typedef struct {
  FILE *file;
  lft_log *log;    /* whose rows have to be whole at any time, or NULL */
  const char *why; /* why no more is written, or NULL */
  size_t used;
  char text[LFT_TEXT];
} lft_table;

/* How far the rows of a slot are printed. */
typedef struct {
  lft_block *block;
  size_t next;
  bool has_run;
  lft_row run; /* the start row of the last run */
} lft_cursor;

/* Prints the rows of a log in the order of their numbers: for one call of lft_save, or as long as a followed log. */
typedef struct lft_writer {
  lft_log *log;
  uint64_t next; /* the number of the next row */
  unsigned slot; /* where the row before it was */
  lft_cursor *cursors;
  LFT_ATOMIC(bool) busy;
  lft_table *events; /* `externals`, or `trace` where this is the one log */
  lft_table trace, externals;
} lft_writer;

static inline void lft_close(lft_log *log) {
  if (!log) return;
  for (unsigned slot = 0; log->slots && slot < log->slot_count; slot++)
    for (lft_block *block = lft_load(&log->slots[slot].first); block;) {
      lft_block *next = lft_load(&block->next);
      free(block);
      block = next;
    }
  for (lft_name name = 0; name < log->name_count; name++) free(log->names[name]);
  if (log->writer) free(log->writer->cursors);
  free(log->writer);
  free(log->names);
  free(log->slots);
  free(log);
}

/* The number of a name, which is copied. 0 if memory is refused: lft_save says so. */
static inline lft_name lft_register(lft_log *log, const char *name) {
  if (!log) return 0;
  size_t size = strlen(name) + 1;
  char *copy = (char *)malloc(size);
  char **names = (char **)realloc(log->names, (log->name_count + 1) * sizeof *names);
  if (names) log->names = names;
  if (!names || !copy) {
    free(copy);
    log->lacks_name = true;
    return 0;
  }
  memcpy(copy, name, size);
  names[log->name_count] = copy;
  return log->name_count++;
}

/* A log with the slots 0 to slots - 1, or NULL if memory is refused. A slot's number is its worker's. */
static inline lft_log *lft_open(unsigned slots) {
  lft_log *log = (lft_log *)calloc(1, sizeof *log);
  if (!log) return NULL;
  log->slots = (lft_slot *)calloc(slots ? slots : 1, sizeof *log->slots);
  log->slot_count = slots;
  lft_register(log, "");
  if (log->slots && log->names) return log;
  lft_close(log);
  return NULL;
}

static inline void lft_blame(lft_slot *slot, const char *fault, lft_name about) {
  if (lft_load(&slot->fault)) return;
  slot->about = about;
  lft_store(&slot->fault, fault);
}

static inline lft_slot *lft_at(lft_log *log, unsigned slot) {
  if (!log) return NULL;
  if (slot < log->slot_count) return &log->slots[slot];
  lft_take(&log->strays);
  return NULL;
}

/* One more block, or NULL. */
static inline lft_block *lft_grow(lft_slot *slot) {
  lft_block *block = (lft_block *)malloc(sizeof *block);
  if (!block) return NULL;
  lft_store(&block->next, (lft_block *)NULL);
  lft_store(&block->used, (size_t)0);
  if (slot->last) lft_store(&slot->last->next, block);
  else lft_store(&slot->first, block);
  return slot->last = block;
}

static inline void lft_put(lft_log *log, lft_slot *slot, uint32_t kind, lft_name name, lft_value value, uint64_t time,
                           uint32_t microstep) {
  lft_row row = {lft_take(&log->order), time, value.number, name, microstep, kind, value.bare};
  if (row.order - lft_load(&log->written) >= LFT_MOST) {
    lft_take(&log->lost);
    return;
  }
  lft_block *block = slot->last;
  if (!block || lft_load(&block->used) == LFT_BLOCK) block = lft_grow(slot);
  if (!block) {
    lft_blame(slot, "out of memory at a row of", name);
    return;
  }
  size_t used = lft_load(&block->used);
  block->rows[used] = row;
  lft_store(&block->used, used + 1);
}

static inline void lft_step(lft_log *log, unsigned number, uint32_t kind, lft_name name, lft_value value,
                            uint64_t delay) {
  lft_slot *slot = lft_at(log, number);
  if (!slot) return;
  if (!slot->open) lft_blame(slot, "a step outside a run:", name);
  lft_put(log, slot, kind, name, value, delay, 0);
}

static inline void lft_start(lft_log *log, unsigned number, uint64_t time, uint32_t microstep, lft_name reaction) {
  lft_slot *slot = lft_at(log, number);
  if (!slot) return;
  if (slot->open) lft_blame(slot, "a run was never ended, or two threads use one slot:", slot->open);
  slot->open = reaction;
  lft_put(log, slot, LFT_START, reaction, lft_bare(), time, microstep);
}

static inline void lft_read(lft_log *log, unsigned slot, lft_name input, lft_value value) {
  lft_step(log, slot, LFT_READ, input, value, 0);
}

static inline void lft_write(lft_log *log, unsigned slot, lft_name port, lft_value value) {
  lft_step(log, slot, LFT_WRITE, port, value, 0);
}

/* extra_delay is what the code asks for, without the action's own least delay. */
static inline void lft_schedule(lft_log *log, unsigned slot, lft_name action, lft_value value, uint64_t extra_delay) {
  lft_step(log, slot, LFT_SCHEDULE, action, value, extra_delay);
}

static inline void lft_stop(lft_log *log, unsigned slot) { lft_step(log, slot, LFT_STOP, 0, lft_bare(), 0); }

static inline void lft_end(lft_log *log, unsigned slot) {
  lft_step(log, slot, LFT_END, 0, lft_bare(), 0);
  if (log && slot < log->slot_count) log->slots[slot].open = 0;
}

/* An event of a physical action, with the tag that the runtime gave it. Threads that share a slot for
   their events share a lock too. */
static inline void lft_event(lft_log *log, unsigned number, uint64_t time, uint32_t microstep, lft_name action,
                             lft_value value) {
  lft_slot *slot = lft_at(log, number);
  if (slot) lft_put(log, slot, LFT_EVENT, action, value, time, microstep);
}

/* The rows so far, with those that aren't kept. A watchdog sees by it that nothing moves. */
static inline uint64_t lft_rows(lft_log *log) { return log ? lft_load(&log->order) : 0; }

/* Why rows can't be written, or NULL. A thread loses a row before its next one is there, so who has seen that one
   is told of the loss. */
static inline const char *lft_fault(lft_log *log, bool front) {
  if (log->lacks_name) return "out of memory at a name";
  if (lft_load(&log->strays)) return "a call with the number of no slot";
  for (unsigned number = 0; number < log->slot_count; number++) {
    lft_slot *slot = &log->slots[number];
    const char *fault = lft_load(&slot->fault);
    lft_name name = fault ? slot->about : 0;
    if (!fault && !front && slot->open) {
      fault = "a run is still open:";
      name = slot->open;
    }
    if (!fault) continue;
    const char *about = name < log->name_count ? log->names[name] : "a name that wasn't registered";
    snprintf(log->why, sizeof log->why, "slot %u: %s %s", number, fault, *about ? about : "(stop or end)");
    return log->why;
  }
  if (front || !lft_load(&log->lost)) return NULL;
  return log->writer ? "rows are lost: too many weren't written yet" : "more rows than lftrace reads";
}

/* Puts the text into the file. Where a followed log has a fault the text may lack a row, so it is dropped. */
static inline void lft_drain(lft_table *table) {
  FILE *file = table->file;
  if (!table->why && table->log) table->why = lft_fault(table->log, true);
  if (!table->why && (!file || fwrite(table->text, 1, table->used, file) != table->used || fflush(file)))
    table->why = "the file could not be written";
  table->used = 0;
}

static inline void lft_add(lft_table *table, const char *text, size_t size) {
  for (size_t room; (room = LFT_TEXT - table->used) < size; text += room, size -= room) {
    memcpy(table->text + table->used, text, room);
    table->used = LFT_TEXT;
    lft_drain(table);
  }
  memcpy(table->text + table->used, text, size);
  table->used += size;
}

static inline void lft_add_text(lft_table *table, const char *text) { lft_add(table, text, strlen(text)); }

static inline void lft_add_number(lft_table *table, uint64_t number) {
  char digits[20];
  size_t at = sizeof digits;
  do digits[--at] = (char)('0' + number % 10);
  while (number /= 10);
  lft_add(table, digits + at, sizeof digits - at);
}

/* The value of a row behind a comma. */
static inline void lft_add_value(lft_table *table, const lft_row *row) {
  lft_add(table, ",", 1);
  if (row->bare) return;
  if (row->number < 0) lft_add(table, "-", 1);
  lft_add_number(table, row->number < 0 ? 0 - (uint64_t)row->number : (uint64_t)row->number);
}

/* `TIME,MICROSTEP,` of a row with a tag. */
static inline void lft_add_tag(lft_table *table, const lft_row *row) {
  lft_add_number(table, row->time);
  lft_add(table, ",", 1);
  lft_add_number(table, row->microstep);
  lft_add(table, ",", 1);
}

/* What each kind of row begins with. */
static const char *const lft_words[] = {"start,", "read,", "write,", "schedule,", "stop,", "end,", "event,"};

/* An event, or the stop of the execution, which has no name. */
static inline void lft_print_external(lft_table *table, const lft_row *row, char *const *names) {
  lft_add_text(table, lft_words[row->kind]);
  lft_add_tag(table, row);
  lft_add_text(table, names[row->name]);
  lft_add_value(table, row);
  lft_add(table, "\n", 1);
}

static inline void lft_print_step(lft_table *table, unsigned worker, const lft_row *row, const lft_row *run,
                                  char *const *names) {
  lft_add_text(table, lft_words[row->kind]);
  lft_add_number(table, worker);
  lft_add(table, ",", 1);
  lft_add_tag(table, run);
  lft_add_text(table, names[run->name]);
  lft_add(table, ",", 1);
  if (row->kind != LFT_START) lft_add_text(table, names[row->name]);
  lft_add_value(table, row);
  lft_add(table, ",", 1);
  if (row->kind == LFT_SCHEDULE && row->time) lft_add_number(table, row->time);
  lft_add(table, "\n", 1);
}

/* The first row of a slot that isn't printed yet, or NULL. A followed log frees the blocks before it. */
static inline const lft_row *lft_head(lft_writer *writer, unsigned number) {
  lft_slot *slot = &writer->log->slots[number];
  lft_cursor *cursor = &writer->cursors[number];
  lft_block *block = cursor->block;
  if (!block) block = lft_load(&slot->first);
  else if (cursor->next == LFT_BLOCK && (block = lft_load(&block->next))) {
    cursor->next = 0;
    if (writer->log->writer) {
      lft_store(&slot->first, block);
      free(cursor->block);
      lft_store(&writer->log->written, writer->next);
    }
  }
  if (!block) return NULL;
  cursor->block = block;
  return cursor->next < lft_load(&block->used) ? &block->rows[cursor->next] : NULL;
}

/* The next row, or NULL. It is sought from the slot on where the row before it was. */
static inline const lft_row *lft_find(lft_writer *writer) {
  for (unsigned tried = 0; tried < writer->log->slot_count; tried++) {
    const lft_row *row = lft_head(writer, writer->slot);
    if (row && row->order == writer->next) return row;
    writer->slot = writer->slot + 1 == writer->log->slot_count ? 0 : writer->slot + 1;
  }
  return NULL;
}

/* Prints the rows before a number, in order, up to the first that isn't there. NULL, or why it can't. */
static inline const char *lft_print_rows(lft_writer *writer, uint64_t count) {
  lft_log *log = writer->log;
  for (; writer->next < count; writer->next++) {
    const lft_row *row = lft_find(writer);
    if (!row) break;
    if (row->name >= log->name_count) return "a row has a name that wasn't registered";
    lft_cursor *cursor = &writer->cursors[writer->slot];
    cursor->next++;
    if (row->kind == LFT_EVENT) {
      lft_print_external(writer->events, row, log->names);
      continue;
    }
    if (row->kind == LFT_START) {
      cursor->run = *row;
      cursor->has_run = true;
    }
    if (!cursor->has_run) return "a step outside a run"; /* it came after lft_fault looked */
    lft_print_step(&writer->trace, writer->slot, row, &cursor->run, log->names);
  }
  return NULL;
}

static inline lft_writer *lft_open_writer(lft_log *log) {
  lft_writer *writer = (lft_writer *)calloc(1, sizeof *writer);
  if (!writer) return NULL;
  writer->log = log;
  writer->events = &writer->externals;
  writer->cursors = (lft_cursor *)calloc(log->slot_count ? log->slot_count : 1, sizeof *writer->cursors);
  if (writer->cursors) return writer;
  free(writer);
  return NULL;
}

static inline void lft_begin(lft_table *table, FILE *file, const char *header) {
  table->file = file;
  lft_add_text(table, header);
}

/* False: not all of it is in the file. */
static inline bool lft_end_table(lft_table *table) {
  lft_drain(table);
  return table->file && !fclose(table->file) && !table->why;
}

#define LFT_TRACE_HEADER "event,worker,time,microstep,reaction,name,value,delay\n"
#define LFT_EXTERNALS_HEADER "kind,time,microstep,name,value\n"
#define LFT_GAP "a row is missing: two threads used one slot at a time"

static inline const char *lft_write_tables(lft_writer *writer, bool front, const char *trace_path,
                                           const char *externals_path, uint64_t stop_time, uint32_t stop_microstep) {
  uint64_t count = lft_load(&writer->log->order);
  lft_row stop = {0, stop_time, 0, 0, stop_microstep, LFT_STOP, true};
  lft_begin(&writer->trace, fopen(trace_path, "w"), LFT_TRACE_HEADER);
  lft_begin(&writer->externals, fopen(externals_path, "w"), LFT_EXTERNALS_HEADER);
  const char *why = lft_print_rows(writer, count);
  if (!why && !front && writer->next != count) why = LFT_GAP;
  lft_print_external(&writer->externals, &stop, writer->log->names);
  bool written = lft_end_table(&writer->trace);
  written = lft_end_table(&writer->externals) && written;
  return written ? why : "a table could not be written";
}

/* The path with ".part" behind it, or NULL. */
static inline char *lft_part(const char *path) {
  size_t size = strlen(path);
  char *part = (char *)malloc(size + sizeof ".part");
  if (!part) return NULL;
  memcpy(part, path, size);
  memcpy(part + size, ".part", sizeof ".part");
  return part;
}

/* Writes both tables beside their places and moves them there, the trace last. */
static inline const char *lft_place_tables(lft_writer *writer, bool front, const char *trace_path,
                                           const char *externals_path, uint64_t stop_time, uint32_t stop_microstep) {
  char *trace_part = lft_part(trace_path), *externals_part = lft_part(externals_path);
  const char *why = "out of memory at the path of a table";
  if (trace_part && externals_part) {
    why = lft_write_tables(writer, front, trace_part, externals_part, stop_time, stop_microstep);
    if (!why) {
      remove(trace_path);
      remove(externals_path);
      if (rename(externals_part, externals_path) || rename(trace_part, trace_path))
        why = "a table could not be moved to its place";
    }
    if (why) {
      remove(trace_part);
      remove(externals_part);
    }
  }
  free(trace_part);
  free(externals_part);
  return why;
}

static inline const char *lft_save_rows(lft_log *log, bool front, const char *trace_path, const char *externals_path,
                                        uint64_t stop_time, uint32_t stop_microstep) {
  if (!log) return "there is no log";
  if (log->writer && front) return "the log is followed: lft_flush writes what is there";
  if (log->writer) return "the log is followed: lft_finish ends it";
  const char *why = lft_fault(log, front);
  if (why) return why;
  lft_writer *writer = lft_open_writer(log);
  if (!writer) return "out of memory at the tables";
  why = lft_place_tables(writer, front, trace_path, externals_path, stop_time, stop_microstep);
  free(writer->cursors);
  free(writer);
  return why;
}

/* Writes both tables, and gives NULL; or writes none, and gives why not. The stop is the last tag that
   the execution may have: its timeout; the tag at which it ended, if no event was left; any later tag, if
   the code asked for the end.
   Each table is written beside its place and then moved there, the trace last. So no reader finds half a
   table, or a trace with the external inputs of another run. */
static inline const char *lft_save(lft_log *log, const char *trace_path, const char *externals_path,
                                   uint64_t stop_time, uint32_t stop_microstep) {
  return lft_save_rows(log, false, trace_path, externals_path, stop_time, stop_microstep);
}

/* The same for a run that hangs, or has more rows than lftrace reads: the rows so far, up to the first that
   isn't there whole. Runs may be open. examples/pipeline/front cuts such tables at their last whole tag.
   Any one thread may call it at any time, while workers run or hang, and they may go on. It waits for no
   worker and for no lock that code of a reaction can hold, but for those of malloc and stdio: so it isn't
   for a signal handler, nor for a worker that hangs within malloc. Don't take a lock of the runtime to find
   the stop: any later tag will do. */
static inline const char *lft_save_front(lft_log *log, const char *trace_path, const char *externals_path,
                                         uint64_t stop_time, uint32_t stop_microstep) {
  return lft_save_rows(log, true, trace_path, externals_path, stop_time, stop_microstep);
}

/* The rows go to a file from now on, as one log of both tables, and aren't kept once they are there. It is called
   before the workers begin. Nothing else writes to the file. It isn't closed. */
static inline void lft_follow_to(lft_log *log, FILE *file) {
  if (!log || log->writer || !(log->writer = lft_open_writer(log))) return;
  lft_table *table = log->writer->events = &log->writer->trace;
  table->log = log;
  lft_begin(table, file, LFT_TRACE_HEADER);
  lft_drain(table);
}

/* Writes the rows that are there, up to the first that isn't. The thread that goes on to the next tag calls it:
   all runs of the tag have ended, so their rows are there. Any other thread may call it too, as a watchdog does.
   While one writes, the others go on at once. Who writes waits for the file: for the reader, if it is a pipe. */
static inline void lft_flush(lft_log *log) {
  lft_writer *writer = log ? log->writer : NULL;
  if (!writer || lft_swap(&writer->busy, true)) return;
  lft_table *table = &writer->trace;
  if (!table->why) {
    const char *why = lft_print_rows(writer, lft_load(&log->order));
    lft_drain(table);
    if (!table->why) table->why = why;
    lft_store(&log->written, writer->next);
  }
  lft_store(&writer->busy, false);
}

/* In place of lft_save, once no thread calls lft_flush any more: writes the rows that are left and the stop, and
   gives NULL. Or it gives why the log ends before: no row is missing of those that it has. */
static inline const char *lft_finish(lft_log *log, uint64_t stop_time, uint32_t stop_microstep) {
  lft_writer *writer = log ? log->writer : NULL;
  if (!writer) return "no log is followed, or out of memory at it";
  lft_flush(log);
  if (lft_swap(&writer->busy, true)) return "the log has ended, or a thread writes it";
  const char *why = writer->trace.why;
  if (!why) why = lft_fault(log, false);
  if (!why && writer->next != lft_load(&log->order)) why = LFT_GAP;
  if (why) return why;
  lft_row stop = {0, stop_time, 0, 0, stop_microstep, LFT_STOP, true};
  lft_print_external(&writer->trace, &stop, log->names);
  lft_drain(&writer->trace);
  return writer->trace.why;
}
#endif
