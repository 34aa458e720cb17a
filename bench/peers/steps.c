// The bare atomic steps of the workload `uncontended`, with what is written between them, by so many threads: what a firing costs before a body is played or a
// chord is looked for. Prints nanoseconds a firing.

#include <pthread.h>
#include <stdatomic.h>
#include <stdio.h>
#include <stdlib.h>
#include <string.h>
#include <time.h>

enum { EVENTS = 65536, FIRINGS = 15600, METHODS = 4, MOST_THREADS = 64, FIRST_OBJECT = 8 };
enum { PENDING = 1, CLAIMED = 2, CONSUMED = 3 };

// An entry of a journal and a slot of the table, in bytes.
enum { ENTRY = 72, SLOT = 24 };

typedef _Atomic unsigned long Word;

// The table: the counter, a cell and a place word for each event, heads for each object; and the slots.
static Word *words;
static char *slots;

// What one worker has: a buffer with two bags, its list of entries, and what it read.
struct worker {
    Word *heads;
    char *list;
    int rounds;
    unsigned long seen;
};

static double seconds(void) {
    struct timespec time;
    clock_gettime(CLOCK_MONOTONIC, &time);
    return time.tv_sec + time.tv_nsec * 1e-9;
}

static Word *cell(unsigned long number) {
    return &words[1 + number];
}

static void *filled(size_t bytes) {
    void *memory = malloc(bytes);
    if (memory == NULL) exit(1);
    return memset(memory, 0, bytes);
}

// Draws an entry, and writes it.
static unsigned long draw(struct worker *worker) {
    unsigned long number = atomic_fetch_add(words, 1);
    memset(worker->list, (int)number, ENTRY);
    worker->list += ENTRY;
    return number;
}

// A message is drawn, gets its place and its parcel, and is linked and armed.
static unsigned long send(struct worker *worker, Word *head) {
    unsigned long number = draw(worker);
    atomic_store(&words[1 + EVENTS + number], number);
    memset(slots + SLOT * number, 1, SLOT);
    worker->seen += atomic_exchange(head, number);
    atomic_store(cell(number), PENDING);
    return number;
}

static void claim(unsigned long number) {
    unsigned long pending = PENDING;
    atomic_compare_exchange_strong(cell(number), &pending, CLAIMED);
}

static void consume(struct worker *worker, unsigned long number) {
    worker->seen += atomic_load(cell(number));
    atomic_store(cell(number), CONSUMED);
    worker->seen += (unsigned long)slots[SLOT * number];
    memset(slots + SLOT * number, 0, SLOT);
}

// A message, then a call that takes it: the message finds an old call at the head of the other bag, which leaves it; the call finds the message.
static void *play(void *argument) {
    struct worker *worker = argument;
    unsigned long call = 0;
    for (int round = 0; round < worker->rounds; round++) {
        unsigned long message = send(worker, &worker->heads[0]);
        worker->seen += atomic_load(cell(message)) + atomic_load(&worker->heads[1]) + atomic_load(cell(call));
        atomic_compare_exchange_strong(&worker->heads[1], &call, 0);
        call = send(worker, &worker->heads[1]);
        worker->seen += atomic_load(cell(call)) + atomic_load(&worker->heads[0]) + atomic_load(cell(message));
        claim(message);
        claim(call);
        draw(worker);
        consume(worker, message);
        consume(worker, call);
        draw(worker);
    }
    return NULL;
}

// Whether so many numbers were drawn, and half of their cells are of messages and calls that were consumed: all others were never written.
static int is_complete(unsigned long drawn) {
    unsigned long consumed = 0, written = 0;
    for (unsigned long number = 0; number < EVENTS; number++) {
        unsigned long state = atomic_load(cell(number));
        consumed += state == CONSUMED;
        written += state != 0;
    }
    return atomic_load(words) == drawn && 2 * consumed == drawn && written == consumed;
}

int main(int count, char **arguments) {
    int threads = count == 2 ? atoi(arguments[1]) : 1;
    if (threads < 1 || threads > MOST_THREADS) return 2;
    words = filled((1 + (2 + METHODS) * EVENTS) * sizeof(Word));
    slots = filled((size_t)SLOT * EVENTS);
    pthread_t made[MOST_THREADS];
    struct worker workers[MOST_THREADS];
    double start = seconds();
    for (int i = 0; i < threads; i++) {
        int rounds = FIRINGS / threads;
        char *list = malloc((size_t)ENTRY * 4 * rounds);
        if (list == NULL) return 1;
        workers[i] = (struct worker){words + 1 + 2 * EVENTS + (FIRST_OBJECT + i) * METHODS, list, rounds, 0};
        if (pthread_create(&made[i], NULL, play, &workers[i])) return 1;
    }
    for (int i = 0; i < threads; i++) pthread_join(made[i], NULL);
    double took = seconds() - start;
    if (!is_complete(4ul * (FIRINGS / threads) * threads)) return 1;
    printf("%.0f\n", took / FIRINGS * 1e9);
}
