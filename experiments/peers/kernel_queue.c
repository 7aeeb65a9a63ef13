/* The workloads `pair`, `deep`, `crowd` and `queues` of mqbench over the system's queues, or those
 * of a library in front of them. Depths above 10 need a higher fs.mqueue.msg_max. */
#include <fcntl.h>
#include <mqueue.h>
#include <pthread.h>
#include <stdint.h>
#include <stdio.h>
#include <stdlib.h>
#include <string.h>
#include <time.h>

static const char *const NAME = "/peer_of_yakyrombe";
static const char MESSAGE[17] = "sixteen bytes ..";
enum { DEPTH = 10, MOST_MEMBERS = 32 };

static mqd_t queue;
static pthread_barrier_t barrier;
static long rounds;

static void stop(const char *what) {
  perror(what);
  mq_unlink(NAME);
  exit(1);
}

static void do_send(mqd_t to, unsigned priority) {
  if (mq_send(to, MESSAGE, 16, priority)) stop("mq_send");
}

static void do_receive(mqd_t from) {
  char buffer[16];
  if (mq_receive(from, buffer, sizeof buffer, NULL) != 16) stop("mq_receive");
}

static mqd_t open_queue(const char *name, long depth) {
  struct mq_attr attributes = {.mq_maxmsg = depth, .mq_msgsize = 16};
  mqd_t opened;
  mq_unlink(name);
  opened = mq_open(name, O_CREAT | O_EXCL | O_RDWR, 0600, &attributes);
  if (opened == (mqd_t)-1) stop("mq_open");
  return opened;
}

static void *take_part(void *member) {
  pthread_barrier_wait(&barrier);
  for (long i = 0; i < rounds; i++) {
    if ((intptr_t)member % 2) do_receive(queue);
    else do_send(queue, 0);
  }
  return NULL;
}

static void *use_own_queue(void *member) {
  char name[64];
  mqd_t own;
  snprintf(name, sizeof name, "%s_%ld", NAME, (long)(intptr_t)member);
  own = open_queue(name, DEPTH);
  pthread_barrier_wait(&barrier);
  for (long i = 0; i < rounds; i++) {
    do_send(own, 0);
    do_receive(own);
  }
  mq_unlink(name);
  return NULL;
}

static void deep(long depth) {
  for (long round = 0; round < rounds; round++) {
    uint32_t random = (uint32_t)round;
    for (long i = 0; i < depth; i++) {
      random = random * 1664525u + 1013904223u;
      do_send(queue, random >> 17);
    }
    for (long i = 0; i < depth; i++) do_receive(queue);
  }
}

static double nanoseconds(void) {
  struct timespec now;
  clock_gettime(CLOCK_MONOTONIC, &now);
  return now.tv_sec * 1e9 + now.tv_nsec;
}

int main(int count, char **words) {
  long size = count == 4 ? atol(words[2]) : 1;
  rounds = count > 2 ? atol(words[count - 1]) : 0;
  int is_deep = rounds && !strcmp(words[1], "deep"), is_crowd = rounds && !strcmp(words[1], "crowd"),
      is_apart = rounds && !strcmp(words[1], "queues"),
      is_pair = rounds && count == 3 && !strcmp(words[1], "pair");
  if (!(is_deep || is_crowd || is_apart || is_pair) || size < 1 || ((is_crowd || is_apart) && size > MOST_MEMBERS)) {
    fputs("pair N, deep D N, crowd P N or queues P N\n", stderr);
    return 2;
  }
  queue = open_queue(NAME, is_deep ? size : DEPTH);
  double start;
  if (is_crowd || is_apart) {
    pthread_t members[MOST_MEMBERS];
    pthread_barrier_init(&barrier, NULL, size + 1);
    for (long i = 0; i < size; i++)
      if (pthread_create(&members[i], NULL, is_apart ? use_own_queue : take_part, (void *)(intptr_t)i))
        stop("pthread_create");
    pthread_barrier_wait(&barrier);
    start = nanoseconds();
    for (long i = 0; i < size; i++) pthread_join(members[i], NULL);
  } else {
    start = nanoseconds();
    if (is_deep) deep(size);
    else for (long i = 0; i < rounds; i++) { do_send(queue, 0); do_receive(queue); }
  }
  double operations = (is_crowd ? 1.0 : 2.0) * size * rounds;
  printf("%.1f ns each\n", (nanoseconds() - start) / operations);
  mq_unlink(NAME);
  return 0;
}
