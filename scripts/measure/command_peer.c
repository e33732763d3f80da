/* A loopback server for the measurement of commands: answers each hello as a standalone server does, each insert by
 * {n: 1, ok: 1.0}, each find by a cursor that ends with its first batch, {_id: 7}, and any other command by {ok: 1.0}, and
 * keeps nothing. So many threads, each with its connections by epoll(7). For each byte of its standard input it prints the
 * microseconds from the arrival of the first insert or find to the last one's answer, of those since it printed last; it ends
 * when its standard input does.
 *
 * usage: command_peer PORT_FILE THREADS */
#define _GNU_SOURCE
#include <arpa/inet.h>
#include <netinet/in.h>
#include <netinet/tcp.h>
#include <pthread.h>
#include <stdint.h>
#include <stdio.h>
#include <stdlib.h>
#include <string.h>
#include <sys/epoll.h>
#include <sys/socket.h>
#include <time.h>
#include <unistd.h>

#define ROOM 65536
#define THREADS 16
#define OP_REPLY 1
#define OP_QUERY 2004
#define OP_MSG 2013

/* A thread's connections, and when its first command came and its last one was answered, in nanoseconds; 0: none yet. */
struct worker {
  int set;
  uint64_t first, last;
};

struct connection {
  struct worker *worker;
  int fd;
  size_t held;
  unsigned char bytes[ROOM];
};

static unsigned char hello[512], inserted[64], found[128], accepted[64];
static struct worker workers[THREADS];

static uint64_t now(void) {
  struct timespec at;
  clock_gettime(CLOCK_MONOTONIC, &at);
  return at.tv_sec * 1000000000ull + at.tv_nsec;
}

static uint32_t number(const unsigned char *at) {
  return at[0] | at[1] << 8 | at[2] << 16 | (uint32_t) at[3] << 24;
}

static unsigned char *put(unsigned char *at, uint32_t n) {
  for (int i = 0; i < 4; i++) at[i] = n >> 8 * i;
  return at + 4;
}

static unsigned char *field(unsigned char *at, int kind, const char *name, uint64_t value, int size) {
  *at++ = kind;
  at = (unsigned char *) stpcpy((char *) at, name) + 1;
  for (int i = 0; i < size; i++) at[i] = value >> 8 * i;
  return at + size;
}

static unsigned char *ok(unsigned char *at) {
  return field(at, 1, "ok", 0x3ff0000000000000, 8);
}

static void close_document(unsigned char *front, unsigned char *end) {
  *end = 0;
  put(front, end + 1 - front);
}

/* The front of a document or an array that stands in another: its kind and name; close_document ends it. */
static unsigned char *open_field(unsigned char *at, int kind, const char *name) {
  *at++ = kind;
  return (unsigned char *) stpcpy((char *) at, name) + 1;
}

static unsigned char *end_document(unsigned char *front, unsigned char *end) {
  close_document(front, end);
  return end + 1;
}

/* {cursor: {firstBatch: [{_id: 7}], id: 0, ns: "test.a"}, ok: 1.0} */
static void make_found(void) {
  unsigned char *cursor = open_field(found + 4, 3, "cursor");
  unsigned char *batch = open_field(cursor + 4, 4, "firstBatch");
  unsigned char *document = open_field(batch + 4, 3, "0");
  unsigned char *at = end_document(document, field(document + 4, 16, "_id", 7, 4));
  at = end_document(batch, at);
  at = field(at, 18, "id", 0, 8);
  at = put(open_field(at, 2, "ns"), sizeof "test.a");
  memcpy(at, "test.a", sizeof "test.a");
  at = end_document(cursor, at + sizeof "test.a");
  close_document(found, ok(at));
}

static void make_answers(void) {
  unsigned char *at = hello + 4;
  at = field(at, 8, "ismaster", 1, 1);
  at = field(at, 8, "isWritablePrimary", 1, 1);
  at = field(at, 16, "maxBsonObjectSize", 16777216, 4);
  at = field(at, 16, "maxMessageSizeBytes", 48000000, 4);
  at = field(at, 16, "maxWriteBatchSize", 100000, 4);
  at = field(at, 16, "minWireVersion", 0, 4);
  at = field(at, 16, "maxWireVersion", 13, 4);
  at = field(at, 8, "readOnly", 0, 1);
  close_document(hello, ok(at));
  close_document(inserted, ok(field(inserted + 4, 16, "n", 1, 4)));
  close_document(accepted, ok(accepted + 4));
  make_found();
}

/* The answer's document, by the name of the command's first element. A document begins with its length and a type. */
static const unsigned char *answer_to(const unsigned char *document) {
  const char *name = (const char *) document + 5;
  if (!strcmp(name, "insert")) return inserted;
  if (!strcmp(name, "find")) return found;
  return strcasecmp(name, "ismaster") && strcmp(name, "hello") ? accepted : hello;
}

/* Writes the reply to one whole message, and says how long it is, and whether it is an insert or a find; 0 where the message is
 * none that is answered. */
static size_t reply_to(const unsigned char *message, size_t size, unsigned char *out, int *counts) {
  uint32_t opcode = number(message + 12);
  const unsigned char *body;
  unsigned char *at = out + 16;
  if (opcode == OP_QUERY) {
    const unsigned char *name_end = memchr(message + 20, 0, size - 20);
    if (!name_end) return 0;
    body = name_end + 9;
    at = put(put(put(put(put(at, 8), 0), 0), 0), 1);
  } else if (opcode == OP_MSG) {
    body = message + 21;
    at = put(at, 0);
    *at++ = 0;
  } else {
    return 0;
  }
  if (body + 5 >= message + size || !memchr(body + 5, 0, message + size - body - 5)) return 0;
  const unsigned char *document = answer_to(body);
  *counts = document == inserted || document == found;
  memcpy(at, document, number(document));
  at += number(document);
  put(put(put(put(out, at - out), 1), number(message + 4)), opcode == OP_QUERY ? OP_REPLY : OP_MSG);
  return at - out;
}

/* Reads what has come and answers each whole message. Says whether the connection goes on. */
static int serve(struct connection *of) {
  unsigned char out[1024];
  int counts = 0;
  ssize_t got = recv(of->fd, of->bytes + of->held, ROOM - of->held, 0);
  size_t from = 0;
  if (got <= 0) return 0;
  of->held += got;
  while (of->held - from >= 16) {
    size_t size = number(of->bytes + from), length;
    if (size < 26 || size > ROOM) return 0;
    if (of->held - from < size) break;
    length = reply_to(of->bytes + from, size, out, &counts);
    if (counts && !of->worker->first) of->worker->first = now();
    if (length == 0 || send(of->fd, out, length, MSG_NOSIGNAL) != (ssize_t) length) return 0;
    if (counts) of->worker->last = now();
    from += size;
  }
  memmove(of->bytes, of->bytes + from, of->held - from);
  of->held -= from;
  return 1;
}

static void watch(int set, int fd, void *what) {
  struct epoll_event event = {.events = EPOLLIN, .data.ptr = what};
  if (epoll_ctl(set, EPOLL_CTL_ADD, fd, &event)) exit(1);
}

/* Serves the connections of a thread. */
static void *work(void *what) {
  struct worker *worker = what;
  for (;;) {
    struct epoll_event ready[64];
    int count = epoll_wait(worker->set, ready, 64, -1);
    for (int i = 0; i < count; i++) {
      struct connection *of = ready[i].data.ptr;
      if (!serve(of)) {
        close(of->fd);
        free(of);
      }
    }
  }
  return NULL;
}

/* Prints how long the commands took since this was printed last. Nobody sends any meanwhile. */
static void tell(int threads) {
  uint64_t first = UINT64_MAX, last = 0;
  for (int i = 0; i < threads; i++) {
    if (workers[i].first && workers[i].first < first) first = workers[i].first;
    if (workers[i].last > last) last = workers[i].last;
    workers[i].first = workers[i].last = 0;
  }
  printf("%.1f\n", last > first ? (last - first) / 1000.0 : 0.0);
  fflush(stdout);
}

int main(int argc, char **argv) {
  static char input;
  struct sockaddr_in address = {.sin_family = AF_INET, .sin_addr.s_addr = htonl(INADDR_LOOPBACK)};
  socklen_t length = sizeof address;
  int listener = socket(AF_INET, SOCK_STREAM, 0), set = epoll_create1(0), on = 1, next = 0;
  int threads = argc == 3 ? atoi(argv[2]) : 0;
  FILE *port = threads >= 1 && threads <= THREADS ? fopen(argv[1], "w") : NULL;
  if (!port || bind(listener, (void *) &address, length) || listen(listener, 1024)) return 1;
  if (getsockname(listener, (void *) &address, &length)) return 1;
  make_answers();
  for (int i = 0; i < threads; i++) {
    pthread_t thread;
    workers[i].set = epoll_create1(0);
    if (pthread_create(&thread, NULL, work, &workers[i])) return 1;
  }
  watch(set, listener, NULL);
  watch(set, 0, &input);
  fprintf(port, "%d", ntohs(address.sin_port));
  fclose(port);
  for (;;) {
    struct epoll_event ready[64];
    int count = epoll_wait(set, ready, 64, -1);
    for (int i = 0; i < count; i++) {
      if (ready[i].data.ptr == &input) {
        if (read(0, &input, 1) <= 0) return 0;
        tell(threads);
      } else {
        int fd = accept(listener, NULL, NULL);
        struct connection *of = fd < 0 ? NULL : malloc(sizeof *of);
        if (!of) continue;
        setsockopt(fd, IPPROTO_TCP, TCP_NODELAY, &on, sizeof on);
        of->worker = &workers[next++ % threads];
        of->fd = fd;
        of->held = 0;
        watch(of->worker->set, fd, of);
      }
    }
  }
}
