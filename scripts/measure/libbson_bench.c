/* Measures libbson on one document beside `core_bench documents`. libbson makes no tree of values: "decode" here walks
 * all fields and checks that texts are UTF-8, and "encode" appends each field again, level by level, to a new document. */
#include <bson/bson.h>
#include <stdio.h>
#include <stdlib.h>
#include <time.h>

#define BATCHES 5

static long long now(void) {
  struct timespec t;
  clock_gettime(CLOCK_MONOTONIC, &t);
  return t.tv_sec * 1000000000LL + t.tv_nsec;
}

static size_t walk(bson_iter_t *at) {
  size_t count = 0;
  while (bson_iter_next(at)) {
    bson_iter_t inner;
    count++;
    if ((BSON_ITER_HOLDS_DOCUMENT(at) || BSON_ITER_HOLDS_ARRAY(at)) && bson_iter_recurse(at, &inner)) count += walk(&inner);
  }
  return count;
}

static size_t decode_once(const uint8_t *raw, size_t size) {
  bson_t document;
  bson_iter_t at;
  if (!bson_init_static(&document, raw, size) || !bson_validate(&document, BSON_VALIDATE_UTF8, NULL)) return 0;
  return bson_iter_init(&at, &document) ? walk(&at) : 0;
}

static void append_all(bson_t *out, bson_iter_t *at) {
  while (bson_iter_next(at)) {
    bson_iter_t inner;
    bson_t child;
    const char *key = bson_iter_key(at);
    int length = (int) bson_iter_key_len(at);
    if (BSON_ITER_HOLDS_DOCUMENT(at) && bson_iter_recurse(at, &inner)) {
      bson_append_document_begin(out, key, length, &child);
      append_all(&child, &inner);
      bson_append_document_end(out, &child);
    } else if (BSON_ITER_HOLDS_ARRAY(at) && bson_iter_recurse(at, &inner)) {
      bson_append_array_begin(out, key, length, &child);
      append_all(&child, &inner);
      bson_append_array_end(out, &child);
    } else {
      bson_append_iter(out, key, length, at);
    }
  }
}

static size_t encode_once(const uint8_t *raw, size_t size) {
  bson_t document, out = BSON_INITIALIZER;
  bson_iter_t at;
  size_t length;
  if (!bson_init_static(&document, raw, size) || !bson_iter_init(&at, &document)) return 0;
  append_all(&out, &at);
  length = out.len;
  bson_destroy(&out);
  return length;
}

static void measure(const char *what, size_t (*once)(const uint8_t *, size_t), const uint8_t *raw, size_t size, int rounds) {
  long long best = -1;
  for (int b = 0; b < BATCHES; b++) {
    long long start = now(), took;
    for (int i = 0; i < rounds; i++)
      if (once(raw, size) == 0) exit(1);
    took = (now() - start) / rounds;
    if (best < 0 || took < best) best = took;
  }
  printf("%s %lld %zu\n", what, best, size);
}

int main(int argc, char **argv) {
  FILE *in = argc == 3 ? fopen(argv[1], "rb") : NULL;
  uint8_t *raw;
  size_t size;
  if (!in) return 2;
  fseek(in, 0, SEEK_END);
  size = ftell(in);
  rewind(in);
  raw = malloc(size);
  if (fread(raw, 1, size, in) != size || encode_once(raw, size) != size) return 1;
  measure("decode", decode_once, raw, size, atoi(argv[2]));
  measure("encode", encode_once, raw, size, atoi(argv[2]));
  return 0;
}
