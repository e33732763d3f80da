/* Sends so many inserts of {_id: 7}, or finds of it, by libmongoc: by one thread one after another over the connection that a
 * client keeps, or by so many threads at once, each with a client of a pool, that number of them in all.
 *
 * usage: libmongoc_commands PORT COUNT insert|find LANES */
#include <mongoc/mongoc.h>
#include <pthread.h>
#include <stdio.h>
#include <stdlib.h>
#include <string.h>

static bool insert(mongoc_collection_t *collection, const bson_t *document, bson_error_t *error) {
  return mongoc_collection_insert_one(collection, document, NULL, NULL, error);
}

static bool find(mongoc_collection_t *collection, const bson_t *document, bson_error_t *error) {
  const bson_t *found;
  mongoc_cursor_t *cursor = mongoc_collection_find_with_opts(collection, document, NULL, NULL);
  bool is_one = mongoc_cursor_next(cursor, &found) && !mongoc_cursor_next(cursor, &found);
  if (mongoc_cursor_error(cursor, error)) is_one = false;
  mongoc_cursor_destroy(cursor);
  return is_one;
}

struct lane {
  mongoc_client_t *client;
  bool (*command)(mongoc_collection_t *, const bson_t *, bson_error_t *);
  int count;
};

static void *run(void *what) {
  struct lane *lane = what;
  mongoc_collection_t *collection = mongoc_client_get_collection(lane->client, "test", "a");
  bson_t *document = BCON_NEW("_id", BCON_INT32(7));
  for (int i = lane->count; i > 0; i--) {
    bson_error_t error = {0};
    if (!lane->command(collection, document, &error)) {
      fprintf(stderr, "%s\n", error.message);
      exit(1);
    }
  }
  bson_destroy(document);
  mongoc_collection_destroy(collection);
  return NULL;
}

static void run_pool(const mongoc_uri_t *uri, struct lane *lanes, int count) {
  pthread_t threads[64];
  mongoc_client_pool_t *pool = mongoc_client_pool_new(uri);
  for (int i = 0; i < count; i++) {
    lanes[i].client = mongoc_client_pool_pop(pool);
    if (pthread_create(&threads[i], NULL, run, &lanes[i])) exit(1);
  }
  for (int i = 0; i < count; i++) {
    pthread_join(threads[i], NULL);
    mongoc_client_pool_push(pool, lanes[i].client);
  }
  mongoc_client_pool_destroy(pool);
}

int main(int argc, char **argv) {
  char text[128];
  struct lane lanes[64];
  if (argc != 5) return 2;
  int all = atoi(argv[2]), count = atoi(argv[4]);
  if (count < 1 || count > 64) return 2;
  snprintf(text, sizeof text, "mongodb://127.0.0.1:%s/?w=majority", argv[1]);
  mongoc_init();
  mongoc_uri_t *uri = mongoc_uri_new(text);
  for (int i = 0; i < count; i++) {
    lanes[i].command = strcmp(argv[3], "find") ? insert : find;
    lanes[i].count = all / count + (i < all % count);
  }
  if (count > 1) {
    run_pool(uri, lanes, count);
  } else {
    lanes[0].client = mongoc_client_new_from_uri(uri);
    run(&lanes[0]);
    mongoc_client_destroy(lanes[0].client);
  }
  mongoc_uri_destroy(uri);
  mongoc_cleanup();
  return 0;
}
