/* Five commands by libmongoc under Stable API version 1, against the server of a connection string.
 *
 * usage: with_libmongoc URI
 *
 * Prints a line for each, and ends with 0 where all went well. */
#include <mongoc/mongoc.h>
#include <stdio.h>
#include <stdlib.h>

static bson_t *document(const char *json) {
  bson_error_t error;
  bson_t *made = bson_new_from_json((const uint8_t *)json, -1, &error);
  if (!made) {
    fprintf(stderr, "%s\n", error.message);
    exit(3);
  }
  return made;
}

static void check(bool went, const bson_error_t *error, const char *name) {
  if (!went) {
    fprintf(stderr, "%s: %s\n", name, error->message);
    exit(1);
  }
}

static int number(const bson_t *reply, const char *field) {
  bson_iter_t at;
  return bson_iter_init_find(&at, reply, field) ? (int)bson_iter_as_int64(&at) : -1;
}

int main(int count, char **words) {
  bson_error_t error;
  bson_t reply;
  if (count != 2) return 2;
  mongoc_init();
  mongoc_client_t *client = mongoc_client_new(words[1]);
  if (!client) return 2;
  mongoc_server_api_t *api = mongoc_server_api_new(MONGOC_SERVER_API_V1);
  check(mongoc_client_set_server_api(client, api, &error), &error, "server api");
  mongoc_collection_t *people = mongoc_client_get_collection(client, "test", "people");
  bson_t *ada = document("{\"_id\": 7, \"name\": \"Ada\"}");
  bson_t *seven = document("{\"_id\": 7}");
  bson_t *change = document("{\"$set\": {\"name\": \"Eve\"}}");
  check(mongoc_collection_insert_one(people, ada, NULL, &reply, &error), &error, "insert");
  printf("insert %d\n", number(&reply, "insertedCount"));
  bson_destroy(&reply);
  check(mongoc_collection_update_one(people, seven, change, NULL, &reply, &error), &error, "update");
  printf("update %d %d\n", number(&reply, "matchedCount"), number(&reply, "modifiedCount"));
  bson_destroy(&reply);
  mongoc_cursor_t *cursor = mongoc_collection_find_with_opts(people, seven, NULL, NULL);
  const bson_t *found;
  int many = 0;
  while (mongoc_cursor_next(cursor, &found)) many++;
  check(!mongoc_cursor_error(cursor, &error), &error, "find");
  printf("find %d\n", many);
  mongoc_cursor_destroy(cursor);
  check(mongoc_collection_delete_one(people, seven, NULL, &reply, &error), &error, "delete");
  printf("delete %d\n", number(&reply, "deletedCount"));
  bson_destroy(&reply);
  bson_destroy(change);
  bson_destroy(seven);
  bson_destroy(ada);
  mongoc_collection_destroy(people);
  mongoc_server_api_destroy(api);
  mongoc_client_destroy(client);
  mongoc_cleanup();
  return 0;
}
