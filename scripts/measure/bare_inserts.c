/* Sends so many inserts, each on a connection of its own and as bytes that are made already, and reads each reply with
 * one call: what the system takes for that much.
 *
 * usage: bare_inserts PORT COUNT insert 1 */
#include <arpa/inet.h>
#include <netinet/in.h>
#include <netinet/tcp.h>
#include <stdlib.h>
#include <string.h>
#include <sys/socket.h>
#include <unistd.h>

/* The insert of {_id: 7} into collection `a` of database `test`, as mdc sends it but for its id. */
static const char request[] =
    "\x96\0\0\0\1\0\0\0\0\0\0\0\xdd\7\0\0\0\0\0\0\0\x81\0\0\0"
    "\2insert\0\2\0\0\0a\0"
    "\4documents\0\x16\0\0\0\3"
    "0\0\x0e\0\0\0\x10_id\0\7\0\0\0\0\0"
    "\10ordered\0\1"
    "\3writeConcern\0\x15\0\0\0\2w\0\11\0\0\0majority\0\0"
    "\2apiVersion\0\2\0\0\0"
    "1\0"
    "\2$db\0\5\0\0\0test\0";

int main(int argc, char **argv) {
  struct sockaddr_in address = {.sin_family = AF_INET, .sin_addr.s_addr = htonl(INADDR_LOOPBACK)};
  int on = 1;
  if (argc != 5) return 2;
  address.sin_port = htons(atoi(argv[1]));
  for (int i = atoi(argv[2]); i > 0; i--) {
    char reply[64];
    int fd = socket(AF_INET, SOCK_STREAM, 0);
    if (connect(fd, (void *) &address, sizeof address)) return 1;
    setsockopt(fd, IPPROTO_TCP, TCP_NODELAY, &on, sizeof on);
    if (send(fd, request, sizeof request, 0) != sizeof request) return 1;
    if (recv(fd, reply, sizeof reply, 0) != 45) return 1;
    close(fd);
  }
  return 0;
}
