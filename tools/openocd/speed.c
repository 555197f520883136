// How fast a served chip answers over the loopback address, beside a bare echo server: `speed PORT` is the client of a chip that listens there.
//
//   cc -O2 -o speed speed.c && ./jtag chip --at 127.0.0.1:9824 --image empty.bin --events 1000000000 & ./speed 9824
//
// Five turns let TCK rise 13.6 million times. It asks one `R` at a time of the chip and of an echo server of its own, by turns; then it sends pieces of 4,096 bytes, of clocks alone and of clocks that each ask.
#include <arpa/inet.h>
#include <netinet/tcp.h>
#include <stdio.h>
#include <stdlib.h>
#include <string.h>
#include <sys/socket.h>
#include <time.h>
#include <unistd.h>

enum { PIECE = 4096, ROUND_TRIPS = 50000, PIECES = 800, TURNS = 5 };

static void fail(const char *what) {
  perror(what);
  exit(1);
}

static double seconds(void) {
  struct timespec now;
  clock_gettime(CLOCK_MONOTONIC, &now);
  return now.tv_sec + now.tv_nsec / 1e9;
}

static void at_once(int stream) {
  int on = 1;
  setsockopt(stream, IPPROTO_TCP, TCP_NODELAY, &on, sizeof on);
}

static struct sockaddr_in loopback(int port) {
  struct sockaddr_in at = {.sin_family = AF_INET, .sin_port = htons(port)};
  at.sin_addr.s_addr = htonl(INADDR_LOOPBACK);
  return at;
}

static int join(int port) {
  struct sockaddr_in at = loopback(port);
  int stream = socket(AF_INET, SOCK_STREAM, 0);
  if (connect(stream, (struct sockaddr *)&at, sizeof at)) fail("connect");
  at_once(stream);
  return stream;
}

// A server that sends back what comes, in a process of its own. It answers its port.
static int echo(void) {
  struct sockaddr_in at = loopback(0);
  socklen_t size = sizeof at;
  int listener = socket(AF_INET, SOCK_STREAM, 0);
  if (bind(listener, (struct sockaddr *)&at, size) || listen(listener, 1) || getsockname(listener, (struct sockaddr *)&at, &size)) fail("echo");
  if (fork() == 0) {
    char bytes[256];
    ssize_t count;
    int stream = accept(listener, 0, 0);
    at_once(stream);
    while ((count = read(stream, bytes, sizeof bytes)) > 0)
      if (write(stream, bytes, count) != count) break;
    exit(0);
  }
  close(listener);
  return ntohs(at.sin_port);
}

static double round_trips(int stream) {
  char answer;
  double begin = seconds();
  for (int i = 0; i < ROUND_TRIPS; i++)
    if (write(stream, "R", 1) != 1 || read(stream, &answer, 1) != 1) fail("round trip");
  return ROUND_TRIPS / (seconds() - begin);
}

// Signs a second of pieces of 4,096 bytes, each of which has `asked` questions. The next piece goes out once the last was answered, the last sign of each asks.
static double pieces(int stream, const char *piece, int asked) {
  static char answers[PIECE];
  double begin = seconds();
  for (int i = 0; i < PIECES; i++) {
    if (write(stream, piece, PIECE) != PIECE) fail("piece");
    for (int got = 0; got < asked;) {
      ssize_t count = read(stream, answers, asked - got);
      if (count <= 0) fail("answers");
      got += count;
    }
  }
  return (double)PIECES * PIECE / (seconds() - begin);
}

int main(int count, char **words) {
  if (count != 2) return 2;
  static char clocks[PIECE], asking[PIECE];
  int chip = join(atoi(words[1])), bare = join(echo()), asked = 0;
  for (int i = 0; i < PIECE; i++) clocks[i] = i % 2 ? '4' : '0';
  clocks[PIECE - 1] = 'R';
  for (int i = 0; i < PIECE; i++) {
    asking[i] = i == PIECE - 1 ? 'R' : "0R4"[i % 3];
    asked += asking[i] == 'R';
  }
  for (int turn = 0; turn < TURNS; turn++) {
    double chips = round_trips(chip), bares = round_trips(bare);
    printf("one R at a time: chip %.0f a second, echo %.0f, ratio %.2f; ", chips, bares, chips / bares);
    printf("pieces of 4096: clocks %.1f million signs a second, ", pieces(chip, clocks, 1) / 1e6);
    printf("each asked %.1f\n", pieces(chip, asking, asked) / 1e6);
  }
  if (write(chip, "Q", 1) != 1) fail("quit");
  return 0;
}
