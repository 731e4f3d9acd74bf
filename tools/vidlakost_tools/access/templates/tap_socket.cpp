// A model of NAME_board behind OpenOCD's driver remote_bitbang: Vboard PORT [UNIT ADDRESS BIT VALUE].
#include "Vboard.h"
#include "verilated.h"
#include <arpa/inet.h>
#include <cstdlib>
#include <sys/socket.h>
#include <unistd.h>

static int listen_at(int port) {
  int listener = socket(AF_INET, SOCK_STREAM, 0), on = 1;
  setsockopt(listener, SOL_SOCKET, SO_REUSEADDR, &on, sizeof on);
  sockaddr_in place{};
  place.sin_family = AF_INET;
  place.sin_port = htons(port);
  place.sin_addr.s_addr = htonl(INADDR_LOOPBACK);
  if (bind(listener, reinterpret_cast<sockaddr *>(&place), sizeof place) || listen(listener, 1)) return -1;
  return accept(listener, nullptr, nullptr);
}

int main(int count, char **words) {
  if (count != 2 && count != 6) return 2;
  Vboard board;
  board.planted = count == 6;
  if (count == 6) {
    board.at_unit = atoi(words[2]);
    board.at_address = atoi(words[3]);
    board.at_bit = atoi(words[4]);
    board.at_value = atoi(words[5]);
  }
  int host = listen_at(atoi(words[1]));
  if (host < 0) return 3;
  for (int level : {1, 0, 1}) {
    board.trst_n = level;
    board.eval();
  }
  char letter;
  while (read(host, &letter, 1) == 1 && letter != 'Q') {
    if (letter >= '0' && letter <= '7') {
      board.tck = letter >> 2 & 1;
      board.tms = letter >> 1 & 1;
      board.tdi = letter & 1;
    } else if (letter >= 'r' && letter <= 'u') {
      board.trst_n = !((letter - 'r') >> 1);
    } else if (letter == 'R') {
      char bit = board.tdo ? '1' : '0';
      if (write(host, &bit, 1) != 1) return 4;
    }
    board.eval();
    // the clock of the memories runs beside TCK
    for (int i = 0; i < 4; i++) {
      board.clk = 1;
      board.eval();
      board.clk = 0;
      board.eval();
    }
  }
  return 0;
}
