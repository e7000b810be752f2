// Closes a network of RCC-8 by the field's methods, plainly: the rival of closure.py.
#include "plain_network.hpp"

int main() {
  Calculus c = rcc8();
  Bytes::make(c);
  auto net = read_network<Network<Bytes, false>>(c);
  if (!net.push_all() || !net.close()) std::fill(net.sets.begin(), net.sets.end(), 0);
  write_network(net, c);
}
