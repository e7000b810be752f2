// Checks the tree of a certificate plainly, over RCC-8: the rival of certificates.py.
//
//   plain_check CERTIFICATE < NETWORK
//
// The certificate has the layout that is written (docs/FORMATS.md), and either all nodes are closed or all have steps. The
// forms of the nodes are trusted, what they show isn't. All are worked on one network, and a trail takes changes back.
#include "plain_network.hpp"

struct Step {
  uint8_t i, j, k;
};

struct Node {
  bool splits = false, sweeps = true;
  int i = 0, j = 0;
  std::vector<int> parts;
  std::vector<Step> steps;
};

// From the bracket of a list of numbers to after it.
static std::vector<int> numbers(const char *&at) {
  std::vector<int> list;
  for (at++; at[-1] != ']'; at++) list.push_back(number(at));
  return list;
}

// From the bracket of a list of steps to after it.
static std::vector<Step> steps(const char *&at) {
  std::vector<Step> list;
  for (at++; *at != ']'; at += *at == ',') {
    Step step;
    step.i = number(++at), step.j = number(++at), step.k = number(++at);
    list.push_back(step), at++;
  }
  at++;
  return list;
}

static Node read_node(const char *&at) {
  Node node;
  node.splits = at[2] == 's';
  at += strlen("[\"split\"");  // or as many of ["empty"
  if (node.splits) {
    node.i = number(++at), node.j = number(++at);
    node.parts = numbers(++at), numbers(++at);
  }
  node.sweeps = strncmp(at, ",[", 2);
  if (!node.sweeps) node.steps = steps(++at);
  else if (*at == ',') at += strlen(",\"sweep\"");
  at++;
  return node;
}

static std::vector<Node> read_tree(const char *at) {
  std::vector<Node> nodes;
  const char *key = "\"tree\":[";
  for (at = strstr(at, key) + strlen(key); at[-1] != ']'; at++) nodes.push_back(read_node(at));
  return nodes;
}

struct Check {
  Network<Bytes, true> net;
  std::vector<Node> nodes;
  size_t next = 0;
  // Whether a set of the worked network is empty.
  bool work(const Node &node) {
    if (node.sweeps) return !net.close();
    bool is_empty = false;
    int n = net.n;
    for (Step s : node.steps) {
      Bytes::Set before = net.sets[s.i * n + s.k];
      Bytes::Set after = before & Bytes::row(net.sets[s.i * n + s.j])[net.sets[s.j * n + s.k]];
      net.trail.push_back({s.i, s.k, before});
      net.set(s.i, s.k, after);
      is_empty |= !after;
    }
    return is_empty;
  }
  void take_back(size_t kept) {
    for (net.queue.clear(); net.trail.size() > kept; net.trail.pop_back()) {
      auto [i, j, before] = net.trail.back();
      net.set(i, j, before);
    }
  }
  // Whether the next node and those under it refute the network.
  bool refutes() {
    const Node &node = nodes[next++];
    bool is_empty = work(node);
    if (is_empty || !node.splits) return is_empty && !node.splits;
    int set = net.sets[node.i * net.n + node.j], all = 0;
    for (int part : node.parts) all |= part;
    if (set & ~all) return false;
    size_t kept = net.trail.size();
    for (int part : node.parts) {
      net.narrow(node.i, node.j, set & part);
      if (!refutes()) return false;
      take_back(kept);
    }
    return true;
  }
};

int main(int count, char **words) {
  if (count != 2) return 2;
  Calculus c = rcc8();
  Bytes::make(c);
  FILE *file = fopen(words[1], "rb");
  if (!file) return 4;
  std::vector<char> text = read_all(file);
  Check check{read_network<Network<Bytes, true>>(c), read_tree(text.data())};
  bool accepted = (!check.net.push_all() || check.refutes()) && (check.next == 0 || check.next == check.nodes.size());
  puts(accepted ? "accepted" : "not accepted");
  return accepted ? 0 : 8;
}
