// Searches a network for a scenario by the tree that docs/FORMATS.md rules, plainly: the rival of search.py.
//
//   plain_search CALC CLASS BUDGET < NETWORK
//
// CALC is rcc8 or a table file of up to 14 base relations, CLASS is h8, none or a class file. All splits are made on one
// network: a trail takes changes back, and bits tell which edges may be split.
#include "plain_network.hpp"

static std::vector<char> read_file(const char *name) {
  FILE *file = fopen(name, "rb");
  if (!file) exit(4);
  std::vector<char> text = read_all(file);
  fclose(file);
  return text;
}

static std::string next_word(const char *&at) {
  while (*at && (*at <= ' ' || *at == '#')) at += *at == '#' ? strcspn(at, "\n") : 1;
  const char *from = at;
  while (*at > ' ') at++;
  return {from, at};
}

static Calculus read_table(const char *name) {
  std::vector<char> text = read_file(name);
  const char *at = text.data();
  Calculus c;
  next_word(at), next_word(at);  // names (
  for (std::string name; (name = next_word(at)) != ")";) c.names.push_back(name);
  auto next_base = [&] {
    int r = 0;
    for (std::string name = next_word(at); c.names[r] != name;) r++;
    return r;
  };
  int size = c.size();
  c.converses.resize(size), c.compositions.resize(size * size);
  next_word(at), c.identity = next_base();
  for (int line = 0; line < size + size * size; line++) {
    int r = next_base();
    bool tells_converse = next_word(at) == "::";
    int s = next_base();
    if (tells_converse) c.converses[r] = s;
    else next_word(at), c.compositions[r * size + s] = set_of_names(at, c), at++;
  }
  return c;
}

// Over RCC-8, after Renz and Nebel (1999).
static bool is_in_h8(int a) {
  bool both_ways = (a & (TPP | NTPP)) && (a & (TPPI | NTPPI)) && !(a & PO);
  bool far = (a & (TPP | NTPP)) == NTPP || (a & (TPPI | NTPPI)) == NTPPI;
  return !both_ways && !((a & EQ) && far);
}

// The first part of each set: the greatest member of the class within it, the least of several. A member is its own.
static std::vector<int> first_parts(const char *name, const Calculus &c) {
  std::vector<int> parts(1 << c.size());
  if (!strcmp(name, "h8"))
    for (int a = 1; a < 256; a++) parts[a] = is_in_h8(a) ? a : 0;
  else if (!strcmp(name, "none"))
    for (int r = 0; r < c.size(); r++) parts[1 << r] = 1 << r;
  else {
    std::vector<char> text = read_file(name);
    for (const char *at = text.data(); next_word(at) == "("; at++) {
      int a = set_of_names(at, c);
      parts[a] = a;
    }
  }
  for (int a = 1; a < 1 << c.size(); a++)
    for (int rest = parts[a] ? 0 : a; rest; rest &= rest - 1) {
      int part = parts[a & ~(rest & -rest)], more = __builtin_popcount(part) - __builtin_popcount(parts[a]);
      if (more > 0 || (!more && part < parts[a])) parts[a] = part;
    }
  return parts;
}

enum Answer { YES, NO, SPENT };

template <class Tables> struct Search {
  using Set = typename Tables::Set;
  using Bits = std::vector<uint64_t>;
  Network<Tables, true> net;
  std::vector<int> parts;
  int budget, splits = 0;
  Bits open, outside;  // the edges i < j of several base relations, and those of them whose set isn't in the class
  Search(Network<Tables, true> &&closing, std::vector<int> &&parts, int budget)
      : net(closing), parts(parts), budget(budget), open((net.n * net.n + 63) / 64), outside(open) {}
  void note(int edge) {
    Set a = net.sets[edge];
    uint64_t bit = 1ull << (edge & 63);
    uint64_t &is_open = open[edge >> 6], &is_outside = outside[edge >> 6];
    is_open = a & (a - 1) ? is_open | bit : is_open & ~bit;
    is_outside = parts[a] != a ? is_outside | bit : is_outside & ~bit;
  }
  static int first(const Bits &bits) {
    for (size_t word = 0; word < bits.size(); word++)
      if (bits[word]) return 64 * word + __builtin_ctzll(bits[word]);
    return -1;
  }
  void take_back(size_t kept, bool noted) {
    for (; net.trail.size() > kept; net.trail.pop_back()) {
      auto [i, j, before] = net.trail.back();
      net.set(i, j, before);
      if (noted) note(i * net.n + j);
    }
  }
  // Of a network that is closed, without an empty set.
  Answer split() {
    int edge = first(outside);
    bool into_parts = edge >= 0;
    if (!into_parts) edge = first(open);
    if (edge < 0) return YES;
    if (splits == budget) return SPENT;
    splits++;
    size_t kept = net.trail.size();
    for (int rest = net.sets[edge]; rest;) {
      int part = into_parts ? parts[rest] : rest & -rest;
      rest ^= part;
      net.narrow(edge / net.n, edge % net.n, part);
      bool closed = net.close();
      if (closed) {
        for (size_t k = kept; k < net.trail.size(); k++) note(net.trail[k].i * net.n + net.trail[k].j);
        Answer answer = split();
        if (answer != NO) return answer;
      }
      net.queue.clear();
      take_back(kept, closed);
    }
    return NO;
  }
  Answer answer() {
    if (!net.push_all() || !net.close()) return NO;
    for (int i = 0; i < net.n; i++)
      for (int j = i + 1; j < net.n; j++) note(i * net.n + j);
    return split();
  }
};

template <class Tables> static int solve(const Calculus &c, char **words) {
  Tables::make(c);
  Search<Tables> search(read_network<Network<Tables, true>>(c), first_parts(words[2], c), atoi(words[3]));
  Answer answer = search.answer();
  printf("%s %d\n", answer == YES ? "yes" : answer == NO ? "no" : "budget", search.splits);
  if (answer == YES) write_network(search.net, c);
  return answer == YES ? 0 : answer == NO ? 1 : 7;
}

int main(int count, char **words) {
  if (count != 4) return 2;
  Calculus c = strcmp(words[1], "rcc8") ? read_table(words[1]) : rcc8();
  return c.size() <= 8 ? solve<Bytes>(c, words) : solve<Halves>(c, words);
}
