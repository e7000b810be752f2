// What the plain programs share: a calculus, tables of its compositions, a queue of edges, closing, and the texts. They trust
// their input. No composition of two base relations may be empty.
//
// A bucket queue takes the edge that restricts most: a base relation weighs more the larger its compositions are, and a set
// the sum of its members (van Beek and Manchak 1996; Nebel 1997). Tables over pairs of sets compose, and both directions of
// each edge are stored.
#pragma once
#include <cstdint>
#include <cstdio>
#include <cstdlib>
#include <cstring>
#include <string>
#include <utility>
#include <vector>

struct Calculus {
  std::vector<std::string> names;
  int identity;
  std::vector<int> converses;     // of each base relation
  std::vector<int> compositions;  // of each pair, as sets
  int size() const { return names.size(); }
  int composition(int r, int s) const { return r < size() && s < size() ? compositions[r * size() + s] : 0; }
};

enum { DC = 1, EC = 2, PO = 4, TPP = 8, NTPP = 16, TPPI = 32, NTPPI = 64, EQ = 128 };

static Calculus rcc8() {
  const int A = DC | EC | PO, P = TPP | NTPP, W = TPPI | NTPPI, ALL = 255;
  return {{"DC", "EC", "PO", "TPP", "NTPP", "TPPi", "NTPPi", "EQ"}, 7, {0, 1, 2, 5, 6, 3, 4, 7}, {
    ALL, A | P, A | P, A | P, A | P, DC, DC, DC,
    A | W, A | TPP | TPPI | EQ, A | P, EC | PO | P, PO | P, DC | EC, DC, EC,
    A | W, A | W, ALL, PO | P, PO | P, A | W, A | W, PO,
    DC, DC | EC, A | P, P, NTPP, A | TPP | TPPI | EQ, A | W, TPP,
    DC, DC, A | P, NTPP, NTPP, A | P, ALL, NTPP,
    A | W, EC | PO | W, PO | W, PO | TPP | TPPI | EQ, PO | P, W, NTPPI, TPPI,
    A | W, PO | W, PO | W, PO | W, PO | P | W | EQ, NTPPI, NTPPI, NTPPI,
    DC, EC, PO, TPP, NTPP, TPPI, NTPPI, EQ}};
}

// Sets of up to BASES base relations as bits of a number, with the converse and the weight of each.
template <class Number, int BASES> struct Sets {
  using Set = Number;
  static inline Set converse[1 << BASES];
  static inline int weight[1 << BASES];
  static void make(const Calculus &c) {
    std::vector<int> counts(c.size());
    int least = c.size() * c.size(), most = 0;
    for (int r = 0; r < c.size(); r++) {
      for (int s = 0; s < c.size(); s++) counts[r] += __builtin_popcount(c.composition(r, s));
      least = counts[r] < least ? counts[r] : least;
      most = counts[r] > most ? counts[r] : most;
    }
    for (int a = 1; a < 1 << c.size(); a++) {
      int r = __builtin_ctz(a), rest = a & (a - 1);
      converse[a] = converse[rest] | 1 << c.converses[r];
      weight[a] = weight[rest] + 1 + 3 * (counts[r] - least) / (most - least);
    }
  }
  // A table over sets of base relations from `first` on and sets of those from `second` on: each entry
  // from those of smaller sets.
  static void fill(Set *table, int bits, const Calculus &c, int first, int second) {
    for (int a = 1; a < 1 << bits; a++) {
      int rest = a & (a - 1), r = first + __builtin_ctz(a);
      Set *row = table + (a << bits), *of_rest = table + (rest << bits), *of_least = table + ((a ^ rest) << bits);
      for (int b = 1; b < 1 << bits; b++)
        row[b] = rest ? of_rest[b] | of_least[b] : row[b & (b - 1)] | c.composition(r, second + __builtin_ctz(b));
    }
  }
};

// Up to 8 base relations: one table.
struct Bytes : Sets<uint8_t, 8> {
  static inline Set composed[1 << 16];
  static void make(const Calculus &c) { Sets::make(c), fill(composed, 8, c, 0, 0); }
  static const Set *row(Set a) { return composed + (a << 8); }
};

// Up to 14 base relations: a table for each pair of halves.
struct Halves : Sets<uint16_t, 14> {
  static inline Set composed[2][2][1 << 14];
  static void make(const Calculus &c) {
    Sets::make(c);
    for (int h = 0; h < 4; h++) fill(composed[h / 2][h % 2], 7, c, 7 * (h / 2), 7 * (h % 2));
  }
  struct Row {
    const Set *low_low, *low_high, *high_low, *high_high;
    Set operator[](Set b) const { return low_low[b & 127] | low_high[b >> 7] | high_low[b & 127] | high_high[b >> 7]; }
  };
  static Row row(Set a) {
    int low = (a & 127) << 7, high = a >> 7 << 7;
    return {composed[0][0] + low, composed[0][1] + low, composed[1][0] + high, composed[1][1] + high};
  }
};

// Edges by weight. An edge that was put into a lighter bucket since is passed over where it stood before.
struct Queue {
  std::vector<int> buckets[64];
  std::vector<uint8_t> bucket_of;
  int lightest = 64;
  explicit Queue(int edges) : bucket_of(edges, 0) {}
  void push(int edge, int heavy) {
    if (bucket_of[edge] && bucket_of[edge] - 1 <= heavy) return;
    bucket_of[edge] = heavy + 1;
    buckets[heavy].push_back(edge);
    if (heavy < lightest) lightest = heavy;
  }
  int pop() {
    for (; lightest < 64; lightest++)
      while (!buckets[lightest].empty()) {
        int edge = buckets[lightest].back();
        buckets[lightest].pop_back();
        if (bucket_of[edge] == lightest + 1) return bucket_of[edge] = 0, edge;
      }
    return -1;
  }
  void clear() {
    for (; lightest < 64; lightest++) {
      for (int edge : buckets[lightest]) bucket_of[edge] = 0;
      buckets[lightest].clear();
    }
  }
};

// A network over the sets of Bytes or Halves. With a trail it keeps what stood before each change, of the edge i < j.
template <class Tables, bool TRAIL> struct Network {
  using Set = typename Tables::Set;
  struct Change {
    uint8_t i, j;
    Set before;
  };
  int n;
  Set all;
  std::vector<Set> sets;
  Queue queue;
  std::vector<Change> trail;
  Network(int n, const Calculus &c) : n(n), all((1 << c.size()) - 1), sets(n * n, all), queue(n * n) {
    for (int i = 0; i < n; i++) sets[i * n + i] = 1 << c.identity;
  }
  void set(int i, int j, Set a) { sets[i * n + j] = a, sets[j * n + i] = Tables::converse[a]; }
  void narrow(int i, int j, Set a) {
    if (TRAIL) {
      int least = i < j ? i : j, most = i ^ j ^ least;
      trail.push_back({uint8_t(least), uint8_t(most), sets[least * n + most]});
    }
    set(i, j, a), push(i, j);
  }
  void push(int i, int j) {
    if (i > j) std::swap(i, j);
    queue.push(i * n + j, Tables::weight[sets[i * n + j]]);
  }
  // Queues the edges that tell something. False where a set is empty.
  bool push_all() {
    bool whole = true;
    for (int i = 0; i < n; i++)
      for (int j = i + 1; j < n; j++) {
        whole = whole && sets[i * n + j];
        if (sets[i * n + j] != all) push(i, j);
      }
    return whole;
  }
  // False where a set becomes empty; the queue may have edges left then.
  bool close() {
    for (int edge; (edge = queue.pop()) >= 0;) {
      int i = edge / n, j = edge % n;
      Set *from_i = &sets[i * n], *from_j = &sets[j * n];
      const auto forward = Tables::row(from_i[j]), backward = Tables::row(from_j[i]);
      for (int k = 0; k < n; k++) {
        Set narrowed = from_i[k] & forward[from_j[k]];
        if (narrowed != from_i[k]) {
          if (!narrowed) return false;
          narrow(i, k, narrowed);
        }
        narrowed = from_j[k] & backward[from_i[k]];
        if (narrowed != from_j[k]) {
          if (!narrowed) return false;
          narrow(j, k, narrowed);
        }
      }
    }
    return true;
  }
};

// The bytes of a file, and a zero after them.
static std::vector<char> read_all(FILE *file) {
  std::vector<char> text(1 << 16);
  size_t held = 0;
  while (size_t more = fread(text.data() + held, 1, text.size() - held, file))
    if ((held += more) == text.size()) text.resize(2 * held);
  text.resize(held);
  text.push_back(0);
  return text;
}

static int number(const char *&at) {
  while (*at == ' ') at++;
  int value = 0;
  for (; *at >= '0' && *at <= '9'; at++) value = 10 * value + (*at - '0');
  return value;
}

static int set_of_names(const char *&at, const Calculus &c) {
  int a = 0;
  while (*at == ' ' || *at == '(') at++;
  while (*at != ')') {
    const char *end = at;
    while (*end != ' ') end++;
    for (int r = 0; r < c.size(); r++)
      if (!strncmp(c.names[r].c_str(), at, end - at) && !c.names[r][end - at]) a |= 1 << r;
    for (at = end; *at == ' ';) at++;
  }
  return a;
}

template <class Net> static Net read_network(const Calculus &c) {
  std::vector<char> text = read_all(stdin);
  const char *at = text.data() + 6;
  Net net(number(at), c);
  while (*++at != '.') {
    int i = number(at), j = number(at);
    net.set(i, j, net.sets[i * net.n + j] & set_of_names(at, c));
    at++;
  }
  return net;
}

static char *print(char *out, int value) {
  char digits[8];
  int count = 0;
  do digits[count++] = '0' + value % 10;
  while (value /= 10);
  while (count) *out++ = digits[--count];
  return out;
}

template <class Net> static void write_network(const Net &net, const Calculus &c) {
  struct Word {
    char text[40];
    size_t length;
  };
  std::vector<Word> words(net.all + 1);  // made where they are needed
  std::vector<char> held(64 + 64 * (size_t)net.n * net.n);
  char *out = held.data();
  memcpy(out, "nodes ", 6), out = print(out + 6, net.n), *out++ = '\n';
  for (int i = 0; i < net.n; i++)
    for (int j = i + 1; j < net.n; j++) {
      out = print(out, i), *out++ = ' ', out = print(out, j);
      int a = net.sets[i * net.n + j];
      Word &word = words[a];
      if (!word.length) {
        strcpy(word.text, " ( ");
        for (int r = 0; r < c.size(); r++)
          if (a >> r & 1) strcat(word.text, c.names[r].c_str()), strcat(word.text, " ");
        word.length = strlen(strcat(word.text, ")\n"));
      }
      memcpy(out, word.text, 40), out += word.length;
    }
  memcpy(out, ".\n", 2), out += 2;
  fwrite(held.data(), 1, out - held.data(), stdout);
}
