// Serves sessions over RCC-8 on one thread, by the field's methods, plainly: the rival of serving.py. It takes good scripts alone.
//
// The lines of a batch are worked off one after another. A version starts from the words of the one before, and is closed from the
// edges that the new facts narrowed; after a withdrawal it is closed anew from the facts that stand.
#include <deque>
#include <map>

#include "plain_network.hpp"

using Words = Network<Bytes, false>;

struct Fact {
  int i, j, set;
};

struct Line {
  std::string session;
  char kind;  // the first letter of the command
  int version, i, j, value;
};

// A network whose sets are empty, where one of them became empty.
static void close(Words &net, bool whole) {
  if (whole && net.close()) return;
  net.queue.clear();
  if (net.n > 2) std::fill(net.sets.begin(), net.sets.end(), 0);
}

static bool state(Words &net, const Fact &fact) {
  int narrowed = net.sets[fact.i * net.n + fact.j] & fact.set;
  if (narrowed != net.sets[fact.i * net.n + fact.j]) net.narrow(fact.i, fact.j, narrowed);
  return narrowed;
}

static std::string set_text(int set, const Calculus &c) {
  std::string text = "( ";
  for (int r = 0; r < c.size(); r++)
    if (set >> r & 1) text += c.names[r] + " ";
  return text + ")\n";
}

// The words of a line, or a commit.
static bool read_line(const char *&at, Line &line, const Calculus &c) {
  const char *end = at;
  while (*end != ' ' && *end != '\n') end++;
  line.session.assign(at, end);
  at = end;
  if (*at == '\n') return at++, false;
  line.kind = *++at, line.version = -1;
  while (*at >= 'a' && *at <= 'z') at++;
  line.i = number(at);
  if (line.kind != 'w') line.j = number(at);
  if (line.kind == 'a' && *at == ' ') {
    const char *rest = at;
    while (*rest == ' ') rest++;
    if (*rest == '(') line.kind = 's', line.value = set_of_names(at, c), at++;
    else line.version = line.i, line.i = line.j, line.j = number(at);
  }
  while (*at++ != '\n') {}
  return true;
}

int main(int, char **words) {
  Calculus c = rcc8();
  Bytes::make(c);
  int nodes = atoi(words[1]), next = 1, newest = 0;
  std::map<int, Fact> facts;
  std::deque<Words> versions{Words(nodes, c)};
  std::vector<char> text = read_all(stdin);
  std::vector<Line> lines;
  std::string out;
  for (const char *at = text.data(); *at;) {
    Line line;
    if (read_line(at, line, c)) {
      lines.push_back(line);
      continue;
    }
    bool withdrawn = false, whole = true;
    for (Line &w : lines)
      if (w.kind == 'w') w.value = facts.erase(w.i), withdrawn |= w.value;
    Words net = withdrawn ? Words(nodes, c) : versions.back();
    if (withdrawn)
      for (auto &held : facts) whole &= state(net, held.second);
    newest++;
    for (Line &l : lines) {
      if (l.kind == 's') whole &= state(net, facts[next] = {l.i, l.j, l.value}), l.value = next++;
      if (l.kind == 'p') l.value = net.sets[l.i * nodes + l.j];
    }
    close(net, whole);
    versions.push_back(net);
    if (versions.size() > 16) versions.pop_front();
    for (const Line &l : lines) {
      int version = l.version < 0 ? newest : l.version;
      if (l.kind == 's') out += l.session + " fact " + std::to_string(l.value) + "\n";
      if (l.kind == 'p') out += l.session + " peek " + set_text(l.value, c);
      if (l.kind == 'w') out += l.session + " withdrawn " + std::to_string(l.i) + "\n";
      if (l.kind == 'a') {
        const Words &asked = versions[versions.size() - 1 - (newest - version)];
        out += l.session + " ask " + std::to_string(version) + " " + set_text(asked.sets[l.i * nodes + l.j], c);
      }
    }
    bool empty = false;
    for (int i = 0; i < nodes; i++)
      for (int j = i + 1; j < nodes; j++) empty |= !net.sets[i * nodes + j];
    out += "version " + std::to_string(newest) + (empty ? " empty\n" : " closed\n");
    fwrite(out.data(), 1, out.size(), stdout);
    out.clear(), lines.clear();
  }
}
