// Parallel Left-to-Right over a max-flow library: LEMON's preflow, asked for every
// question, with the longest runs found by bisection.
//
// Standard input: for each sheet its length in four bytes, the lowest first, and its
// bytes; every sheet is well-formed. Standard output, for each: nanoseconds of processor time until the
// counts are known, nanoseconds in all (eight bytes each), the length of the listing
// (four bytes) and the listing.
#include <lemon/preflow.h>
#include <lemon/smart_graph.h>

#include <algorithm>
#include <cstdint>
#include <cstdio>
#include <cstdlib>
#include <ctime>
#include <string>
#include <vector>

namespace {

using lemon::SmartDigraph;
using Arc = SmartDigraph::Arc;
using Node = SmartDigraph::Node;
using Capacities = SmartDigraph::ArcMap<int>;
using Flow = lemon::Preflow<SmartDigraph, Capacities>;

struct Ration {
  int tank, first, last, volume;
};

struct Sheet {
  int slots, blowers, wake;
  std::vector<Ration> rations;
};

// Columns of a field, and bytes of a line: four fields and byte 10.
constexpr int width = 6, line_bytes = 4 * width + 1;

int field(const char* at) { return std::atoi(std::string(at, width).c_str()); }

Sheet read(const std::string& bytes) {
  auto number = [&](int line, int column) { return field(bytes.data() + line_bytes * line + width * column); };
  Sheet sheet{number(0, 0), number(0, 1), number(0, 2), {}};
  for (int line = 1; line <= number(0, 3); line++)
    sheet.rations.push_back({number(line, 0), number(line, 1) - 1, number(line, 2) - 1, number(line, 3)});
  return sheet;
}

// Whether a sound placing exists under bounds: a unit goes from the source to a ration, to a
// slot of its window, and to the sink, at once up to the slot's low, else through a common node
// whose arc leaves the lows their part.
class Question {
 public:
  explicit Question(const Sheet& sheet) : capacity(graph), sheet(sheet) {
    source = graph.addNode();
    sink = graph.addNode();
    common = graph.addNode();
    std::vector<Node> slots;
    for (int t = 0; t < sheet.slots; t++) slots.push_back(graph.addNode());
    for (const Ration& ration : sheet.rations) {
      Node node = graph.addNode();
      capacity[graph.addArc(source, node)] = ration.volume;
      for (int t = ration.first; t <= ration.last; t++) capacity[graph.addArc(node, slots[t])] = 1;
      volume += ration.volume;
    }
    for (int t = 0; t < sheet.slots; t++) {
      must.push_back(graph.addArc(slots[t], sink));
      may.push_back(graph.addArc(slots[t], common));
    }
    rest = graph.addArc(common, sink);
  }

  bool feasible(const std::vector<int>& low, const std::vector<int>& high) {
    int lows = 0;
    for (int t = 0; t < sheet.slots; t++) {
      if (low[t] > high[t]) return false;
      capacity[must[t]] = low[t];
      capacity[may[t]] = high[t] - low[t];
      lows += low[t];
    }
    if (lows > volume) return false;
    capacity[rest] = volume - lows;
    Flow flow(graph, capacity, source, sink);
    flow.init();
    flow.startFirstPhase();
    return flow.flowValue() == volume;
  }

 private:
  SmartDigraph graph;
  Capacities capacity;
  Node source, sink, common;
  std::vector<Arc> must, may;
  Arc rest;
  const Sheet& sheet;
  int volume = 0;
};

// The greatest length up to `most` that passes; every shorter one passes too.
template <typename Passes>
int longest(int most, Passes passes) {
  int good = 0, bad = most + 1;
  for (int step = 1; good + step < bad; step *= 2) {
    if (!passes(good + step)) {
      bad = good + step;
      break;
    }
    good += step;
  }
  while (bad - good > 1) {
    int middle = (good + bad) / 2;
    (passes(middle) ? good : bad) = middle;
  }
  return good;
}

// The count of each slot; empty where the sheet has no sound placing.
std::vector<int> counts(const Sheet& sheet) {
  Question question(sheet);
  std::vector<int> low(sheet.slots, 0), high(sheet.slots, sheet.blowers);
  if (!question.feasible(low, high)) return {};
  for (int k = sheet.blowers; k > 0; k--) {
    bool busy = false;
    for (int t = 0; t < sheet.slots; busy = !busy) {
      auto& bound = busy ? low : high;
      const std::vector<int> before = bound;
      auto set = [&](int length) {
        bound = before;
        for (int s = t; s < t + length; s++) bound[s] = busy ? std::max(before[s], k) : k - 1;
      };
      int run = longest(sheet.slots - t, [&](int length) {
        set(length);
        return question.feasible(low, high);
      });
      set(run);
      t += run;
    }
  }
  return low;
}

// The feedings with these counts: for each slot, the rations fed. A placing of what is left is
// kept, and where it does not feed a cell the flow is asked, from that placing on.
std::vector<std::vector<int>> feedings(const Sheet& sheet, std::vector<int> left) {
  const int n = sheet.rations.size();
  SmartDigraph graph;
  Capacities capacity(graph), known(graph);
  Node source = graph.addNode(), sink = graph.addNode();
  std::vector<Node> slots;
  std::vector<Arc> owed, full;
  std::vector<std::vector<Arc>> cell(n, std::vector<Arc>(sheet.slots, lemon::INVALID));
  for (int t = 0; t < sheet.slots; t++) slots.push_back(graph.addNode());
  for (int i = 0; i < n; i++) {
    const Ration& ration = sheet.rations[i];
    Node node = graph.addNode();
    owed.push_back(graph.addArc(source, node));
    capacity[owed[i]] = ration.volume;
    for (int t = ration.first; t <= ration.last; t++) {
      cell[i][t] = graph.addArc(node, slots[t]);
      capacity[cell[i][t]] = 1;
    }
  }
  int volume = 0;
  for (int t = 0; t < sheet.slots; t++) {
    full.push_back(graph.addArc(slots[t], sink));
    capacity[full[t]] = left[t];
    volume += left[t];
  }
  Flow first(graph, capacity, source, sink);
  first.run();
  for (SmartDigraph::ArcIt a(graph); a != lemon::INVALID; ++a) known[a] = first.flow(a);

  // Takes one feeding out of the placing of what is left, or puts one in.
  auto change = [&](Capacities& map, int i, int t, int by) {
    map[owed[i]] += by;
    map[cell[i][t]] += by;
    map[full[t]] += by;
  };
  std::vector<std::vector<int>> chosen(sheet.slots);
  for (int t = 0; t < sheet.slots; t++) {
    for (int i = 0; i < n; i++) {
      if (cell[i][t] == lemon::INVALID) continue;
      bool fed = known[cell[i][t]] == 1;
      if (fed) {
        change(known, i, t, -1);
        capacity[owed[i]]--;
        capacity[full[t]]--;
        volume--;
      } else if (capacity[owed[i]] > 0 && capacity[full[t]] > 0) {
        Capacities start(graph);
        for (SmartDigraph::ArcIt a(graph); a != lemon::INVALID; ++a) start[a] = known[a];
        for (int z = t + 1; z < sheet.slots; z++)
          if (cell[i][z] != lemon::INVALID && known[cell[i][z]] == 1) {
            change(start, i, z, -1);
            break;
          }
        for (int j = 0; j < n; j++)
          if (cell[j][t] != lemon::INVALID && known[cell[j][t]] == 1) {
            change(start, j, t, -1);
            break;
          }
        capacity[owed[i]]--;
        capacity[full[t]]--;
        capacity[cell[i][t]] = 0;
        Flow flow(graph, capacity, source, sink);
        flow.init(start);
        flow.startFirstPhase();
        fed = flow.flowValue() == volume - 1;
        if (fed) {
          flow.startSecondPhase();
          for (SmartDigraph::ArcIt a(graph); a != lemon::INVALID; ++a) known[a] = flow.flow(a);
          volume--;
        } else {
          capacity[owed[i]]++;
          capacity[full[t]]++;
        }
      }
      capacity[cell[i][t]] = 0;
      if (fed) chosen[t].push_back(i);
    }
  }
  return chosen;
}

// Tenths of a cent per energy unit in a slot, counted from 0.
int rate(int slot) {
  const int hour = slot / 4;
  return hour < 6 ? 18 : hour < 9 ? 31 : hour < 17 ? 24 : hour < 21 ? 36 : 22;
}

void put_line(std::string& text, int a, int b, int c, int d) {
  char line[line_bytes + 1];
  std::snprintf(line, sizeof line, "%*d%*d%*d%*d\n", width, a, width, b, width, c, width, d);
  text += line;
}

std::string listing(const Sheet& sheet, const std::vector<int>& counts,
                    const std::vector<std::vector<int>>& chosen) {
  std::string lines;
  int on = 0, starts = 0, stretches = 0, feeds = 0, tenths = 0;
  for (int k = 1; k <= sheet.blowers; k++) {
    int before = 0;
    for (int from = 0, to; from < sheet.slots; from = to, stretches++) {
      bool busy = counts[from] >= k;
      for (to = from; to < sheet.slots && (counts[to] >= k) == busy; to++) {
      }
      bool at_end = from == 0 || to == sheet.slots;
      int state = busy ? 2 : at_end || to - from >= sheet.wake ? 0 : 1;
      if (state) on += to - from;
      if (state && !before) {
        starts++;
        tenths += sheet.wake * rate(from);
      }
      for (int t = from; state && t < to; t++) tenths += rate(t);
      before = state;
      put_line(lines, k, from + 1, to, state);
    }
  }
  std::vector<int> parts(sheet.rations.size());
  for (int t = 0; t < sheet.slots; t++)
    for (size_t b = 0; b < chosen[t].size(); b++, feeds++) {
      int i = chosen[t][b];
      put_line(lines, t + 1, b + 1, sheet.rations[i].tank, ++parts[i]);
    }
  int cents = (tenths + 5) / 10;
  put_line(lines, cents / 100, cents % 100, 0, 0);
  std::string text = "PLAN\n";
  put_line(text, on + sheet.wake * starts, starts, stretches, feeds);
  return text + lines;
}

// Nanoseconds of this thread, so that other programs add nothing.
uint64_t processor_time() {
  timespec time;
  clock_gettime(CLOCK_THREAD_CPUTIME_ID, &time);
  return uint64_t(time.tv_sec) * 1000000000u + uint64_t(time.tv_nsec);
}

void put_number(uint64_t value, int bytes) {
  for (int i = 0; i < bytes; i++) std::putchar(int(value >> (8 * i) & 255));
}

}  // namespace

int main() {
  unsigned char head[4];
  while (std::fread(head, 1, 4, stdin) == 4) {
    std::string bytes(head[0] | head[1] << 8 | head[2] << 16 | head[3] << 24, ' ');
    if (std::fread(bytes.data(), 1, bytes.size(), stdin) != bytes.size()) return 1;
    uint64_t start = processor_time();
    Sheet sheet = read(bytes);
    std::vector<int> loads = counts(sheet);
    uint64_t counted = processor_time() - start;
    std::string text;
    if (!loads.empty()) text = listing(sheet, loads, feedings(sheet, loads));
    uint64_t whole = processor_time() - start;
    put_number(counted, 8);
    put_number(whole, 8);
    put_number(text.size(), 4);
    std::fwrite(text.data(), 1, text.size(), stdout);
  }
}
