// How many operations a march needs at least, by a search of all shorter ones. A tool of measure: `bench/bounds` builds
// it (g++ -O2 -std=c++17) and gives it the masks of the model of `vidlakost design`.
//
// Each instance, with its aggressors holding 0 at first, is an automaton over steps: operations, and the borders of
// elements. It is made as small as it can be. Groups of up to eight automata are multiplied out. For each state of a
// group it is known how many reads, writes of the held bit and writes of the other bit, and of each union of these, are
// still needed at least; the bound of a state is the best sum over a partition of the three. A search breadth-first
// over the product of the groups leaves out what cannot end within the limit. Where its march leaves other instances,
// some of them make up further groups, and the search begins anew. Fewer instances and fewer contents ask for less, so
// what is shown holds of the whole list.
//
// usage: bounds MASKS UPPER FIRST GROUP..    a group is the numbers of its instances, with commas between them
#include <algorithm>
#include <array>
#include <cstdint>
#include <cstdio>
#include <cstdlib>
#include <cstring>
#include <deque>
#include <map>
#include <random>
#include <sstream>
#include <string>
#include <unordered_map>
#include <vector>

using std::array;
using std::vector;

// steps: w0, w1, r in the element; its end; then twelve that begin an element: (down, what it leaves, operation)
constexpr int kSteps = 16, kRead = 2, kClose = 3, kOpen = 4, kNone = -1;
// places: between elements (0, 1: what cells hold); in an element (down, held before, left at its end, held now); the
// start
constexpr int kInside = 2, kStart = 18;
constexpr uint32_t kNever = ~0u;
constexpr uint8_t kFar = 255;
constexpr size_t kGroupStates = 80000, kVisited = 90000000, kGroups = 10, kInGroup = 8;
constexpr int kMore = 4;

int inside(int down, int before, int end, int now) { return kInside + down * 8 + before * 4 + end * 2 + now; }

struct Opening {
  int operation, end, down;
  explicit Opening(int step) : operation((step - kOpen) % 3), end((step - kOpen) / 3 & 1), down((step - kOpen) / 6) {}
};

// The place behind a step; kNone where it cannot be taken.
int place_behind(int place, int step) {
  if (place < kInside || place == kStart) {
    if (step < kOpen) return kNone;
    Opening opening(step);
    if (place == kStart && opening.operation == kRead) return kNone;
    int before = place == kStart ? 0 : place;
    return inside(opening.down, before, opening.end, opening.operation < kRead ? opening.operation : before);
  }
  if (step > kClose) return kNone;
  int now = (place - kInside) & 1, end = (place - kInside) >> 1 & 1;
  if (step == kClose) return now == end ? now : kNone;
  return kInside + ((place - kInside) & ~1) + (step < kRead ? step : now);
}

// The kind of a step: a read (0), a write of the held bit (1) or of the other one (2), the first write (3), none
// (kNone).
int kind_of(int place, int step) {
  if (step == kClose) return kNone;
  if (place == kStart) return 3;
  int operation = step < kOpen ? step : Opening(step).operation;
  int now = place < kInside ? place : (place - kInside) & 1;
  if (operation == kRead) return 0;
  return operation == now ? 1 : 2;
}

// What the model says: of each cell, order, content and operation, in which states an instance is left.
struct Masks {
  int instances = 0, cells = 0, words = 0;
  vector<vector<uint64_t>> rows;

  bool read(const char* name) {
    FILE* file = fopen(name, "rb");
    int states = 0, count = 0;
    if (!file) return false;
    if (fscanf(file, "%d %d %d %d %d", &instances, &states, &cells, &words, &count) != 5 || states != 2) return false;
    fgetc(file);
    rows.assign(count, vector<uint64_t>(words));
    bool whole = true;
    for (auto& row : rows) whole = whole && fread(row.data(), 8, words, file) == size_t(words);
    fclose(file);
    return whole;
  }
  bool is_set(int row, int instance) const { return rows[row][instance >> 6] >> (instance & 63) & 1; }
  int row(int cell, int down, int before, int now, int end, int operation) const {
    return (((((cell * 2 + down) * 4 + before) * 3 + now) * 2 + end) * 3 + operation) * 4;
  }
  int starts() const { return cells * 2 * 4 * 3 * 2 * 3 * 4; }
};

struct Automaton {
  vector<array<uint8_t, kSteps>> next;
  vector<uint8_t> place, ends;
  int start = 0;

  bool covers(const vector<int>& steps) const {
    uint8_t state = start;
    for (int step : steps) state = next[state][step];
    return ends[state];
  }
};

// Makes the automaton of an instance. What may be true of it is a number: two bits for the victim's content at the
// first cell that is visited, then four bits for each further cell: the content behind it by the content before it.
class Builder {
 public:
  Builder(const Masks& masks, int instance) : masks_(masks), instance_(instance) {
    int row = masks_.starts();
    number(kStart, masks_.is_set(row, instance) | masks_.is_set(row + 1, instance) << 1);
    for (size_t at = 0; at < states_.size(); at++) {
      array<int, kSteps> row_of;
      row_of.fill(kNone);
      auto [place, held] = states_[at];
      for (int step = 0; step < kSteps; step++) {
        int behind = place_behind(place, step);
        if (behind != kNone) row_of[step] = number(behind, held_behind(place, held, step));
      }
      next_.push_back(row_of);
    }
  }

  // The same with as few states as can be.
  Automaton smallest() const {
    size_t count = states_.size();
    vector<int> classes(count);
    for (size_t at = 0; at < count; at++) classes[at] = states_[at].first * 2 + is_end(at);
    for (size_t before = 0;;) {
      std::map<vector<int>, int> known;
      vector<int> finer(count);
      for (size_t at = 0; at < count; at++) {
        vector<int> key = {classes[at]};
        for (int behind : next_[at]) key.push_back(behind < 0 ? kNone : classes[behind]);
        finer[at] = known.emplace(key, int(known.size())).first->second;
      }
      classes = finer;
      if (known.size() == before) break;
      before = known.size();
    }
    return joined(classes);
  }

 private:
  const Masks& masks_;
  int instance_;
  std::map<std::pair<int, int>, int> numbers_;
  vector<std::pair<int, int>> states_;
  vector<array<int, kSteps>> next_;

  bool is_end(size_t at) const { return states_[at].first < kInside && states_[at].second == 0; }

  int number(int place, int held) {
    auto found = numbers_.emplace(std::make_pair(place, held), int(states_.size()));
    if (found.second) states_.push_back({place, held});
    return found.first->second;
  }

  int held_behind(int place, int held, int step) const {
    if (step == kClose) return closed(held);
    if (step < kOpen) return operated(place - kInside, held, step);
    Opening opening(step);
    int before = place == kStart ? 0 : place, begun = held & 3;
    // the further cells leave each content as it is, before they are visited
    for (int cell = 1; cell < masks_.cells; cell++) begun |= 9 << (2 + 4 * (cell - 1));
    return operated(inside(opening.down, before, opening.end, before) - kInside, begun, opening.operation);
  }

  int operated(int place, int held, int operation) const {
    int now = place & 1, end = place >> 1 & 1, before = (place >> 2 & 1) * 3, down = place >> 3, made = 0;
    for (int visited = 0; visited < masks_.cells; visited++) {
      int cell = down ? masks_.cells - 1 - visited : visited;
      int row = masks_.row(cell, down, before, now, end, operation);
      bool to[2][2];
      for (int from = 0; from < 4; from++) to[from >> 1][from & 1] = masks_.is_set(row + from, instance_);
      int shift = visited ? 2 + 4 * (visited - 1) : 0;
      for (int origin = 0; origin < (visited ? 2 : 1); origin++)
        for (int from = 0; from < 2; from++)
          for (int behind = 0; behind < 2; behind++)
            if (held >> (shift + 2 * origin + from) & 1 && to[from][behind]) made |= 1 << (shift + 2 * origin + behind);
    }
    return made;
  }

  int closed(int held) const {
    int left = held & 3;
    for (int cell = 1; cell < masks_.cells; cell++) {
      int table = held >> (2 + 4 * (cell - 1)) & 15, behind = 0;
      for (int from = 0; from < 2; from++)
        if (left >> from & 1) behind |= table >> (2 * from) & 3;
      left = behind;
    }
    return left;
  }

  Automaton joined(const vector<int>& classes) const {
    int count = *std::max_element(classes.begin(), classes.end()) + 1;
    if (count > 255) {
      fprintf(stderr, "an automaton has %d states, and 255 is the most\n", count);
      exit(3);
    }
    Automaton made;
    made.next.resize(count);
    made.place.assign(count, 0);
    made.ends.assign(count, 0);
    made.start = classes[0];
    for (size_t at = 0; at < states_.size(); at++) {
      int one = classes[at];
      made.place[one] = states_[at].first;
      made.ends[one] = is_end(at);
      for (int step = 0; step < kSteps; step++)
        made.next[one][step] = next_[at][step] < 0 ? 255 : classes[next_[at][step]];
    }
    return made;
  }
};

vector<Automaton> automata;

// Some instances together. `least` has for each state and each set of kinds how many such steps are needed at least.
struct Group {
  vector<int> chosen;
  vector<array<uint32_t, kSteps>> next;
  vector<uint8_t> place, ends;
  vector<array<uint8_t, 8>> least;

  // Multiplies the automata out; false where that gives too many states.
  bool multiply(size_t most) {
    if (chosen.size() > kInGroup) return false;
    std::unordered_map<uint64_t, uint32_t> numbers;
    vector<uint64_t> states(1, 0);
    for (size_t at = 0; at < chosen.size(); at++) states[0] |= uint64_t(automata[chosen[at]].start) << 8 * at;
    numbers[states[0]] = 0;
    next.clear(), place.clear(), ends.clear();
    for (size_t number = 0; number < states.size(); number++) {
      uint64_t state = states[number];
      place.push_back(automata[chosen[0]].place[uint8_t(state)]);
      bool is_end = true;
      for (size_t at = 0; at < chosen.size(); at++)
        is_end = is_end && automata[chosen[at]].ends[uint8_t(state >> 8 * at)];
      ends.push_back(is_end);
      array<uint32_t, kSteps> row;
      row.fill(kNever);
      for (int step = 0; step < kSteps; step++) {
        if (place_behind(place.back(), step) == kNone) continue;
        uint64_t behind = 0;
        for (size_t at = 0; at < chosen.size(); at++)
          behind |= uint64_t(automata[chosen[at]].next[uint8_t(state >> 8 * at)][step]) << 8 * at;
        auto found = numbers.emplace(behind, uint32_t(states.size()));
        if (found.second) states.push_back(behind);
        row[step] = found.first->second;
      }
      next.push_back(row);
      if (states.size() > most) return false;
    }
    least.assign(next.size(), {});
    return true;
  }

  void measure(int kinds) {
    vector<vector<std::pair<uint32_t, uint8_t>>> back(next.size());
    for (size_t at = 0; at < next.size(); at++)
      for (int step = 0; step < kSteps; step++) {
        if (next[at][step] == kNever) continue;
        int kind = kind_of(place[at], step);
        back[next[at][step]].push_back({uint32_t(at), uint8_t(kind < 0 || kind > 2 ? 0 : kinds >> kind & 1)});
      }
    for (auto& row : least) row[kinds] = kFar;
    std::deque<uint32_t> todo;
    for (size_t at = 0; at < next.size(); at++)
      if (ends[at]) least[at][kinds] = 0, todo.push_back(at);
    while (!todo.empty()) {
      uint32_t at = todo.front();
      todo.pop_front();
      for (auto [one, weight] : back[at])
        if (least[one][kinds] > least[at][kinds] + weight) {
          least[one][kinds] = least[at][kinds] + weight;
          weight ? todo.push_back(one) : todo.push_front(one);
        }
    }
  }

  void measure_all() {
    for (int kinds = 1; kinds < 8; kinds++) measure(kinds);
  }

  double hardness() const {
    double sum = 0;
    for (auto& row : least) sum += row[7];
    return least[0][7] + sum / least.size() / 100;
  }
};

struct Key {
  array<uint32_t, kGroups> digits{};
  bool operator==(const Key& other) const { return digits == other.digits; }
  size_t hash() const {
    uint64_t made = 0;
    for (uint32_t digit : digits) made = (made ^ digit) * 0x9E3779B97F4A7C15ull, made ^= made >> 29;
    return made;
  }
};

// A search over the product of the groups.
class Search {
 public:
  explicit Search(const vector<Group>& groups) : groups_(groups), table_(size_t(1) << 22, kNever) {}

  // The length of a shortest march of at most `most` operations, whose steps are `steps` then; most + 1 where there is
  // none; kNone where the search would visit too much.
  int run(int most, vector<int>& steps) {
    vector<uint32_t> layer = {put(Key(), kNever, 0)}, longer;
    for (int operations = 0; operations <= most && !layer.empty(); operations++) {
      for (size_t at = 0; at < layer.size(); at++) {
        Key key = keys_[layer[at]];
        int place = groups_[0].place[key.digits[0]];
        if (is_end(key)) return unwind(layer[at], steps), operations;
        for (int step = 0; step < kSteps; step++) {
          if (place_behind(place, step) == kNone) continue;
          Key behind;
          for (size_t group = 0; group < groups_.size(); group++)
            behind.digits[group] = groups_[group].next[key.digits[group]][step];
          int weight = step != kClose;
          if (operations + weight + needed(behind) > most) continue;
          uint32_t made = put(behind, layer[at], step);
          if (made != kNever) (weight ? longer : layer).push_back(made);
        }
      }
      if (keys_.size() > kVisited) return kNone;
      layer.swap(longer);
      longer.clear();
    }
    return most + 1;
  }
  size_t visited() const { return keys_.size(); }

 private:
  const vector<Group>& groups_;
  vector<Key> keys_;
  vector<uint32_t> from_, table_;
  vector<uint8_t> step_;

  bool is_end(const Key& key) const {
    for (size_t group = 0; group < groups_.size(); group++)
      if (!groups_[group].ends[key.digits[group]]) return false;
    return true;
  }

  int needed(const Key& key) const {
    int most[8] = {0};
    for (size_t group = 0; group < groups_.size(); group++)
      for (int kinds = 1; kinds < 8; kinds++)
        most[kinds] = std::max(most[kinds], int(groups_[group].least[key.digits[group]][kinds]));
    return std::max({most[7], most[1] + most[2] + most[4], most[1] + most[6], most[2] + most[5], most[4] + most[3]});
  }

  size_t slot(const Key& key) const {
    size_t at = key.hash() & (table_.size() - 1);
    while (table_[at] != kNever && !(keys_[table_[at]] == key)) at = (at + 1) & (table_.size() - 1);
    return at;
  }

  // The number of a state that is new; kNever of one that was visited.
  uint32_t put(const Key& key, uint32_t from, int step) {
    if (keys_.size() * 2 > table_.size()) {
      table_.assign(table_.size() * 2, kNever);
      for (uint32_t at = 0; at < keys_.size(); at++) table_[slot(keys_[at])] = at;
    }
    size_t at = slot(key);
    if (table_[at] != kNever) return kNever;
    table_[at] = keys_.size();
    keys_.push_back(key), from_.push_back(from), step_.push_back(step);
    return table_[at];
  }

  void unwind(uint32_t at, vector<int>& steps) const {
    steps.clear();
    for (; from_[at] != kNever; at = from_[at]) steps.push_back(step_[at]);
    std::reverse(steps.begin(), steps.end());
  }
};

// The instances that a march leaves.
vector<int> escapes(const vector<int>& steps) {
  vector<int> made;
  for (size_t at = 0; at < automata.size(); at++)
    if (!automata[at].covers(steps)) made.push_back(at);
  return made;
}

// Takes one of the escaping instances, the hardest of a few: into the last group if that was made here, or into a new
// one.
bool grow(vector<Group>& groups, const vector<int>& left, bool& is_own, std::mt19937& chance) {
  Group best;
  for (int tried = 0; tried < 16; tried++) {
    Group one;
    if (is_own) one.chosen = groups.back().chosen;
    int instance = left[chance() % left.size()];
    if (std::find(one.chosen.begin(), one.chosen.end(), instance) != one.chosen.end()) continue;
    one.chosen.push_back(instance);
    if (!one.multiply(kGroupStates)) continue;
    one.measure(7);
    if (best.chosen.empty() || one.hardness() > best.hardness()) best = one;
  }
  if (is_own && !best.chosen.empty()) {
    groups.back() = best;
  } else {
    if (groups.size() == kGroups) return false;
    if (best.chosen.empty()) {
      best.chosen = {left[chance() % left.size()]};
      best.multiply(kGroupStates);
    }
    groups.push_back(best);
    is_own = true;
  }
  groups.back().measure_all();
  return true;
}

// The groups of a call.
vector<Group> groups_of(int count, char** words) {
  vector<Group> groups;
  for (int at = 0; at < count; at++) {
    Group group;
    std::stringstream text(words[at]);
    for (std::string number; getline(text, number, ',');) group.chosen.push_back(atoi(number.c_str()));
    group.multiply(400000);
    group.measure_all();
    groups.push_back(group);
  }
  return groups;
}

int main(int count, char** words) {
  setvbuf(stdout, nullptr, _IOLBF, 0);
  Masks masks;
  if (count < 5 || !masks.read(words[1])) return 2;
  for (int instance = 0; instance < masks.instances; instance++)
    automata.push_back(Builder(masks, instance).smallest());
  vector<Group> groups = groups_of(count - 4, words + 4);
  std::mt19937 chance(2);
  bool is_own = false;
  for (int limit = atoi(words[3]), upper = atoi(words[2]);;) {
    vector<int> steps;
    Search search(groups);
    int found = search.run(limit, steps);
    printf("limit %d: %zu states of %zu groups\n", limit, search.visited(), groups.size());
    if (found == kNone) return 1;
    if (found > limit) {
      printf("at least %dn\n", found);
      if (limit++ >= upper) return 0;
      continue;
    }
    vector<int> left = escapes(steps);
    if (left.empty()) return printf("%dn cover all of it, where aggressors hold 0 at first\n", found), 0;
    for (int more = 0; more < kMore; more++) {
      if (!grow(groups, left, is_own, chance)) return 1;
    }
  }
}
