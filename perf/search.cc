// The planner's search written by hand, for speed and without proofs: the same rounds, keys and counts as docs/RULES.md says, and the same report.
//
//   search [plain] STORE [REPEATS [BUDGET..]] < SHEET
//
// STORE is `bare`, `shelf:WORDS` (the shelf's space, with an index of hashes for looking up) or `scan:WORDS` (the same space, looked through from the front).
// With `plain` each row has its turn in every round and its trace in every key, as the rules say it. Without, a row is passed over while the sets of its voices
// are as they were when its last turn began: such a turn would change nothing, so that sets and counts are the same. Without budgets it is solved to its end.
#include <algorithm>
#include <cstdint>
#include <cstdio>
#include <cstdlib>
#include <cstring>
#include <string>
#include <vector>

using Set = uint64_t;

constexpr int most_voices = 80, most_rows = 120, most_members = 32;
constexpr int key_words = most_voices + 2 * most_rows;
constexpr size_t most_shelf_words = 65536;
constexpr uint64_t most_budget = 1000000;

// ---- sets

static inline int least(Set s) { return __builtin_ctzll(s); }
static inline int greatest(Set s) { return 63 - __builtin_clzll(s); }
static inline bool many(Set s) { return (s & (s - 1)) != 0; }
static inline bool fixed(Set s) { return s != 0 && !many(s); }
static inline Set up_to(int v) { return v >= 63 ? ~Set{0} : (Set{2} << v) - 1; }
static inline Set from(int v) { return v > 63 ? 0 : ~Set{0} << v; }

// Which rows, as a mask.
struct Rows {
    uint64_t low = 0, high = 0;
    void add(int row) { (row < 64 ? low : high) |= uint64_t{1} << (row & 63); }
    void add(const Rows &more) { low |= more.low, high |= more.high; }
};

// ---- the sheet

struct Row {
    char kind;
    // whether a second turn right after a first may change something
    bool again;
    int count, bound, index, result;
    uint8_t voice[most_members];
    int16_t argument[most_members];
};

struct Sheet {
    std::vector<Set> opening;
    std::vector<Row> rows;
};

static int body_length(char kind) { return kind == 'A' || kind == 'C' ? 1 : kind == 'L' ? 5 : kind == 'E' ? 3 : 0; }

static uint64_t low_first(const uint8_t *bytes, int count) {
    uint64_t n = 0;
    for (int i = count; i-- > 0;) n = n << 8 | bytes[i];
    return n;
}

// Whether a second turn may change something right after a first: where a voice can be fixed in the turn, or where two members share a voice.
static bool changes_twice(const Row &row) {
    if (row.kind == 'A') return true;
    if (row.kind == 'C') return false;
    if (row.kind == 'E') return row.index == row.result;
    bool seen[256] = {};
    for (int i = 0; i < row.count; i++) {
        if (seen[row.voice[i]]) return true;
        seen[row.voice[i]] = true;
    }
    return false;
}

// Reads the row at the front, of which `left` bytes are there; answers how long it is, or 0 where it is none.
static size_t read_row(const uint8_t *bytes, size_t left, Row &row) {
    row = {};
    row.kind = static_cast<char>(bytes[0]);
    size_t head = 1 + body_length(row.kind);
    if (head == 1 || left < head || bytes[1] < 1 || bytes[1] > most_members) return 0;
    row.count = bytes[1];
    if (left < head + 4 * row.count) return 0;
    if (row.kind == 'L') row.bound = static_cast<int32_t>(low_first(bytes + 2, 4));
    if (row.kind == 'E') row.index = bytes[2], row.result = bytes[3];
    for (int i = 0; i < row.count; i++) {
        const uint8_t *member = bytes + head + 4 * i;
        if (member[0] != 'M') return 0;
        row.voice[i] = member[1];
        row.argument[i] = static_cast<int16_t>(low_first(member + 2, 2));
    }
    row.again = changes_twice(row);
    return head + 4 * row.count;
}

static bool names_voices(const Row &row, size_t voices) {
    if (row.kind == 'E') return size_t(row.index) < voices && size_t(row.result) < voices;
    return std::all_of(row.voice, row.voice + row.count, [&](uint8_t v) { return v < voices; });
}

// Sheets come from perf/instances.py: what is faulty is refused, without saying where.
static bool read_sheet(const std::vector<uint8_t> &bytes, Sheet &sheet) {
    for (size_t at = 0; at < bytes.size();) {
        size_t left = bytes.size() - at;
        if (bytes[at] == 'Z') return left == 1;
        if (bytes[at] == 'V') {
            if (left < 9 || !sheet.rows.empty() || sheet.opening.size() == most_voices) return false;
            sheet.opening.push_back(low_first(&bytes[at + 1], 8));
            at += 9;
        } else {
            Row row;
            size_t length = read_row(&bytes[at], left, row);
            if (length == 0 || !names_voices(row, sheet.opening.size()) || sheet.rows.size() == most_rows) return false;
            sheet.rows.push_back(row);
            at += length;
        }
    }
    return false;
}

// ---- turns. `Sets` writes a narrowed set, and notes what has changed; a turn may stop once some set is empty, since the node is dead then.

struct Sets {
    Set *set;
    const Rows *rows_of;
    bool changed = false, dead = false;
    // the rows that are due: one of their voices' sets has changed
    Rows due;

    void put(int voice, Set narrowed) {
        if (set[voice] == narrowed) return;
        set[voice] = narrowed;
        changed = true;
        dead |= narrowed == 0;
        due.add(rows_of[voice]);
    }
};

// All different. A member with one value at its moment takes it, and no two take the same: the first pass takes out of each set what earlier members took, the
// second what later ones did.
static void turn_different(const Row &row, Sets &sets) {
    Set taken = 0;
    uint32_t takers = 0;
    for (int i = 0; i < row.count; i++) {
        Set s = sets.set[row.voice[i]] & ~taken;
        sets.put(row.voice[i], s);
        if (many(s)) continue;
        if (s == 0) return;
        taken |= s;
        takers |= uint32_t{1} << i;
    }
    if (taken == 0) return;
    for (int i = 0; i < row.count; i++)
        if (!(takers >> i & 1)) sets.put(row.voice[i], sets.set[row.voice[i]] & ~taken);
}

// Linear at most a bound. What is left of the bound beside the least sum is the slack: a member may be above its own least by so much.
static void turn_linear(const Row &row, Sets &sets) {
    int slack = row.bound, widest = 0;
    int low[most_members], high[most_members];
    for (int i = 0; i < row.count; i++) {
        Set s = sets.set[row.voice[i]];
        int a = row.argument[i];
        low[i] = least(s), high[i] = greatest(s);
        slack -= a * (a >= 0 ? low[i] : high[i]);
        widest = std::max(widest, std::abs(a) * (high[i] - low[i]));
    }
    if (slack < 0) {
        sets.changed = sets.dead = true;
        return;
    }
    if (widest <= slack) return;
    for (int i = 0; i < row.count; i++) {
        int a = row.argument[i];
        if (std::abs(a) * (high[i] - low[i]) <= slack) continue;
        Set keep = a > 0 ? up_to(low[i] + slack / a) : from(high[i] - slack / -a);
        sets.put(row.voice[i], sets.set[row.voice[i]] & keep);
    }
}

// The values that make a literal true.
static inline Set true_values(int argument) {
    Set value = Set{1} << (argument & 63);
    return argument < 64 ? value : ~value;
}

// Clause. Nothing is done once a second literal is found that is not refuted.
static void turn_clause(const Row &row, Sets &sets) {
    int only = -1;
    for (int i = 0; i < row.count; i++) {
        if (!(sets.set[row.voice[i]] & true_values(row.argument[i]))) continue;
        if (only >= 0) return;
        only = i;
    }
    if (only < 0)
        sets.put(row.voice[0], 0);
    else
        sets.put(row.voice[only], sets.set[row.voice[only]] & true_values(row.argument[only]));
}

// Element with constants: places whose entry is no result go, then results that are the entry of no place.
static void turn_element(const Row &row, Sets &sets) {
    Set places = 0, results = sets.set[row.result];
    for (Set left = sets.set[row.index] & up_to(row.count - 1); left; left &= left - 1) {
        int place = least(left);
        if (results >> row.argument[place] & 1) places |= Set{1} << place;
    }
    sets.put(row.index, places);
    Set entries = 0;
    for (Set left = sets.set[row.index]; left; left &= left - 1) entries |= Set{1} << row.argument[least(left)];
    sets.put(row.result, sets.set[row.result] & entries);
}

static inline void turn(const Row &row, Sets &sets) {
    switch (row.kind) {
    case 'A': return turn_different(row, sets);
    case 'L': return turn_linear(row, sets);
    case 'C': return turn_clause(row, sets);
    case 'E': return turn_element(row, sets);
    }
}

// ---- traces: a mark and a content, two words of the key

struct Trace {
    uint64_t mark, content;
};

constexpr Trace settled = {0, 0};

static Trace trace(const Row &row, const Set *set) {
    switch (row.kind) {
    case 'A': {
        Set taken = 0;
        bool all = true;
        for (int i = 0; i < row.count; i++) {
            Set s = set[row.voice[i]];
            if (many(s) || taken & s) all = false;
            if (!many(s)) taken |= s;
        }
        return all ? settled : Trace{1, taken};
    }
    case 'L': {
        int most = 0, sum = 0;
        for (int i = 0; i < row.count; i++) {
            Set s = set[row.voice[i]];
            int a = row.argument[i];
            int low = a * least(s), high = a * greatest(s);
            most += std::max(low, high);
            if (low == high && !many(s)) sum += low;
        }
        return most <= row.bound ? settled : Trace{1, uint64_t(sum + 4000000)};
    }
    case 'C':
        for (int i = 0; i < row.count; i++)
            if (!(set[row.voice[i]] & ~true_values(row.argument[i]))) return settled;
        return {1, 0};
    default: {
        Set places = set[row.index], results = set[row.result];
        int place = least(places);
        if (many(places)) return {1, many(results) ? 0 : uint64_t(least(results))};
        if (many(results)) return {1, place < row.count ? uint64_t(row.argument[place]) : 64};
        return place < row.count && row.argument[place] == least(results) ? settled : Trace{1, 0};
    }
    }
}

// ---- stores of keys, all of one length

struct Key {
    uint64_t word[key_words];
    uint64_t hash;
};

static uint64_t hash_of(const uint64_t *word, int length) {
    // four sums side by side, so that one multiplication need not wait for the other
    uint64_t sum[4] = {1, 2, 3, 4};
    constexpr uint64_t factor = 0x9E3779B97F4A7C15;
    int i = 0;
    for (; i + 4 <= length; i += 4)
        for (int j = 0; j < 4; j++) sum[j] = (sum[j] ^ word[i + j]) * factor, sum[j] ^= sum[j] >> 32;
    for (; i < length; i++) sum[0] = (sum[0] ^ word[i]) * factor, sum[0] ^= sum[0] >> 32;
    uint64_t all = 0;
    for (uint64_t s : sum) all = (all ^ s) * factor, all ^= all >> 29;
    return all;
}

struct Bare {
    static constexpr bool has_keys = false, hashes = false;
    Bare(size_t, int) {}
    void clear() {}
    bool find(const Key &) const { return false; }
    void keep(const Key &) {}
};

// The shelf's space: a key and one word more, in at most 65,536 words. Keys are told apart by looking through all of them.
struct Scan {
    static constexpr bool has_keys = true, hashes = false;
    size_t room, used = 0;
    int length;
    std::vector<uint64_t> words;

    Scan(size_t count, int length) : room(std::min(count, most_shelf_words)), length(length), words(room) {}

    void clear() { used = 0; }

    bool find(const Key &key) const {
        for (size_t at = 0; at < used; at += length + 1)
            if (memcmp(&words[at + 1], key.word, 8 * length) == 0) return true;
        return false;
    }

    bool fits() const { return size_t(length) + 1 <= room - used; }

    // The key of an exhausted node, which is not held: each node below it has a voice fixed that is not fixed here.
    void keep(const Key &key) {
        if (!fits()) return;
        words[used] = key.hash;
        memcpy(&words[used + 1], key.word, 8 * length);
        used += length + 1;
    }
};

// The same space, and an index beside it: from a hash on, the first free slot or the key's.
struct Shelf : Scan {
    static constexpr bool hashes = true;
    std::vector<uint32_t> slot;
    size_t mask;

    Shelf(size_t count, int length) : Scan(count, length) {
        size_t slots = 4;
        while (slots < 2 * (room / (length + 1) + 1)) slots *= 2;
        slot.assign(slots, 0);
        mask = slots - 1;
    }

    void clear() {
        used = 0;
        std::fill(slot.begin(), slot.end(), 0);
    }

    // The slot of the key or the free one where it belongs. A slot has the place of a key's first word, and 0 where it is free.
    size_t place(const Key &key) const {
        size_t at = key.hash & mask;
        while (slot[at] && (words[slot[at] - 1] != key.hash || memcmp(&words[slot[at]], key.word, 8 * length) != 0)) at = (at + 1) & mask;
        return at;
    }

    bool find(const Key &key) const { return slot[place(key)] != 0; }

    void keep(const Key &key) {
        if (!fits()) return;
        slot[place(key)] = used + 1;
        Scan::keep(key);
    }
};

// ---- the search

enum class Outcome { stopped, found, none };

template <class Store, bool plain> class Search {
    struct Level {
        int voice;
        Set left;
        Set set[most_voices];
        Key key;
    };

    const Sheet &sheet;
    const int voices, rows;
    Store store;
    Rows rows_of[most_voices];
    // the levels, the newest last, and one more for the node that is being opened
    std::vector<Level> levels;
    int depth = 0;
    bool begun = false;

    // Rounds in which every row has its turn. Answers whether no set is empty.
    bool all_rounds(Sets &sets) const {
        do {
            sets.changed = false;
            for (const Row &row : sheet.rows) {
                turn(row, sets);
                if (sets.dead) return false;
            }
        } while (sets.changed);
        return true;
    }

    // Of one word of the mask, the rows that are due have their turns, in ascending order; those that come due behind it wait for the next round.
    bool due_turns(uint64_t &due, uint64_t &asked, int first, Sets &sets) const {
        for (uint64_t ahead = ~uint64_t{0}; due & ahead;) {
            int i = least(due & ahead);
            ahead = ~uint64_t{1} << i;
            due &= ~(uint64_t{1} << i);
            asked |= uint64_t{1} << i;
            const Row &row = sheet.rows[first + i];
            turn(row, sets);
            if (!row.again) due &= ~(uint64_t{1} << i);
            if (sets.dead) return false;
        }
        return true;
    }

    // Rounds in which those rows have their turns that are due; notes which rows were asked.
    bool due_rounds(Sets &sets, Rows &asked) const {
        while (sets.due.low | sets.due.high)
            if (!due_turns(sets.due.low, asked.low, 0, sets) || !due_turns(sets.due.high, asked.high, 64, sets)) return false;
        return true;
    }

    void write_trace(Level &level, int row) const {
        Trace t = trace(sheet.rows[row], level.set);
        uint64_t *word = level.key.word + voices + 2 * row;
        word[0] = t.mark, word[1] = t.content;
    }

    // Writes the traces of the rows that were asked; the others' are the parent's, since their voices' sets are.
    void write_asked_traces(const Level *parent, Level &level, Rows asked) const {
        if (parent) memcpy(level.key.word + voices, parent->key.word + voices, sizeof(uint64_t) * 2 * rows);
        for (; asked.low; asked.low &= asked.low - 1) write_trace(level, least(asked.low));
        for (; asked.high; asked.high &= asked.high - 1) write_trace(level, 64 + least(asked.high));
    }

    void write_key(const Level *parent, Level &level, const Rows &asked) const {
        uint64_t *word = level.key.word;
        for (int i = 0; i < voices; i++) word[i] = many(level.set[i]) ? level.set[i] : 0;
        if (plain)
            for (int i = 0; i < rows; i++) write_trace(level, i);
        else
            write_asked_traces(parent, level, asked);
        if (Store::hashes) level.key.hash = hash_of(word, voices + 2 * rows);
    }

    enum class Node { failed, found, branch };

    // Opens the node whose sets the level past the newest has; `first` and all voices before it are fixed.
    Node open(int first, const Rows &due) {
        opened++;
        Level &level = levels[depth];
        Sets sets = {level.set, rows_of, false, false, due};
        Rows asked;
        if (!(plain ? all_rounds(sets) : due_rounds(sets, asked))) return Node::failed;
        int voice = first;
        while (voice < voices && !many(level.set[voice])) voice++;
        if (voice == voices) return Node::found;
        if (Store::has_keys) {
            write_key(depth ? &levels[depth - 1] : nullptr, level, asked);
            if (store.find(level.key)) return Node::failed;
        }
        level.voice = voice;
        level.left = level.set[voice];
        depth++;
        return Node::branch;
    }

    Node open_root() {
        begun = true;
        std::copy(sheet.opening.begin(), sheet.opening.end(), levels[0].set);
        Rows all;
        for (int i = 0; i < rows; i++) all.add(i);
        return open(0, all);
    }

    Node open_child() {
        Level &parent = levels[depth - 1], &child = levels[depth];
        memcpy(child.set, parent.set, sizeof(Set) * voices);
        child.set[parent.voice] = parent.left & -parent.left;
        parent.left &= parent.left - 1;
        return open(parent.voice + 1, rows_of[parent.voice]);
    }

    // Leaves the levels that have no value to try.
    void back_up() {
        while (depth > 0 && levels[depth - 1].left == 0) {
            depth--;
            exhausted++;
            store.keep(levels[depth].key);
        }
    }

public:
    uint64_t opened = 0, exhausted = 0;
    Outcome outcome = Outcome::stopped;

    Search(const Sheet &sheet, size_t words)
        : sheet(sheet), voices(sheet.opening.size()), rows(sheet.rows.size()), store(words, voices + 2 * rows), levels(voices + 1) {
        for (int i = 0; i < rows; i++) {
            const Row &row = sheet.rows[i];
            if (row.kind == 'E')
                rows_of[row.index].add(i), rows_of[row.result].add(i);
            else
                for (int j = 0; j < row.count; j++) rows_of[row.voice[j]].add(i);
        }
    }

    void restart() {
        store.clear();
        depth = 0, begun = false;
        opened = exhausted = 0;
        outcome = Outcome::stopped;
    }

    void solve(uint64_t budget) {
        while (outcome == Outcome::stopped && budget-- > 0) {
            if ((begun ? open_child() : open_root()) == Node::found) {
                outcome = Outcome::found;
                return;
            }
            back_up();
            if (depth == 0) outcome = Outcome::none;
        }
    }

    void report() const {
        static const char *const names[] = {"stopped", "found", "none"};
        printf("%s\nopened %llu\nexhausted %llu\n", names[int(outcome)], (unsigned long long)opened, (unsigned long long)exhausted);
        if (outcome != Outcome::found) return;
        for (int i = 0; i < voices; i++) printf("%d %d\n", i, least(levels[depth].set[i]));
    }
};

// ---- the program

struct Task {
    bool plain = false;
    std::string store;
    size_t words = 0;
    uint64_t repeats = 1;
    std::vector<uint64_t> budgets;
};

template <class Store, bool plain> static void run(const Sheet &sheet, const Task &task) {
    Search<Store, plain> search(sheet, task.words);
    for (uint64_t i = 0; i < task.repeats; i++) {
        search.restart();
        if (task.budgets.empty())
            while (search.outcome == Outcome::stopped) search.solve(most_budget);
        for (uint64_t budget : task.budgets) search.solve(budget);
    }
    search.report();
}

template <class Store> static int run_over(const Sheet &sheet, const Task &task) {
    task.plain ? run<Store, true>(sheet, task) : run<Store, false>(sheet, task);
    return 0;
}

static Task parse_task(int count, char **argument) {
    Task task;
    int at = 1;
    if (at < count && !strcmp(argument[at], "plain")) task.plain = true, at++;
    if (at < count) task.store = argument[at++];
    if (at < count) task.repeats = strtoull(argument[at++], nullptr, 10);
    while (at < count) task.budgets.push_back(strtoull(argument[at++], nullptr, 10));
    size_t colon = task.store.find(':');
    if (colon != std::string::npos) {
        task.words = strtoull(&task.store[colon + 1], nullptr, 10);
        task.store.resize(colon);
    }
    return task;
}

static std::vector<uint8_t> read_input() {
    std::vector<uint8_t> bytes;
    for (int c; (c = getchar()) != EOF;) bytes.push_back(c);
    return bytes;
}

int main(int count, char **argument) {
    Task task = parse_task(count, argument);
    Sheet sheet;
    if (!read_sheet(read_input(), sheet)) {
        fputs("no sheet\n", stderr);
        return 2;
    }
    if (task.store == "bare") return run_over<Bare>(sheet, task);
    if (task.store == "scan") return run_over<Scan>(sheet, task);
    if (task.store == "shelf") return run_over<Shelf>(sheet, task);
    fputs("usage: search [plain] bare|shelf:WORDS|scan:WORDS [REPEATS [BUDGET..]] < SHEET\n", stderr);
    return 2;
}
