// A sheet searched by Gecode, the same voices and values in the same order: one thread, the lowest voice that is not fixed, its values ascending, each a child of the node.
//
//   gecode [REPEATS [BUDGET]] < SHEET
//
// Prints found, none or stopped, the nodes, and the values that were found. A budget is how many nodes are explored at most.
#include <cstdint>
#include <cstdio>
#include <cstdlib>
#include <cstring>
#include <memory>
#include <vector>

#include <gecode/int.hh>
#include <gecode/minimodel.hh>
#include <gecode/search.hh>

using namespace Gecode;

static uint64_t low_first(const uint8_t *bytes, int count) {
    uint64_t n = 0;
    for (int i = count; i-- > 0;) n = n << 8 | bytes[i];
    return n;
}

static int body_length(char letter) { return letter == 'L' ? 5 : letter == 'E' ? 3 : 1; }

class Model : public Space {
    IntVarArray value;

    static IntSet set_of(uint64_t mask) {
        std::vector<int> values;
        for (int v = 0; v < 64; v++)
            if (mask >> v & 1) values.push_back(v);
        return IntSet(IntArgs(values));
    }

    void post_clause(const IntVarArgs &voices, const IntArgs &arguments) {
        BoolVarArgs literals;
        for (int i = 0; i < voices.size(); i++) {
            BoolVar holds(*this, 0, 1);
            rel(*this, voices[i], arguments[i] < 64 ? IRT_EQ : IRT_NQ, arguments[i] & 63, holds);
            literals << holds;
        }
        rel(*this, BOT_OR, literals, 1);
    }

    // Posts the row at the front, and answers how long it is.
    size_t post(const uint8_t *row) {
        char letter = row[0];
        int count = row[1];
        size_t head = 1 + body_length(letter);
        IntVarArgs voices;
        IntArgs arguments;
        for (int i = 0; i < count; i++) {
            const uint8_t *member = row + head + 4 * i;
            if (letter != 'E') voices << value[member[1]];
            arguments << static_cast<int16_t>(low_first(member + 2, 2));
        }
        if (letter == 'A') distinct(*this, voices, IPL_VAL);
        if (letter == 'L') linear(*this, arguments, voices, IRT_LQ, static_cast<int32_t>(low_first(row + 2, 4)));
        if (letter == 'C') post_clause(voices, arguments);
        if (letter == 'E') {
            dom(*this, value[row[2]], 0, count - 1);
            element(*this, arguments, value[row[2]], value[row[3]]);
        }
        return head + 4 * count;
    }

public:
    explicit Model(const std::vector<uint8_t> &sheet) {
        size_t at = 0;
        IntVarArgs voices;
        for (; sheet[at] == 'V'; at += 9) voices << IntVar(*this, set_of(low_first(&sheet[at + 1], 8)));
        value = IntVarArray(*this, voices);
        while (sheet[at] != 'Z') at += post(&sheet[at]);
        branch(*this, value, INT_VAR_NONE(), INT_VALUES_MIN());
    }

    Model(Model &other) : Space(other) { value.update(*this, other.value); }

    Space *copy() override { return new Model(*this); }

    void print() const {
        for (int i = 0; i < value.size(); i++) printf("%d %d\n", i, value[i].val());
    }
};

static std::unique_ptr<Model> search(const std::vector<uint8_t> &sheet, unsigned long budget, Search::Statistics &statistics, bool &stopped) {
    Search::NodeStop stop(budget);
    Search::Options options;
    options.threads = 1;
    if (budget) options.stop = &stop;
    Model root(sheet);
    DFS<Model> engine(&root, options);
    std::unique_ptr<Model> found(engine.next());
    statistics = engine.statistics();
    stopped = engine.stopped();
    return found;
}

int main(int count, char **argument) {
    unsigned long repeats = count > 1 ? strtoul(argument[1], nullptr, 10) : 1;
    unsigned long budget = count > 2 ? strtoul(argument[2], nullptr, 10) : 0;
    std::vector<uint8_t> sheet;
    for (int c; (c = getchar()) != EOF;) sheet.push_back(c);
    Search::Statistics statistics;
    bool stopped = false;
    std::unique_ptr<Model> found;
    for (unsigned long i = 0; i < repeats; i++) found = search(sheet, budget, statistics, stopped);
    printf("%s\nnodes %lu\n", found ? "found" : stopped ? "stopped" : "none", static_cast<unsigned long>(statistics.node));
    if (found) found->print();
}
