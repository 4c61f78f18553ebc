// The memory bus, with objects in C++: the built-in types of docs/REFERENCE.md.
//
//     g++ -std=c++17 -O2 -o bus bus.cpp
//     ./bus --kernel ../../crates/script_bench/out/script_bench ../../crates/bus_bench/data/bus.toml
#include "geqiwlla.hpp"

#include <algorithm>

using geqiwlla::Component;
using geqiwlla::Item;
using geqiwlla::Sequence;
using std::string_view;

namespace {

// The words of an item.
enum Word { OPERATION, ADDRESS, DATA };

// The operation of a write; any other is a read.
constexpr int64_t WRITE = 1;

// Words by address; 0 where none was written.
class Words {
public:
    int64_t at(int64_t address) const {
        const auto it = words_.find(address);
        return it == words_.end() ? 0 : it->second;
    }
    void write(int64_t address, int64_t word) { words_[address] = word; }

private:
    std::unordered_map<int64_t, int64_t> words_;
};

// Answers every call with no actions.
struct Idle : Component {};

// Reports three ERRORs in build.
struct Loud : Component {
    void build_phase() override {
        for (const char *text : {"one", "two", "three"}) error("E", text);
    }
};

// Raises and drops two objections, and raises the second before the first has drained.
struct Pulse : Component {
    void run_phase() override {
        set_drain(5);
        raise_objection();
        wait(10, 1);
    }
    void wake(uint32_t tag) override {
        if (tag == 1) {
            drop_objection();
            wait(2, 2);
        } else if (tag == 2) {
            raise_objection();
            wait(8, 3);
        } else if (tag == 3) {
            drop_objection();
        }
    }
};

// Keeps run from ending for a number of ticks, or forever if the number is negative.
struct Sleeper : Component {
    int64_t ticks = 0;

    void build_phase() override { get_config("at"); }
    void config(string_view, std::optional<int64_t> value) override { ticks = value.value_or(0); }
    void run_phase() override {
        raise_objection();
        if (ticks >= 0) wait(uint64_t(ticks), 1);
    }
    void wake(uint32_t) override { drop_objection(); }
};

// Waits for 0 ticks, repeatedly.
struct Spinner : Component {
    void run_phase() override { wait(0, 1); }
    void wake(uint32_t) override { wait(0, 1); }
};

// Runs a seq_smoke in the environment of the bus.
struct BusTest : Component {
    void build_phase() override { create("bus_env", "env"); }
    void run_phase() override {
        raise_objection();
        start("seq_smoke", "seq", "env.agent.sqr");
    }
    void finished(string_view, uint64_t) override { drop_objection(); }
};

// Builds the environment of the bus, and connects its parts.
struct BusEnv : Component {
    void build_phase() override {
        create("bus_agent", "agent");
        create("bus_mem", "mem");
        create("bus_scoreboard", "sb");
        add_fifo("reqf", 1);
        add_fifo("rspf", 1);
    }
    void connect_phase() override {
        connect("agent.drv.req", "reqf");
        connect("agent.drv.rsp", "rspf");
        connect("mem.req", "reqf");
        connect("mem.rsp", "rspf");
        connect("agent.mon.ap", "sb.seen");
    }
};

// Builds the sequencer, the driver and the monitor of the bus, and connects them.
struct BusAgent : Component {
    void build_phase() override { get_config("arb"); }
    void config(string_view, std::optional<int64_t> value) override {
        static const char *const modes[] = {"FIFO", "WEIGHTED", "RANDOM", "STRICT_FIFO", "STRICT_RANDOM"};
        const int64_t mode = value.value_or(0);
        add_sequencer("sqr", modes[mode >= 1 && mode <= 4 ? mode : 0]);
        create("bus_driver", "drv");
        create("bus_monitor", "mon");
    }
    void connect_phase() override {
        connect("drv.sqp", "sqr");
        connect("drv.ap", "mon.bus");
    }
};

// Passes items from a sequencer to a memory, and their results back.
struct BusDriver : Component {
    void build_phase() override {
        add_port("sqp", "seq");
        add_port("req", "put");
        add_port("rsp", "get");
        add_port("ap", "analysis");
    }
    void run_phase() override { get_next_item("sqp"); }
    void next_item(string_view, const std::optional<Item> &item) override {
        if (item) put("req", *item);
    }
    void stored(string_view) override { take("rsp"); }
    void taken(string_view, const Item &item) override {
        write("ap", item);
        item_done("sqp", item);
        get_next_item("sqp");
    }
};

// Puts an item 3 ticks after it came.
struct SlowDriver : BusDriver {
    Item item{};

    void next_item(string_view, const std::optional<Item> &next) override {
        if (!next) return;
        item = *next;
        wait(3, 1);
    }
    void wake(uint32_t) override { put("req", item); }
};

// Reports the items that are written to it, and passes them on.
struct BusMonitor : Component {
    void build_phase() override {
        add_imp("bus");
        add_port("ap", "analysis");
    }
    void written(string_view, const Item &item) override {
        info("MON", (item[OPERATION] == WRITE ? "write " : "read ") + std::to_string(item[ADDRESS]) + " " + std::to_string(item[DATA]));
        write("ap", item);
    }
};

// Performs the items of the bus, as a memory.
struct BusMem : Component {
    uint64_t waits = 0;
    Item item{};
    Words words;

    virtual int64_t read(int64_t word) const { return word; }

    void build_phase() override {
        add_port("req", "get");
        add_port("rsp", "put");
        get_config("waits");
    }
    void config(string_view, std::optional<int64_t> value) override { waits = value && *value >= 0 ? uint64_t(*value) : 2; }
    void run_phase() override { take("req"); }
    void taken(string_view, const Item &next) override {
        item = next;
        wait(waits, 1);
    }
    void wake(uint32_t) override {
        Item result = item;
        if (item[OPERATION] == WRITE) words.write(item[ADDRESS], item[DATA]);
        else result[DATA] = read(words.at(item[ADDRESS]));
        put("rsp", result);
    }
    void stored(string_view) override { take("req"); }
};

// Flips the lowest bit of each word that is read.
struct BusMemBad : BusMem {
    int64_t read(int64_t word) const override { return word ^ 1; }
};

// Checks that each read gives the word that was last written at its address.
struct BusScoreboard : Component {
    static constexpr uint64_t most = 1'000'000'000'000'000'000; // a count stops here
    uint64_t seen = 0, bad = 0;
    Words words;

    void build_phase() override { add_imp("seen"); }
    void written(string_view, const Item &item) override {
        const int64_t word = words.at(item[ADDRESS]);
        if (item[OPERATION] == WRITE) {
            words.write(item[ADDRESS], item[DATA]);
        } else if (item[DATA] != word) {
            bad = std::min(bad + 1, most);
            error("SB", "read " + std::to_string(item[ADDRESS]) + " gave " + std::to_string(item[DATA]) + " not " + std::to_string(word));
        }
        seen = std::min(seen + 1, most);
    }
    void report_phase() override { info("SB", std::to_string(seen) + " seen " + std::to_string(bad) + " bad"); }
};

// Sends one of its items at each grant.
struct Sender : Sequence {
    const std::vector<Item> items;
    size_t sent = 0;

    explicit Sender(std::vector<Item> all) : items(std::move(all)) {}
    void grant() override {
        if (sent < items.size()) send(items[sent++]);
    }
};

// Writes a word, and reads it.
struct SeqSmoke : Sender {
    SeqSmoke() : Sender({{1, 0, 10, 0}, {0, 0, 0, 0}}) {}
    void body() override { request(); }
    void item_done(const std::optional<Item> &) override {
        if (sent < items.size()) request();
        else end_step();
    }
};

// Writes two words and reads them, under a lock.
struct SeqBurst : Sender {
    SeqBurst() : Sender({{1, 0, 20, 0}, {1, 1, 21, 0}, {0, 0, 0, 0}, {0, 1, 0, 0}}) {}
    void body() override { lock(); }
    void held() override { request(); }
    void item_done(const std::optional<Item> &) override {
        if (sent < items.size()) {
            request();
        } else {
            unlock();
            end_step();
        }
    }
};

// Starts two sequences, and ends when both have finished.
struct SeqPair : Sequence {
    int ended = 0;

    void body() override {
        start("seq_smoke", "a");
        start("seq_burst", "b", "", 200);
    }
    void finished(string_view, uint64_t) override {
        if (ended < 2 && ++ended == 2) end_step();
    }
};

GEQIWLLA_TYPE("idle", Idle);
GEQIWLLA_TYPE("loud", Loud);
GEQIWLLA_TYPE("pulse", Pulse);
GEQIWLLA_TYPE("sleeper", Sleeper);
GEQIWLLA_TYPE("spinner", Spinner);
GEQIWLLA_TYPE("bus_test", BusTest);
GEQIWLLA_TYPE("bus_env", BusEnv);
GEQIWLLA_TYPE("bus_agent", BusAgent);
GEQIWLLA_TYPE("bus_driver", BusDriver);
GEQIWLLA_TYPE("slow_driver", SlowDriver);
GEQIWLLA_TYPE("bus_monitor", BusMonitor);
GEQIWLLA_TYPE("bus_mem", BusMem);
GEQIWLLA_TYPE("bus_mem_bad", BusMemBad);
GEQIWLLA_TYPE("bus_scoreboard", BusScoreboard);
GEQIWLLA_TYPE("seq_smoke", SeqSmoke);
GEQIWLLA_TYPE("seq_burst", SeqBurst);
GEQIWLLA_TYPE("seq_pair", SeqPair);

} // namespace

int main(int count, char **words) { return geqiwlla::main(count, words); }
