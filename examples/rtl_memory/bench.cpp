// A testbench of a memory in RTL: driver, monitor, reference model, scoreboard and sequences in C++, and the device, compiled by Verilator.
//
// The pins stay in this program: geqiwlla_rtl.hpp has the clock, the pins, the waves and the assertions.
#include "geqiwlla_rtl.hpp"

#include "Vmem.h"
#include "Vmem_stuck.h"
#include "verilated_vcd_c.h"

#include <deque>

using geqiwlla::Component;
using geqiwlla::Item;
using geqiwlla::Sequence;
using geqiwlla::rtl::Edges;
using std::string_view;

namespace {

// The words of an item, and the operations.
enum Word { OPERATION, ADDRESS, DATA };
enum Operation { READ, WRITE };

// Returns an address and data as reports show them.
std::string shown(int64_t address, int64_t data) {
    char text[48];
    std::snprintf(text, sizeof text, "addr=%u data=0x%08x", unsigned(address), unsigned(data));
    return text;
}

// The wires of the device, except the clock.
struct Wires {
    bool rst_n = false, req = false, we = false;
    uint32_t addr = 0, wdata = 0;
    bool gnt = false, valid = false;
    uint32_t rdata = 0;

    template <class Model> void set_ports(Model &model, bool clk) const {
        model.clk = clk;
        model.rst_n = rst_n;
        model.req = req;
        model.we = we;
        model.addr = uint8_t(addr);
        model.wdata = wdata;
    }
    template <class Model> void get_ports(const Model &model) {
        gnt = model.gnt;
        valid = model.valid;
        rdata = model.rdata;
    }
};

using Clock = geqiwlla::rtl::Clock<Wires>;
using AtPins = geqiwlla::rtl::AtPins<Wires>;
template <class Model> using RtlDut = geqiwlla::rtl::Device<Wires, Model, VerilatedVcdC>;

// A device whose reset ends when the clock falls after two rising edges.
template <class Base> class Reset final : public Base {
    void at_fall(Wires &wires, uint64_t edges) override { wires.rst_n = edges >= 2; }
};

// The device as a model in C++, at the same pins.
class ModelDut : public Clock {
protected:
    void eval(Wires &wires, bool clk) override {
        if (clk && !was_high_) rise(wires);
        was_high_ = clk;
        wires.gnt = wires.rst_n && !busy_;
        wires.valid = valid_;
        wires.rdata = rdata_;
    }

private:
    void rise(const Wires &wires) {
        valid_ = false;
        if (!wires.rst_n) {
            busy_ = false;
            rdata_ = 0;
        } else if (!busy_ && wires.req) {
            busy_ = true;
            left_ = 1;
            at_ = uint8_t(wires.addr);
            if (wires.we) words_[at_] = wires.wdata;
        } else if (busy_ && left_) {
            left_--;
        } else if (busy_) {
            busy_ = false;
            valid_ = true;
            rdata_ = words_[at_];
        }
    }

    std::array<uint32_t, 256> words_{};
    bool was_high_ = false, busy_ = false, valid_ = false;
    unsigned left_ = 0;
    uint8_t at_ = 0;
    uint32_t rdata_ = 0;
};

// Drives an item at the pins, and completes it when the device answers.
class Driver : public AtPins {
public:
    void build_phase() override {
        AtPins::build_phase();
        add_port("sqp", "seq");
        add_port("go", "analysis");
    }
    void run_phase() override { get_next_item("sqp"); }
    void next_item(string_view, const std::optional<Item> &next) override {
        drive([&](Wires &wires) {
            item_ = *next;
            state_ = State::Requesting;
            wires.req = true;
            wires.we = item_[OPERATION] == WRITE;
            wires.addr = uint32_t(item_[ADDRESS]);
            wires.wdata = uint32_t(item_[DATA]);
        });
    }
    Edges needs() const override { return state_ == State::Requesting || state_ == State::Waiting ? Edges::Ahead : Edges::None; }
    bool at_edge(const Wires &sampled, Wires &driven) override {
        if (state_ == State::Requesting && sampled.gnt) {
            driven.req = false;
            state_ = State::Waiting;
        } else if (state_ == State::Waiting && sampled.valid) {
            item_[DATA] = sampled.rdata;
            state_ = State::Done;
            return true;
        }
        return false;
    }
    void written(string_view, const Item &) override {
        if (state_ != State::Done) return;
        state_ = State::Idle;
        item_done("sqp", item_);
        get_next_item("sqp");
    }

private:
    enum class State { Idle, Requesting, Waiting, Done } state_ = State::Idle;
    Item item_{};
};

// Reports the transfers that it sees at the pins, and passes them on.
class Monitor : public AtPins {
public:
    void build_phase() override {
        AtPins::build_phase();
        add_port("ap", "analysis");
        get_config("talk");
    }
    void config(string_view field, std::optional<int64_t> value) override {
        if (field == "talk") talks_ = value.value_or(1) != 0;
        else AtPins::config(field, value);
    }
    Edges needs() const override { return Edges::None; }
    bool at_edge(const Wires &sampled, Wires &) override {
        if (sampled.valid) {
            if (item_[OPERATION] == READ) item_[DATA] = sampled.rdata;
            seen_.push_back(item_);
        }
        if (sampled.req && sampled.gnt) item_ = {sampled.we ? WRITE : READ, sampled.addr, sampled.wdata, 0};
        return sampled.valid;
    }
    void written(string_view, const Item &) override {
        for (; !seen_.empty(); seen_.pop_front()) {
            const Item &it = seen_.front();
            if (talks_) info("MON", (it[OPERATION] == WRITE ? "write " : "read ") + shown(it[ADDRESS], it[DATA]));
            write("ap", it);
        }
    }

private:
    Item item_{};
    std::deque<Item> seen_;
    bool talks_ = true;
};

// Predicts the transfers: a read returns what was written last to its address, or 0.
class Reference : public Component {
public:
    void build_phase() override {
        add_imp("seen");
        add_port("ap", "analysis");
    }
    void written(string_view, const Item &seen) override {
        Item wanted = seen;
        int64_t &word = words_[seen[ADDRESS]];
        if (seen[OPERATION] == WRITE) word = seen[DATA];
        else wanted[DATA] = word;
        write("ap", wanted);
    }

private:
    std::map<int64_t, int64_t> words_;
};

// Compares the transfers with those that the reference predicts.
class Scoreboard : public Component {
public:
    void build_phase() override {
        add_imp("seen");
        add_imp("wanted");
    }
    void written(string_view imp, const Item &item) override {
        (imp == "seen" ? seen_ : wanted_).push_back(item);
        for (; !seen_.empty() && !wanted_.empty(); seen_.pop_front(), wanted_.pop_front()) {
            const Item &seen = seen_.front(), &wanted = wanted_.front();
            count_++;
            if (seen == wanted) continue;
            bad_++;
            error("SB", "saw " + shown(seen[ADDRESS], seen[DATA]) + ", expected " + shown(wanted[ADDRESS], wanted[DATA]));
        }
    }
    void check_phase() override {
        if (!seen_.empty() || !wanted_.empty()) error("SB", "items are left");
        if (count_ == 0) error("SB", "no items came");
    }
    void report_phase() override { info("SB", std::to_string(count_) + " seen " + std::to_string(bad_) + " bad"); }

private:
    std::deque<Item> seen_, wanted_;
    uint64_t count_ = 0, bad_ = 0;
};

// Sends random items, as many as the field `items` says. The field `gap` is the longest pause after an item, in ticks.
class RandomItems : public Sequence {
public:
    void body() override {
        get_config("gap");
        get_config("items");
    }
    void config(string_view field, std::optional<int64_t> value) override {
        if (field == "gap") {
            gap_ = value.value_or(0);
            return;
        }
        left_ = value.value_or(10);
        request();
    }
    void wake(uint32_t) override { request(); }
    void grant() override {
        Item item{};
        item[OPERATION] = random().between(READ, WRITE);
        item[ADDRESS] = random().between(0, 15);
        item[DATA] = random().between(0, UINT32_MAX);
        send(item);
    }
    void item_done(const std::optional<Item> &) override {
        if (--left_ <= 0) end_step();
        else if (gap_ > 0) wait(uint64_t(random().between(0, gap_)));
        else request();
    }

private:
    int64_t left_ = 0, gap_ = 0;
};

// Sends a fixed list of items.
class DirectedItems : public Sequence {
public:
    void body() override { request(); }
    void grant() override { send(ITEMS[sent_++]); }
    void item_done(const std::optional<Item> &) override {
        if (sent_ < ITEMS.size()) request();
        else end_step();
    }

private:
    static constexpr std::array<Item, 7> ITEMS = {{
        {WRITE, 3, 0x000000f0, 0}, // bit 3 is 0
        {READ, 3, 0, 0},
        {WRITE, 4, 0x0000000f, 0}, // bit 3 is 1
        {READ, 4, 0, 0},
        {READ, 5, 0, 0}, // was never written
        {WRITE, 3, 0xfffffff7, 0},
        {READ, 3, 0, 0},
    }};
    size_t sent_ = 0;
};

class Agent : public Component {
public:
    void build_phase() override {
        add_sequencer("sqr");
        create("mem_driver", "drv");
        create("mem_monitor", "mon");
    }
    void connect_phase() override { connect("drv.sqp", "sqr"); }
};

class Env : public Component {
public:
    void build_phase() override {
        create("mem_agent", "agent");
        create("dut_rtl", "dut");
        create("mem_reference", "ref");
        create("mem_scoreboard", "sb");
    }
    void connect_phase() override {
        connect("dut.edge", "agent.drv.edge");
        connect("dut.edge", "agent.mon.edge");
        connect("agent.drv.go", "dut.go");
        connect("agent.mon.ap", "ref.seen");
        connect("agent.mon.ap", "sb.seen");
        connect("ref.ap", "sb.wanted");
    }
};

// The tests differ in the device, and in what they configure.
class Test : public Component {
public:
    void build_phase() override {
        if (*dut) set_type_override("dut_rtl", dut);
        set_config("*", "vif", 0);
        set_config("env.dut", "ahead", ahead);
        set_config("env.agent.mon", "talk", talk);
        set_config("env.agent.sqr", "gap", gap);
        set_config("env.agent.sqr", "items", items);
        create("mem_env", "env");
    }
    void run_phase() override {
        raise_objection();
        start("seq_random", "seq", "env.agent.sqr");
    }
    void finished(string_view, uint64_t) override { drop_objection(); }

protected:
    const char *dut = "";
    int64_t ahead = 0, gap = 0, items = 40, talk = 1;
};
struct Ahead : Test {
    Ahead() { ahead = 1'000'000; }
};
struct OfModel : Test {
    OfModel() { dut = "dut_model"; }
};
struct OfStuck : Test {
    OfStuck() { dut = "dut_rtl_stuck"; }
};
template <class Base> struct Gaps : Base {
    Gaps() { this->gap = 60; }
};
template <class Base> struct Long : Base {
    Long() { this->items = 100'000, this->talk = 0; }
};

GEQIWLLA_TYPE("test_rtl", Test);
GEQIWLLA_TYPE("test_ahead", Ahead);
GEQIWLLA_TYPE("test_model", OfModel);
GEQIWLLA_TYPE("test_stuck", OfStuck);
GEQIWLLA_TYPE("test_gaps", Gaps<Test>);
GEQIWLLA_TYPE("test_gaps_ahead", Gaps<Ahead>);
GEQIWLLA_TYPE("test_long", Long<Test>);
GEQIWLLA_TYPE("test_long_ahead", Long<Ahead>);
GEQIWLLA_TYPE("mem_env", Env);
GEQIWLLA_TYPE("mem_agent", Agent);
GEQIWLLA_TYPE("mem_driver", Driver);
GEQIWLLA_TYPE("mem_monitor", Monitor);
GEQIWLLA_TYPE("mem_reference", Reference);
GEQIWLLA_TYPE("mem_scoreboard", Scoreboard);
GEQIWLLA_TYPE("dut_rtl", Reset<RtlDut<Vmem>>);
GEQIWLLA_TYPE("dut_rtl_stuck", Reset<RtlDut<Vmem_stuck>>);
GEQIWLLA_TYPE("dut_model", Reset<ModelDut>);
GEQIWLLA_TYPE("seq_random", RandomItems);
GEQIWLLA_TYPE("seq_directed", DirectedItems);

} // namespace

int main(int count, char **words) { return geqiwlla::main(count, words); }
