// A device in RTL for a testbench on geqiwlla.hpp: its clock, its pins, its waves and its assertions. C++17. The device is a class that
// Verilator makes; the program includes its header, and verilated_vcd_c.h for waves.
//
//     #include "geqiwlla_rtl.hpp"
//     #include "Vmem.h"
//     #include "verilated_vcd_c.h"
//
//     struct Wires {                                              // all wires except the clock
//         bool rst_n = false, req = false, gnt = false;
//         template <class Model> void set_ports(Model &model, bool clk) const { model.clk = clk, model.rst_n = rst_n, model.req = req; }
//         template <class Model> void get_ports(const Model &model) { gnt = model.gnt; }
//     };
//     struct Dut : geqiwlla::rtl::Device<Wires, Vmem, VerilatedVcdC> {
//         void at_fall(Wires &wires, uint64_t edges) override { wires.rst_n = edges >= 2; }
//     };
//     struct Driver : geqiwlla::rtl::AtPins<Wires> {
//         void run_phase() override { drive([](Wires &wires) { wires.req = true; }); }
//         bool at_edge(const Wires &sampled, Wires &driven) override {
//             if (sampled.gnt) driven.req = false;
//             return false;
//         }
//     };
//
// The component of the device owns the clock. At each rising edge it calls `at_edge` of each listener, within the client. If a listener
// returns true, the component writes to its port `edge`, whose imps belong to the listeners. Then the kernel calls `written` of each.
//
// A time is a number of ticks of the kernel.
#ifndef GEQIWLLA_RTL_HPP
#define GEQIWLLA_RTL_HPP

#include "geqiwlla.hpp"

class Verilated;
class VerilatedContext;

namespace geqiwlla::rtl {

/// The edges that a listener needs. It counts only if the clock may run ahead.
enum class Edges {
    None,  ///< none: it has nothing for the kernel until an object drives
    Ahead, ///< those up to the next result: until a listener has something for the kernel, it drives in `at_edge` alone
    Each,  ///< each at its time: it may drive at any time
};

/// An object that sees the rising edges of a clock.
template <class Wires> class Listener {
public:
    virtual ~Listener() = default;
    /// Sees the wires as they were just before a rising edge, and drives them for the time after it. Returns whether it has something for
    /// the kernel; then `written` of all listeners follows, for each whose imp is connected.
    virtual bool at_edge(const Wires &sampled, Wires &driven) = 0;
    /// Returns the edges that it needs from now on.
    virtual Edges needs() const { return Edges::Each; }
};

template <class Wires> class Clock;

/// A virtual interface: the wires, except the clock, and the listeners.
template <class Wires> class Pins {
public:
    /// Returns the pins with this number, which all their users share.
    static std::shared_ptr<Pins> number(int64_t n) {
        static std::map<int64_t, std::weak_ptr<Pins>> all;
        std::shared_ptr<Pins> it = all[n].lock();
        if (!it) all[n] = it = std::make_shared<Pins>();
        return it;
    }
    /// Adds a listener; listeners see an edge in the order in which they were added.
    void add(Listener<Wires> &it) { listeners_.push_back(&it); }
    /// Removes a listener.
    void remove(Listener<Wires> &it) { listeners_.erase(std::remove(listeners_.begin(), listeners_.end(), &it), listeners_.end()); }
    /// Lets the clock make the edges up to the current time, and then calls `change` with the wires. Returns whether the clock sleeps: then
    /// write to the imp `go` of its component. Errors: std::logic_error, if edges after the current time have been made.
    template <class Change> bool drive(Change &&change) {
        if (clock_) clock_->catch_up();
        std::forward<Change>(change)(wires_);
        return clock_ && clock_->sleeps_;
    }

private:
    friend class Clock<Wires>;
    Wires wires_{};
    std::vector<Listener<Wires> *> listeners_;
    Clock<Wires> *clock_ = nullptr;
};

/// A component at pins: a driver or a monitor. The configuration field `vif` is the number of the pins.
template <class Wires> class AtPins : public Component, public Listener<Wires> {
public:
    ~AtPins() override { leave(); }
    /// Adds the imp `edge`, and looks up `vif`. A class that overrides it calls it.
    void build_phase() override {
        add_imp("edge");
        get_config("vif");
    }
    /// Takes the pins. A class that overrides it calls it for the field `vif`.
    void config(std::string_view field, std::optional<int64_t> value) override {
        if (field != "vif") return;
        leave();
        pins_ = Pins<Wires>::number(value.value_or(0));
        pins_->add(*this);
    }

protected:
    /// Drives wires outside of `at_edge`: lets the clock make the edges up to the current time, and then calls `change` with the wires.
    /// Since `at_edge` may be called before `change`, an object changes its own state in `change` or later. If the clock sleeps, it writes
    /// to the port `go` of this component. Errors: std::logic_error, without pins, or if edges after the current time have been made.
    template <class Change> void drive(Change &&change) {
        if (!pins_) throw std::logic_error(who() + " has no pins: build_phase looks up the field vif");
        if (pins_->drive(std::forward<Change>(change))) write("go", Item{});
    }

private:
    void leave() {
        if (pins_) pins_->remove(*this);
    }
    std::shared_ptr<Pins<Wires>> pins_;
};

/// The component of a device, which owns the clock. The clock is low at first, falls at odd halves of a period and rises at even ones.
///
/// It has the analysis port `edge` and the imp `go`. The field `vif` is the number of its pins. If the field `ahead` is a number above 0,
/// the clock may run ahead: it makes up to so many edges in advance, until a listener has something for the kernel. If no listener needs
/// edges, it sleeps. Otherwise there is a wake for each rising edge.
template <class Wires> class Clock : public Component {
public:
    /// Errors: std::invalid_argument, if the period is 0 or odd.
    explicit Clock(uint64_t period = 10) : half_(period / 2) {
        if (period == 0 || period % 2) throw std::invalid_argument("not an even number of ticks: " + std::to_string(period));
    }
    ~Clock() override {
        if (pins_->clock_ == this) pins_->clock_ = nullptr;
    }
    /// Adds `edge` and `go`, and looks up `vif` and `ahead`. A class that overrides it calls it.
    void build_phase() override {
        add_port("edge", "analysis");
        add_imp("go");
        get_config("vif");
        get_config("ahead");
    }
    /// Takes the fields. A class that overrides it calls it for these fields. Errors: std::logic_error, if the pins have a clock.
    void config(std::string_view field, std::optional<int64_t> value) override {
        if (field == "ahead") ahead_ = value.value_or(0);
        if (field != "vif") return;
        pins_ = Pins<Wires>::number(value.value_or(0));
        if (std::exchange(pins_->clock_, this)) throw std::logic_error("two clocks for the pins " + std::to_string(value.value_or(0)));
    }
    void run_phase() override {
        advance(time());
        go_on();
    }
    void wake(uint32_t tag) override {
        advance(time());
        report_errors();
        const bool wrote = std::exchange(wanted_, false);
        if (wrote) write("edge", {int64_t(edges()), 0, 0, 0});
        // If the clock runs ahead, the listeners are called first: they may drive.
        if (wrote && ahead_ > 0 && tag == EDGE && needs() != Edges::None) wait(0, CALLED);
        else go_on();
    }
    /// An object has driven wires. If the clock sleeps, it runs again.
    void written(std::string_view, const Item &) override {
        advance(time());
        report_errors();
        if (std::exchange(sleeps_, false)) go_on();
    }
    /// Reports the last errors; if the clock sleeps, it first makes the edges that are missing. A class that overrides it calls it.
    void extract_phase() override {
        if (sleeps_) advance(time());
        eval(wires(), clk_);
        report_errors();
    }

protected:
    /// Evaluates the device with these wires and this level of the clock, and sets its outputs in the wires. It may be called several times
    /// with the same level.
    virtual void eval(Wires &wires, bool clk) = 0;
    /// Writes the waves of the current moment, which has been evaluated.
    virtual void dump() {}
    /// Drives wires when the clock falls, after this number of rising edges. So it may count the edges of a reset.
    virtual void at_fall(Wires & /*wires*/, uint64_t /*edges*/) {}

    /// Records an error of the device at the current moment. A report ERROR with the id RTL follows.
    void record_error() {
        if (errors_.empty() || errors_.back() != moment_) errors_.push_back(moment_);
    }
    /// Returns the time up to which the clock and the wires are known.
    uint64_t moment() const { return moment_; }
    /// Returns the wires. An object that drives them calls `drive` of the pins.
    Wires &wires() { return pins_->wires_; }
    /// Returns the level of the clock.
    bool clk() const { return clk_; }

private:
    friend class Pins<Wires>;
    static constexpr uint32_t EDGE = 0, CALLED = 1; // tags of waits
    static constexpr size_t MOST_REPORTS = 8; // of one call

    uint64_t edges() const { return halves_ / 2; }
    uint64_t time_of(uint64_t edge) const { return 2 * half_ * edge; }

    Edges needs() const {
        Edges most = Edges::None;
        for (const Listener<Wires> *it : pins_->listeners_) most = std::max(most, it->needs());
        return most;
    }
    void go_on() {
        if (ahead_ <= 0) return wait(time_of(edges() + 1) - time(), EDGE);
        const auto has_news = [this] { return wanted_ || !errors_.empty(); };
        int64_t made = 0;
        for (; made < ahead_ && !has_news() && needs() == Edges::Ahead; made++) advance(time_of(edges() + 1));
        if (made || has_news()) wait(std::max(time_of(edges()), time()) - time(), EDGE);
        else if (needs() == Edges::Each) wait(time_of(edges() + 1) - time(), EDGE);
        else sleeps_ = true;
    }
    void catch_up() {
        if (moment_ > time())
            throw std::logic_error(who() + ": an object drives at " + std::to_string(time()) + ", but the edges up to " +
                                   std::to_string(moment_) + " are made: a listener needs Edges::Each");
        advance(time());
    }
    // Makes all changes of the clock up to a time.
    void advance(uint64_t ticks) {
        while ((halves_ + 1) * half_ <= ticks) {
            begin_moment(++halves_ * half_);
            halves_ % 2 ? fall() : rise();
        }
        begin_moment(ticks);
    }
    // The wires keep their values from one moment to the next. So a moment is evaluated and shown when the next one begins.
    void begin_moment(uint64_t ticks) {
        if (ticks <= moment_) return;
        eval(wires(), clk_);
        dump();
        moment_ = ticks;
    }
    void fall() {
        clk_ = false;
        at_fall(wires(), edges());
    }
    void rise() {
        const Wires sampled = wires();
        clk_ = true;
        eval(wires(), true);
        for (Listener<Wires> *it : pins_->listeners_) wanted_ |= it->at_edge(sampled, wires());
    }
    // Reports the errors up to the current time. An answer has at most 64 actions.
    void report_errors() {
        if (errors_.empty()) return;
        const auto stop = std::upper_bound(errors_.begin(), errors_.end(), time());
        const auto count = size_t(stop - errors_.begin());
        for (size_t i = 0; i < std::min(count, MOST_REPORTS); i++) error("RTL", "an assertion failed at " + std::to_string(errors_[i]));
        if (count > MOST_REPORTS) error("RTL", "assertions failed at " + std::to_string(count - MOST_REPORTS) + " more times");
        errors_.erase(errors_.begin(), stop);
    }

    const uint64_t half_; // ticks
    std::shared_ptr<Pins<Wires>> pins_ = std::make_shared<Pins<Wires>>();
    int64_t ahead_ = 0;
    uint64_t halves_ = 0, moment_ = 0;
    bool clk_ = false, sleeps_ = false;
    bool wanted_ = false; // whether a listener has something for the kernel
    std::vector<uint64_t> errors_; // moments
};

namespace detail {

// The classes of Verilator's library; they are complete when a template is used.
template <class> struct Library {
    using Global = ::Verilated;
    using Context = ::VerilatedContext;
};

} // namespace detail

/// Stands for waves that no file gets.
struct NoWaves {};

/// A device in RTL: `Model` is the class that Verilator makes, `Waves` is VerilatedVcdC or another writer of waves.
///
/// `Wires` has two functions: `set_ports(model, clk)` sets the inputs of the model, and `get_ports(model)` takes its outputs. If the
/// environment variable VCD names a file, the waves go there, with the kernel's time. A failed assertion, `$error`, `$fatal` or `$stop` of
/// the RTL is a report ERROR of this component, with the id RTL. Verilator prints its own line to standard output.
template <class Wires, class Model, class Waves = NoWaves> class Device : public Clock<Wires> {
public:
    /// Errors: std::invalid_argument, if the period is 0 or odd; std::runtime_error, if the file cannot be written.
    explicit Device(uint64_t period = 10, const char *file = std::getenv("VCD")) : Clock<Wires>(period) {
        context_.fatalOnError(false);
        if constexpr (!std::is_same_v<Waves, NoWaves>) {
            if (!file || !*file) return;
            context_.traceEverOn(true);
            waves_ = std::make_unique<Waves>();
            model_.trace(waves_.get(), 99);
            waves_->open(file);
            if (!waves_->isOpen()) throw std::runtime_error(std::string("cannot write ") + file);
        } else (void)file;
    }
    ~Device() override {
        Device::eval(this->wires(), this->clk());
        Device::dump();
        if constexpr (!std::is_same_v<Waves, NoWaves>)
            if (waves_) waves_->close();
        model_.final();
    }

protected:
    void eval(Wires &wires, bool clk) override {
        Library::Global::threadContextp(&context_); // of several devices
        context_.time(this->moment());
        wires.set_ports(model_, clk);
        model_.eval();
        wires.get_ports(model_);
        if (!context_.gotError()) return;
        context_.gotError(false);
        context_.gotFinish(false); // Verilator sets both
        this->record_error();
    }
    void dump() override {
        if constexpr (!std::is_same_v<Waves, NoWaves>)
            if (waves_) waves_->dump(this->moment());
    }

private:
    using Library = detail::Library<Model>;
    typename Library::Context context_;
    Model model_{&context_};
    std::unique_ptr<Waves> waves_;
};

} // namespace geqiwlla::rtl

#endif
