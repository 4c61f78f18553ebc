// Testbench objects in C++ for the kernel of `script_bench serve` (docs/PROTOCOL.md, version 1). C++17, standard library alone; the part
// that starts a kernel needs POSIX, and is left out elsewhere, or if GEQIWLLA_NO_POSIX is defined.
//
//     #include "geqiwlla.hpp"
//
//     struct Driver : geqiwlla::Component {
//         void build_phase() override { add_port("sqp", "seq"); }
//         void run_phase() override { get_next_item("sqp"); }
//         void next_item(std::string_view, const std::optional<geqiwlla::Item> &item) override {
//             info("DRV", "got data " + std::to_string((*item)[2]));
//             item_done("sqp");
//             wait(5, 1);
//         }
//         void wake(uint32_t) override { get_next_item("sqp"); }
//     };
//     GEQIWLLA_TYPE("driver", Driver);
//
//     int main(int count, char **words) { return geqiwlla::main(count, words); }
//
// A class is registered under the name that a script gives to its type. The kernel calls an object: a call is a virtual function that the
// class overrides. The object answers with actions: an action is a function that the object calls. An action is performed after the call
// has returned, in the order of the answer.
//
// An action with a wrong argument throws std::invalid_argument immediately. If a call throws, standard error has the object and the call, the
// client closes its pipes, the kernel aborts the run with `answers end`, and `main` returns 3.
#ifndef GEQIWLLA_HPP
#define GEQIWLLA_HPP

#include <algorithm>
#include <array>
#include <charconv>
#include <cstdint>
#include <cstdio>
#include <cstdlib>
#include <cstring>
#include <initializer_list>
#include <map>
#include <memory>
#include <optional>
#include <stdexcept>
#include <string>
#include <string_view>
#include <type_traits>
#include <unordered_map>
#include <utility>
#include <vector>

#if !defined(GEQIWLLA_NO_POSIX) && (defined(__unix__) || defined(__APPLE__))
#define GEQIWLLA_POSIX
#include <cerrno>
#include <chrono>
#include <csignal>
#include <fcntl.h>
#include <sys/resource.h>
#include <sys/wait.h>
#include <unistd.h>
#endif

namespace geqiwlla {

constexpr int version = 1;

/// The kernel aborts the run at an answer with more actions.
constexpr unsigned most_actions = 1000;

/// UVM's verbosities.
enum Verbosity : unsigned { UVM_NONE = 0, UVM_LOW = 100, UVM_MEDIUM = 200, UVM_HIGH = 300, UVM_FULL = 400, UVM_DEBUG = 500 };

/// A transaction: four integers of 64 bits.
using Item = std::array<int64_t, 4>;

/// The kernel does not follow the protocol, did not start, or ended early.
struct ProtocolError : std::runtime_error {
    using std::runtime_error::runtime_error;
    int status = 3; ///< the exit status for `main`: 2 if the kernel rejected its command line
};

/// A generator of random numbers of 64 bits (SplitMix64). It is the same on every machine; the distributions of <random> are not.
class Random {
public:
    using result_type = uint64_t;
    explicit Random(uint64_t seed) : state_(seed) {}
    static constexpr uint64_t min() { return 0; }
    static constexpr uint64_t max() { return UINT64_MAX; }

    /// Returns the next number.
    uint64_t operator()() {
        uint64_t z = state_ += 0x9e3779b97f4a7c15;
        z = (z ^ (z >> 30)) * 0xbf58476d1ce4e5b9;
        z = (z ^ (z >> 27)) * 0x94d049bb133111eb;
        return z ^ (z >> 31);
    }

    /// Returns a number from `low` to `high`, each equally often. Requires low <= high.
    int64_t between(int64_t low, int64_t high) {
        const uint64_t count = uint64_t(high) - uint64_t(low) + 1; // 0 stands for 2^64
        if (count == 0) return int64_t((*this)());
        const uint64_t surplus = (0 - count) % count;
        uint64_t word;
        do word = (*this)();
        while (word < surplus);
        return int64_t(uint64_t(low) + word % count);
    }

private:
    uint64_t state_;
};

namespace detail {

// Arguments of actions: each function throws unless the argument is a word that the kernel reads.

[[noreturn]] inline void wrong(const char *what, std::string_view text) {
    throw std::invalid_argument(std::string("not a ") + what + ": " + std::string(text));
}
inline bool is_visible(char c) { return c >= 0x21 && c <= 0x7e; }
inline bool is_name(std::string_view s) {
    if (s.empty() || s.size() > 64) return false;
    for (char c : s)
        if (!is_visible(c) || c == '.' || c == '*' || c == '+' || c == '?' || c == '/') return false;
    return true;
}
inline void check_name(std::string_view s, const char *what = "name") {
    if (!is_name(s)) wrong(what, s);
}
inline void check_path(std::string_view s) {
    if (s.empty()) return;
    if (s.size() > 1024) wrong("path", s);
    unsigned names = 0;
    for (size_t from = 0; from <= s.size(); names++) {
        const size_t stop = std::min(s.find('.', from), s.size());
        if (names == 32 || !is_name(s.substr(from, stop - from))) wrong("path", s);
        from = stop + 1;
    }
}
inline void check_glob(std::string_view s) {
    if (s.size() > 1024) wrong("glob", s);
    for (char c : s)
        if (!is_visible(c) || c == '/') wrong("glob", s);
}
inline void check_word(std::string_view s, std::initializer_list<std::string_view> words, const char *what) {
    for (std::string_view word : words)
        if (s == word) return;
    wrong(what, s);
}
inline void check_severity(std::string_view s) { check_word(s, {"INFO", "WARNING", "ERROR", "FATAL"}, "severity"); }
inline void check_kind(std::string_view s) { check_word(s, {"put", "get", "analysis", "seq"}, "kind of a port"); }
inline void check_small(uint64_t n, const char *what) {
    if (n > 65535) wrong(what, std::to_string(n));
}

// The text of an answer.
struct Text {
    std::string &text;
    Text &operator<<(std::string_view s) { return text.append(s), *this; }
    Text &operator<<(char c) { return text.push_back(c), *this; }
    template <class N, class = std::enable_if_t<std::is_integral_v<N>>> Text &operator<<(N n) {
        char digits[24];
        const auto end = std::to_chars(digits, digits + sizeof digits, n).ptr;
        return text.append(digits, size_t(end - digits)), *this;
    }
    Text &operator<<(const Item &item) {
        return *this << '[' << item[0] << ',' << item[1] << ',' << item[2] << ',' << item[3] << ']';
    }
    template <class T> Text &operator<<(const std::optional<T> &some) { return some ? *this << *some : *this << "none"; }
};

// The words of a call.
inline std::string_view word(std::string_view &rest) {
    const size_t n = rest.find(' ');
    const std::string_view it = rest.substr(0, n);
    rest = n == rest.npos ? std::string_view() : rest.substr(n + 1);
    return it;
}
template <class N> N number(std::string_view s) {
    N n{};
    const auto end = s.data() + s.size();
    const auto got = std::from_chars(s.data(), end, n);
    if (got.ec != std::errc() || got.ptr != end) throw ProtocolError("not a number: " + std::string(s));
    return n;
}
inline Item item(std::string_view s) {
    Item it{};
    const char *at = s.data(), *const end = at + s.size();
    for (size_t i = 0; i < 4; i++) {
        if (at == end || *at != (i ? ',' : '[')) throw ProtocolError("not an item: " + std::string(s));
        const auto got = std::from_chars(at + 1, end, it[i]);
        if (got.ec != std::errc()) throw ProtocolError("not an item: " + std::string(s));
        at = got.ptr;
    }
    if (at + 1 != end || *at != ']') throw ProtocolError("not an item: " + std::string(s));
    return it;
}
inline std::optional<Item> some_item(std::string_view s) { return s == "none" ? std::nullopt : std::optional<Item>(item(s)); }

} // namespace detail

class Run;

/// The part that components and sequences share. Its values are known from the constructor on.
class Object {
public:
    virtual ~Object() = default;
    Object(const Object &) = delete;
    Object &operator=(const Object &) = delete;

    /// Returns the type that the factory made, after overrides.
    const std::string &type_name() const { return type_name_; }
    /// Returns the path of a component; of a sequence, that of its sequencer with the names from its root sequence down to itself.
    const std::string &path() const { return path_; }
    /// Returns the last name of the path.
    std::string_view name() const { return std::string_view(path_).substr(path_.rfind('.') + 1); }
    /// Returns the component or sequence as the transcript names it.
    const std::string &who() const { return who_; }
    /// Returns the current time in ticks.
    uint64_t time() const;
    /// Returns the seed of the run.
    uint64_t seed() const;
    /// Returns a generator of random numbers. The seed of the run and `who` determine its numbers, so runs repeat.
    Random &random();

    // Actions.

    /// Sets a configuration field at the paths that a glob matches, below this object (uvm_config_db::set).
    void set_config(std::string_view glob, std::string_view field, int64_t value) {
        detail::check_glob(glob), detail::check_name(field);
        action() << "set (" << glob << ") " << field << ' ' << value;
    }
    /// Looks up a configuration field (uvm_config_db::get). `config` follows.
    void get_config(std::string_view field) {
        detail::check_name(field);
        action() << "get " << field;
    }
    /// Overrides a type at every path. Without `replace`, an earlier override of the type stays in force.
    void set_type_override(std::string_view original, std::string_view type, bool replace = false) {
        detail::check_name(original), detail::check_name(type);
        action() << "override " << original << ' ' << type << (replace ? " replace" : "");
    }
    /// Overrides a type at the paths that a glob matches, below this object.
    void set_inst_override(std::string_view original, std::string_view type, std::string_view glob) {
        detail::check_name(original), detail::check_name(type), detail::check_glob(glob);
        action() << "override " << original << ' ' << type << " at (" << glob << ')';
    }
    /// Starts a sequence on a sequencer. A sequence starts its children on its own sequencer, "". `finished` follows.
    void start(std::string_view type, std::string_view name, std::string_view sequencer = "", std::optional<unsigned> priority = {}) {
        detail::check_name(type), detail::check_name(name), detail::check_path(sequencer), detail::check_small(priority.value_or(0), "priority");
        action() << "start " << type << ' ' << name << " (" << sequencer << ") " << priority;
    }
    /// Issues a report. The text is cut to 200 bytes; a byte that is not printable ASCII becomes `?`.
    void report(std::string_view severity, std::string_view id, std::string_view text = "", unsigned verbosity = 0) {
        detail::check_severity(severity), detail::check_name(id, "report id"), detail::check_small(verbosity, "verbosity");
        if (text.find('\n') != text.npos) detail::wrong("text of one line", text);
        detail::Text out = action();
        out << "report " << severity << ' ' << id;
        if (verbosity || !text.empty()) out << ' ' << verbosity;
        if (text.empty()) return;
        out << ' ';
        for (char c : text.substr(0, 200)) out << (detail::is_visible(c) || c == ' ' ? c : '?');
    }
    /// Issues an INFO (uvm_report_info).
    void info(std::string_view id, std::string_view text, unsigned verbosity = UVM_MEDIUM) { report("INFO", id, text, verbosity); }
    /// Issues a WARNING (uvm_report_warning).
    void warning(std::string_view id, std::string_view text) { report("WARNING", id, text); }
    /// Issues an ERROR (uvm_report_error).
    void error(std::string_view id, std::string_view text) { report("ERROR", id, text); }
    /// Issues a FATAL (uvm_report_fatal).
    void fatal(std::string_view id, std::string_view text) { report("FATAL", id, text); }
    /// Sets the verbosity level at this path, for all reports, or those of a severity, of an id, or of both.
    void set_verbosity(unsigned level, std::string_view severity = "", std::string_view id = "") {
        detail::check_small(level, "level");
        which("verbosity ", severity, id) << ' ' << level;
    }
    /// Sets what is done with reports at this path: some of "display", "count", "exit"; nothing for none.
    void set_actions(std::initializer_list<std::string_view> actions, std::string_view severity = "", std::string_view id = "") {
        bool given[3] = {};
        for (std::string_view one : actions) {
            detail::check_word(one, {"display", "count", "exit"}, "report action");
            given[one == "display" ? 0 : one == "count" ? 1 : 2] = true;
        }
        detail::Text out = which("actions ", severity, id);
        out << ' ' << (given[0] ? "display" : given[1] ? "count" : given[2] ? "exit" : "none");
        if (given[0] && given[1]) out << ",count";
        if ((given[0] || given[1]) && given[2]) out << ",exit";
    }
    /// Changes the severity of reports at this path, of every id or of one.
    void set_severity(std::string_view from, std::string_view to, std::string_view id = "") {
        detail::check_severity(from), detail::check_severity(to);
        if (!id.empty()) detail::check_name(id, "report id");
        if (id == "none") detail::wrong("report id here", id);
        action() << "severity " << from << ' ' << (id.empty() ? "none" : id) << ' ' << to;
    }
    /// Raises objections in the phase of this call.
    void raise_objection(unsigned count = 1) {
        detail::check_small(count, "count of objections");
        action() << "raise " << count;
    }
    /// Drops objections in the phase of this call.
    void drop_objection(unsigned count = 1) {
        detail::check_small(count, "count of objections");
        action() << "drop " << count;
    }
    /// Sets the drain time of the phase, in ticks.
    void set_drain(uint64_t ticks) { action() << "set_drain " << ticks; }
    /// Waits for ticks. `wake` follows, with this tag.
    void wait(uint64_t ticks, uint32_t tag = 0) { action() << "wait " << ticks << ' ' << tag; }

    // Calls.

    /// Is called when the ticks of a wait have passed.
    virtual void wake(uint32_t /*tag*/) {}
    /// Is called after `get_config`, with the value of the field, if it has one.
    virtual void config(std::string_view /*field*/, std::optional<int64_t> /*value*/) {}
    /// Is called when a sequence that this object started has finished.
    virtual void finished(std::string_view /*name*/, uint64_t /*number*/) {}

protected:
    Object();

    // Begins the text of an action.
    detail::Text action();
    detail::Text which(std::string_view word, std::string_view severity, std::string_view id) {
        if (!severity.empty()) detail::check_severity(severity);
        if (!id.empty()) detail::check_name(id, "report id");
        detail::Text out = action();
        out << word << (!severity.empty() ? severity : id.empty() ? "all" : "id");
        if (!id.empty()) out << ' ' << id;
        return out;
    }
    // Calls the function of a call, and returns false if it has none.
    virtual bool call(std::string_view word, std::string_view rest) {
        if (word == "wake") wake(detail::number<uint32_t>(rest));
        else if (word == "config") {
            const std::string_view field = detail::word(rest);
            config(field, rest == "none" ? std::nullopt : std::optional<int64_t>(detail::number<int64_t>(rest)));
        } else if (word == "finished") {
            const std::string_view sequence = detail::word(rest);
            finished(sequence, detail::number<uint64_t>(rest));
        } else return false;
        return true;
    }

private:
    friend class Run;
    Run *run_ = nullptr;
    std::string type_name_, path_, who_;
    std::optional<Random> random_;
};

#define GEQIWLLA_PHASES(X) \
    X(build) X(connect) X(end_of_elaboration) X(start_of_simulation) X(run) X(pre_reset) X(reset) X(post_reset) X(pre_configure) X(configure) \
    X(post_configure) X(pre_main) X(main) X(post_main) X(pre_shutdown) X(shutdown) X(post_shutdown) X(extract) X(check) X(report) X(final)

/// A component. Each phase is a call.
class Component : public Object {
public:
    // Actions.

    /// Creates a component as a child of this one, by the factory, until build ends.
    void create(std::string_view type, std::string_view name) {
        detail::check_name(type), detail::check_name(name);
        action() << "create " << type << ' ' << name;
    }
    /// Adds a sequencer as a child: FIFO, WEIGHTED, RANDOM, STRICT_FIFO or STRICT_RANDOM.
    void add_sequencer(std::string_view name, std::string_view mode = "FIFO") {
        detail::check_name(name), detail::check_word(mode, {"FIFO", "WEIGHTED", "RANDOM", "STRICT_FIFO", "STRICT_RANDOM"}, "mode");
        action() << "add " << name << " sequencer " << mode;
    }
    /// Adds a FIFO as a child; 0 is no limit.
    void add_fifo(std::string_view name, unsigned size = 1) {
        detail::check_name(name), detail::check_small(size, "size");
        action() << "add " << name << " fifo " << size;
    }
    /// Adds a port as a child: put, get, analysis or seq.
    void add_port(std::string_view name, std::string_view kind) {
        detail::check_name(name), detail::check_kind(kind);
        action() << "add " << name << " port " << kind;
    }
    /// Adds an export as a child: put, get, analysis or seq.
    void add_export(std::string_view name, std::string_view kind) {
        detail::check_name(name), detail::check_kind(kind);
        action() << "add " << name << " export " << kind;
    }
    /// Adds an imp as a child. `written` follows each write that reaches it.
    void add_imp(std::string_view name) {
        detail::check_name(name);
        action() << "add " << name << " imp";
    }
    /// Connects a port or an export to another end, by paths below this component.
    void connect(std::string_view from, std::string_view to) {
        detail::check_path(from), detail::check_path(to);
        action() << "connect (" << from << ") (" << to << ')';
    }
    /// Puts an item into a FIFO, once it has capacity. `stored` follows.
    void put(std::string_view port, const Item &item) { port_action("put ", port) << ' ' << item; }
    /// Puts an item into a FIFO, if it has capacity. `try_stored` follows.
    void try_put(std::string_view port, const Item &item) { port_action("try_put ", port) << ' ' << item; }
    /// Takes an item from a FIFO, once it has one (UVM's get). `taken` follows.
    void take(std::string_view port) { port_action("take ", port); }
    /// Takes an item from a FIFO, if it has one (UVM's try_get). `try_taken` follows.
    void try_take(std::string_view port) { port_action("try_take ", port); }
    /// Reads the first item of a FIFO, once it has one. `peeked` follows.
    void peek(std::string_view port) { port_action("peek ", port); }
    /// Writes an item through an analysis port.
    void write(std::string_view port, const Item &item) { port_action("write ", port) << ' ' << item; }
    /// Asks a sequencer for an item. `next_item` follows.
    void get_next_item(std::string_view port) { port_action("ask ", port) << " next"; }
    /// Asks a sequencer for an item, without waiting. `next_item` follows, with no item if there is none.
    void try_next_item(std::string_view port) { port_action("ask ", port) << " try"; }
    /// Asks a sequencer for an item that counts as done when it comes (the driver's get). `next_item` follows.
    void get_item(std::string_view port) { port_action("ask ", port) << " get"; }
    /// Completes the item of this driver, without a response.
    void item_done(std::string_view port) { port_action("item_done ", port) << " none"; }
    /// Completes the item of this driver, with a response.
    void item_done(std::string_view port, const Item &response) { port_action("item_done ", port) << ' ' << response; }
    /// Completes the item of this driver, with or without a response.
    void item_done(std::string_view port, const std::optional<Item> &response) { port_action("item_done ", port) << ' ' << response; }

    // Calls. That of a phase comes once in the phase.

#define GEQIWLLA_PHASE(name) virtual void name##_phase() {}
    GEQIWLLA_PHASES(GEQIWLLA_PHASE)
#undef GEQIWLLA_PHASE
    /// Is called when an item that was put is in the FIFO.
    virtual void stored(std::string_view /*port*/) {}
    /// Is called after `try_put`, with whether the item is in the FIFO.
    virtual void try_stored(std::string_view /*port*/, bool /*stored*/) {}
    /// Is called after `take`, with the item.
    virtual void taken(std::string_view /*port*/, const Item & /*item*/) {}
    /// Is called after `try_take`, with the item, if there was one.
    virtual void try_taken(std::string_view /*port*/, const std::optional<Item> & /*item*/) {}
    /// Is called after `peek`, with the first item of the FIFO, which stays there.
    virtual void peeked(std::string_view /*port*/, const Item & /*item*/) {}
    /// Is called when an item was written to an imp of this component.
    virtual void written(std::string_view /*imp*/, const Item & /*item*/) {}
    /// Is called when a sequence has sent an item; with no item if `try_next_item` found none.
    virtual void next_item(std::string_view /*port*/, const std::optional<Item> & /*item*/) {}

protected:
    detail::Text port_action(std::string_view word, std::string_view port) {
        detail::check_name(port);
        return action() << word << port;
    }
    bool call(std::string_view word, std::string_view rest) override {
        if (rest.empty()) return phase(word);
        std::string_view tail = rest;
        const std::string_view port = detail::word(tail);
        if (word == "written") written(port, detail::item(tail));
        else if (word == "next_item") next_item(port, detail::some_item(tail));
        else if (word == "taken") taken(port, detail::item(tail));
        else if (word == "stored") stored(port);
        else if (word == "try_stored") try_stored(port, tail == "yes");
        else if (word == "try_taken") try_taken(port, detail::some_item(tail));
        else if (word == "peeked") peeked(port, detail::item(tail));
        else return Object::call(word, rest);
        return true;
    }

private:
    bool phase(std::string_view word) {
#define GEQIWLLA_PHASE(name) \
    if (word == #name) return name##_phase(), true;
        GEQIWLLA_PHASES(GEQIWLLA_PHASE)
#undef GEQIWLLA_PHASE
        return false;
    }
};

/// A sequence. The action `end_step` ends each of its steps: `pre_start`, `body`, `post_start`.
class Sequence : public Object {
public:
    /// Returns the number of the sequence in the run, from 1.
    uint64_t number() const { return detail::number<uint64_t>(std::string_view(who()).substr(who().rfind('#') + 1)); }

    // Actions.

    /// Requests to send an item (wait_for_grant). `grant` follows.
    void request(std::optional<unsigned> priority = {}) {
        detail::check_small(priority.value_or(0), "priority");
        action() << "request " << priority;
    }
    /// Sends an item to the driver, after a grant (send_request). `item_done` follows.
    void send(const Item &item) { action() << "send " << item; }
    /// Requests to hold the sequencer, after all requests that wait. `held` follows.
    void lock() { action() << "lock"; }
    /// Requests to hold the sequencer, before all requests that wait. `held` follows.
    void grab() { action() << "grab"; }
    /// Releases the latest lock or grab of this sequence.
    void unlock() { action() << "unlock"; }
    /// Ends the current step. `body` or `post_start` follows, or the sequence has finished.
    void end_step() { action() << "end_step"; }

    // Calls.

    /// Is called in the first step. By default it ends the step.
    virtual void pre_start() { end_step(); }
    /// Is called in the second step. By default it ends the step.
    virtual void body() { end_step(); }
    /// Is called in the last step. By default it ends the step.
    virtual void post_start() { end_step(); }
    /// Is called when the sequence may send its item.
    virtual void grant() {}
    /// Is called when the driver has completed the item, with the response, if there is one.
    virtual void item_done(const std::optional<Item> & /*response*/) {}
    /// Is called when the sequence holds the sequencer.
    virtual void held() {}

protected:
    bool call(std::string_view word, std::string_view rest) override {
        if (word == "grant") grant();
        else if (word == "item_done") item_done(detail::some_item(rest));
        else if (word == "held") held();
        else if (word == "pre_start") pre_start();
        else if (word == "body") body();
        else if (word == "post_start") post_start();
        else return Object::call(word, rest);
        return true;
    }
};

/// The types of this program, by the names that scripts give them.
class Registry {
public:
    using Make = std::unique_ptr<Object> (*)();

    /// Returns the registry of GEQIWLLA_TYPE.
    static Registry &global() {
        static Registry it;
        return it;
    }
    /// Registers a class under a name.
    template <class T> bool add(std::string_view type_name) {
        static_assert(std::is_base_of_v<Component, T> != std::is_base_of_v<Sequence, T>, "a type is a component or a sequence");
        detail::check_name(type_name, "type name");
        const auto make = [] { return std::unique_ptr<Object>(new T()); };
        if (!of_kind(std::is_base_of_v<Sequence, T>).emplace(type_name, make).second)
            throw std::invalid_argument("registered twice: " + std::string(type_name));
        return true;
    }
    /// Returns what makes an object of a type; null if this program does not have it.
    Make find(std::string_view kind, std::string_view type_name) const {
        const auto &types = kind == "sequence" ? sequences_ : components_;
        const auto it = types.find(type_name);
        return it == types.end() ? nullptr : it->second;
    }

private:
    using Types = std::map<std::string, Make, std::less<>>;
    Types &of_kind(bool sequence) { return sequence ? sequences_ : components_; }
    Types components_, sequences_;
};

#define GEQIWLLA_JOIN_WORDS(a, b) a##b
#define GEQIWLLA_JOIN(a, b) GEQIWLLA_JOIN_WORDS(a, b)
/// Registers a class under the name of a type: GEQIWLLA_TYPE("driver", Driver);
#define GEQIWLLA_TYPE(name, ...) \
    [[maybe_unused]] static const bool GEQIWLLA_JOIN(geqiwlla_type_, __COUNTER__) = ::geqiwlla::Registry::global().add<__VA_ARGS__>(name)

/// The result of a run.
struct Result {
    std::string verdict;     ///< clean, faulty, refused or broken; empty if the kernel ended early
    int status = 3;          ///< the exit status of the kernel
    uint64_t fault_line = 0; ///< the line of the answers at which the kernel aborted the run, or 0
    std::string fault;       ///< the reason, or empty
    uint64_t questions = 0;
};

/// The two ends of the pipes.
class Channel {
public:
    virtual ~Channel() = default;
    /// Reads at least one byte, and returns the number of bytes: 0 at the end.
    virtual size_t read(char *bytes, size_t most) = 0;
    /// Writes all bytes, and flushes.
    virtual void write(const char *bytes, size_t count) = 0;
};

/// Takes the lines of the transcript, each with its newline.
class Lines {
public:
    virtual ~Lines() = default;
    virtual void take(std::string_view line) = 0;
};

/// One run, from the client's side.
class Run {
public:
    /// Begins a run. Without `lines`, transcript lines are dropped. Each answer goes to `record` too, if there is one.
    Run(Channel &channel, Lines *lines = nullptr, std::FILE *record = nullptr, const Registry &types = Registry::global())
        : channel_(channel), lines_(lines), record_(record), types_(types) {}

    /// Answers questions until `! end`. Errors: ProtocolError; whatever a call throws.
    const Result &serve() {
        std::string_view line;
        if (!next(line)) throw ProtocolError("the kernel wrote no line");
        if (line != "! serve 1\n") throw ProtocolError("not version 1 of the protocol: " + std::string(line.substr(0, line.size() - 1)));
        while (next(line)) {
            const Mark mark = mark_of(line);
            const std::string_view text = mark == Mark::Line ? line : line.substr(2, line.size() - 3);
            if (mark == Mark::Question) question(text);
            else if (mark == Mark::Line) take(line);
            else if (notice(text)) return result_;
        }
        throw ProtocolError("the kernel ended without `! end`");
    }
    /// Reads on to the end, without answers.
    const Result &drain() {
        std::string_view line;
        while (result_.verdict.empty() && next(line)) {
            const Mark mark = mark_of(line);
            if (mark == Mark::Line) take(line);
            else if (line.substr(0, 8) == "! fault " || line.substr(0, 6) == "! end ") notice(line.substr(2, line.size() - 3));
        }
        return result_;
    }
    /// Returns the result so far.
    const Result &result() const { return result_; }
    uint64_t time() const { return time_; }
    uint64_t seed() const { return seed_; }

private:
    friend class Object;
    using Objects = std::unordered_map<std::string_view, std::unique_ptr<Object>>; // a key is the object's own text
    enum class Mark { Question, Notice, Line };

    // What the next object that is constructed takes over.
    struct Birth {
        Run *run;
        std::string type_name, path, who;
    };
    static Birth *&birth() {
        thread_local Birth *it = nullptr;
        return it;
    }

    static Mark mark_of(std::string_view line) {
        if (line.size() < 3 || line[1] != ' ') return Mark::Line;
        return line[0] == '?' ? Mark::Question : line[0] == '!' ? Mark::Notice : Mark::Line;
    }
    Objects &of_kind(std::string_view kind) { return kind == "sequence" ? sequences_ : components_; }
    void take(std::string_view line) {
        if (lines_) lines_->take(line);
    }

    // Calls a function, and returns its result. If it throws, says on standard error where.
    template <class Function> static auto blamed(const char *where, std::string_view what, Function &&function) {
        try {
            return function();
        } catch (const ProtocolError &) {
            throw;
        } catch (...) {
            std::fprintf(stderr, "exception %s: %.*s\n", where, int(what.size()), what.data());
            throw;
        }
    }

    void question(std::string_view text) {
        answer_.clear();
        const std::string_view all = text, word = detail::word(text), kind = detail::word(text);
        if (word == "ask") {
            const std::string_view who = detail::word(text), call = detail::word(text);
            const Objects &objects = of_kind(kind);
            const auto it = objects.find(who);
            if (it == objects.end()) throw ProtocolError("unknown object: " + std::string(all));
            called_ = it->second.get();
            actions_ = 0;
            const bool known = blamed("in the call", all.substr(4), [&] { return called_->call(call, text); });
            called_ = nullptr;
            if (!known) throw ProtocolError("unknown call: " + std::string(all));
            answer_ += actions_ ? "\n\n" : "\n";
        } else if (word == "need") {
            const std::string_view type_name = detail::word(text);
            make_ = types_.find(kind, type_name);
            birth_.type_name = type_name, birth_.path = text;
            answer_ = make_ ? "made\n" : "declined\n";
        } else throw ProtocolError("unknown question: " + std::string(all));
        if (record_) std::fwrite(answer_.data(), 1, answer_.size(), record_);
        channel_.write(answer_.data(), answer_.size());
        result_.questions++;
    }

    // Takes in a notice, and returns whether it is the last line.
    bool notice(std::string_view text) {
        const std::string_view all = text, word = detail::word(text);
        if (word == "time") time_ = detail::number<uint64_t>(text);
        else if (word == "new") {
            const std::string_view kind = detail::word(text);
            if (!make_) throw ProtocolError("a new object that the client did not make: " + std::string(text));
            birth_.who = text, birth_.run = this;
            birth() = &birth_;
            std::unique_ptr<Object> it;
            try {
                it = blamed("in the constructor of", all.substr(4), std::exchange(make_, nullptr));
            } catch (...) {
                birth() = nullptr;
                throw;
            }
            const std::string_view who = it->who();
            of_kind(kind)[who] = std::move(it);
        } else if (word == "back") {
            Objects &objects = of_kind(detail::word(text));
            const auto at = objects.find(text);
            if (at == objects.end()) return false;
            const std::unique_ptr<Object> ended = std::move(at->second);
            objects.erase(at);
        } else if (word == "seed") seed_ = detail::number<uint64_t>(text);
        else if (word == "fault") {
            result_.fault_line = detail::number<uint64_t>(detail::word(text));
            result_.fault = text;
        } else if (word == "end") {
            result_.verdict = detail::word(text);
            result_.status = detail::number<int>(text);
            return true;
        }
        return false;
    }

    // Gives the next line, with its newline; it is valid until the next call. Returns false at the end.
    bool next(std::string_view &line) {
        for (size_t seen = at_;;) {
            const void *newline = seen < end_ ? std::memchr(bytes_.data() + seen, '\n', end_ - seen) : nullptr;
            if (newline) {
                const size_t stop = size_t(static_cast<const char *>(newline) - bytes_.data()) + 1;
                line = std::string_view(bytes_.data() + at_, stop - at_);
                at_ = stop;
                return true;
            }
            if (at_ > 0) {
                std::memmove(bytes_.data(), bytes_.data() + at_, end_ - at_);
                end_ -= at_, at_ = 0;
            }
            seen = end_;
            if (end_ == bytes_.size()) bytes_.resize(2 * end_);
            const size_t count = channel_.read(bytes_.data() + end_, bytes_.size() - end_);
            if (count == 0) return false;
            end_ += count;
        }
    }

    Channel &channel_;
    Lines *lines_;
    std::FILE *record_;
    const Registry &types_;
    std::vector<char> bytes_ = std::vector<char>(65536);
    size_t at_ = 0, end_ = 0;
    std::string answer_;
    unsigned actions_ = 0;
    Object *called_ = nullptr;
    Registry::Make make_ = nullptr;
    Birth birth_{};
    Objects components_, sequences_;
    uint64_t time_ = 0, seed_ = 0;
    Result result_;
};

inline Object::Object() {
    if (Run::Birth *it = std::exchange(Run::birth(), nullptr)) run_ = it->run, type_name_ = it->type_name, path_ = it->path, who_ = it->who;
}
inline uint64_t Object::time() const { return run_ ? run_->time_ : 0; }
inline uint64_t Object::seed() const { return run_ ? run_->seed_ : 0; }
inline Random &Object::random() {
    if (!random_) {
        uint64_t hash = 0xcbf29ce484222325; // FNV-1a, of the kind and `who`
        const auto mix = [&hash](std::string_view s) {
            for (char c : s) hash = (hash ^ static_cast<unsigned char>(c)) * 0x100000001b3;
        };
        mix(dynamic_cast<Sequence *>(this) ? "sequence " : "component ");
        mix(who_);
        random_.emplace(Random(seed() ^ hash)());
    }
    return *random_;
}
inline detail::Text Object::action() {
    if (!run_ || run_->called_ != this) throw std::logic_error(who_ + ": an action belongs to a call of this object");
    if (run_->actions_ == most_actions) throw std::logic_error(who_ + ": more than 1,000 actions in an answer");
    if (run_->actions_++) run_->answer_ += '\n';
    return {run_->answer_};
}

#ifdef GEQIWLLA_POSIX

namespace detail {

// The kernel does not read any more.
struct Gone : ProtocolError {
    using ProtocolError::ProtocolError;
};

} // namespace detail

/// Two ends of pipes, by their numbers. The destructor closes them.
class Pipes : public Channel {
public:
    Pipes(int in, int out) : in_(in), out_(out) {}
    Pipes(const Pipes &) = delete;
    Pipes &operator=(const Pipes &) = delete;
    ~Pipes() override {
        close_out();
        ::close(in_);
    }
    /// Closes the end that is written.
    void close_out() {
        if (out_ >= 0) ::close(std::exchange(out_, -1));
    }
    size_t read(char *bytes, size_t most) override {
        for (;;) {
            const ssize_t count = ::read(in_, bytes, most);
            if (count >= 0) return size_t(count);
            if (errno != EINTR) throw ProtocolError("cannot read from the kernel");
        }
    }
    void write(const char *bytes, size_t count) override {
        while (count) {
            const ssize_t taken = ::write(out_, bytes, count);
            if (taken >= 0) bytes += taken, count -= size_t(taken);
            else if (errno != EINTR) throw detail::Gone("the kernel ended without `! end`");
        }
    }

private:
    int in_, out_;
};

/// Writes the transcript to a file.
class Printed : public Lines {
public:
    explicit Printed(std::FILE *file) : file_(file) {}
    void take(std::string_view line) override { std::fwrite(line.data(), 1, line.size(), file_); }

private:
    std::FILE *file_;
};

/// How a run is started.
struct Options {
    std::string kernel; ///< the path of script_bench; if empty, the environment variable KERNEL, else script_bench on the PATH
    std::string file, test, record;
    uint64_t seed = 1;
    bool trace = false, quiet = false, count = false, stdio = false;
};

namespace detail {

// Starts the kernel, with the other ends of two pipes, and returns its process.
inline pid_t start_kernel(const Options &o, int &in, int &out) {
    const char *own = std::getenv("KERNEL");
    const std::string program = !o.kernel.empty() ? o.kernel : own && *own ? own : "script_bench", seed = std::to_string(o.seed);
    std::vector<const char *> words = {program.c_str(), "serve", "--seed", seed.c_str()};
    if (o.trace) words.push_back("--trace");
    if (!o.test.empty()) words.insert(words.end(), {"--test", o.test.c_str()});
    words.insert(words.end(), {o.file.c_str(), nullptr});
    int answers[2], output[2];
    if (::pipe(answers)) throw ProtocolError("no pipe");
    if (::pipe(output)) throw ProtocolError("no pipe");
    std::fflush(stdout); // so that the child has nothing to flush
    const pid_t child = ::fork();
    if (child < 0) throw ProtocolError("no process");
    if (child == 0) {
        ::dup2(answers[0], 0);
        ::dup2(output[1], 1);
        for (int end : {answers[0], answers[1], output[0], output[1]})
            if (end > 2) ::close(end);
        ::execvp(words[0], const_cast<char *const *>(words.data()));
        std::fprintf(stderr, "%s: %s\n", words[0], std::strerror(errno));
        ::_exit(3);
    }
    ::close(answers[0]);
    ::close(output[1]);
    for (int end : {answers[1], output[0]}) ::fcntl(end, F_SETFD, FD_CLOEXEC);
    in = output[0], out = answers[1];
    return child;
}

// A kernel that runs. The destructor closes its pipes, and waits for it.
class Kernel {
public:
    Kernel(const Options &o, struct rusage *use) : use_(use) {
        int in, out;
        process_ = start_kernel(o, in, out);
        before_ = std::signal(SIGPIPE, SIG_IGN);
        pipes_.emplace(in, out);
    }
    Kernel(const Kernel &) = delete;
    Kernel &operator=(const Kernel &) = delete;
    ~Kernel() {
        end();
        std::signal(SIGPIPE, before_);
    }
    Pipes &pipes() { return *pipes_; }
    /// Closes the pipes, waits for the kernel, and returns its exit status; -1 if it was killed.
    int end() {
        if (!pipes_) return status_;
        pipes_.reset();
        int status = 0;
        struct rusage use {};
        while (::wait4(process_, &status, 0, &use) < 0 && errno == EINTR) {}
        if (use_) *use_ = use;
        return status_ = WIFEXITED(status) ? WEXITSTATUS(status) : -1;
    }

private:
    struct rusage *use_;
    pid_t process_;
    void (*before_)(int);
    std::optional<Pipes> pipes_;
    int status_ = -1;
};

// A file that is closed at the end, or none.
struct File {
    std::FILE *file;
    explicit File(const std::string &path) : file(path.empty() ? nullptr : std::fopen(path.c_str(), "wb")) {
        if (!path.empty() && !file) throw ProtocolError(path + ": " + std::strerror(errno));
    }
    File(const File &) = delete;
    File &operator=(const File &) = delete;
    ~File() {
        if (file) std::fclose(file);
    }
};

} // namespace detail

/// Starts a kernel, answers its questions, and returns the result. Errors: ProtocolError; whatever a call throws, after the kernel has ended.
inline Result run(const Options &o, Lines *lines = nullptr, const Registry &types = Registry::global(), struct rusage *kernel_use = nullptr) {
    detail::File record(o.record);
    detail::Kernel kernel(o, kernel_use);
    Run run(kernel.pipes(), lines, record.file, types);
    try {
        return run.serve();
    } catch (const detail::Gone &) {
        // If the kernel aborted the run, its last lines say why.
        kernel.pipes().close_out();
        if (run.drain().verdict.empty()) throw;
        return run.result();
    } catch (ProtocolError &error) {
        kernel.pipes().close_out();
        run.drain();
        if (kernel.end() == 2) error.status = 2;
        throw;
    } catch (...) {
        kernel.pipes().close_out();
        run.drain();
        throw;
    }
}

/// Answers a kernel over standard input and output, and returns the result. `stdout` goes to standard error from then on.
inline Result stdio(const Registry &types = Registry::global()) {
    std::fflush(stdout);
    Pipes pipes(::dup(0), ::dup(1));
    ::dup2(2, 1);
    return Run(pipes, nullptr, nullptr, types).serve();
}

namespace detail {

constexpr const char *usage = "usage: %s [--kernel PATH] [--trace] [--seed N] [--test TEST] [--record FILE] [--quiet] [--count] SCRIPT\n"
                              "       %s --stdio [--count]\n";

// Reads the arguments of a command line, or throws std::invalid_argument.
inline Options options(int count, char **words) {
    Options o;
    for (int i = 1; i < count; i++) {
        std::string_view word = words[i], value;
        const size_t equals = word.substr(0, 2) == "--" ? word.find('=') : word.npos;
        const auto argument = [&] {
            if (equals != word.npos) return std::string(value);
            if (++i == count) throw std::invalid_argument("a value is missing after " + std::string(word));
            return std::string(words[i]);
        };
        if (equals != word.npos) value = word.substr(equals + 1), word = word.substr(0, equals);
        if (word == "--trace") o.trace = true;
        else if (word == "--quiet") o.quiet = true;
        else if (word == "--count") o.count = true;
        else if (word == "--stdio") o.stdio = true;
        else if (word == "--kernel") o.kernel = argument();
        else if (word == "--test") o.test = argument();
        else if (word == "--record") o.record = argument();
        else if (word == "--seed") {
            const std::string text = argument();
            const auto got = std::from_chars(text.data(), text.data() + text.size(), o.seed);
            if (got.ec != std::errc() || got.ptr != text.data() + text.size()) throw std::invalid_argument("--seed is a number from 0 to 2^64-1");
        } else if (word.substr(0, 2) == "--") throw std::invalid_argument("unknown: " + std::string(word));
        else if (!o.file.empty()) throw std::invalid_argument("one script alone");
        else o.file = word;
    }
    if (o.stdio != o.file.empty()) throw std::invalid_argument("give either a script or --stdio");
    return o;
}

inline double seconds(const timeval &t) { return double(t.tv_sec) + 1e-6 * double(t.tv_usec); }

inline void print_counts(const Result &result, double elapsed, const struct rusage &kernel) {
    struct rusage own {};
    ::getrusage(RUSAGE_SELF, &own);
    std::fprintf(stderr, "%llu questions in %.3f s, %.0f a second; client %.3f s user %.3f s system, kernel %.3f s user %.3f s system\n",
                 static_cast<unsigned long long>(result.questions), elapsed, double(result.questions) / elapsed, seconds(own.ru_utime),
                 seconds(own.ru_stime), seconds(kernel.ru_utime), seconds(kernel.ru_stime));
}

} // namespace detail

/// Runs a script over the registered classes, as the command line says, and returns the exit status: that of the kernel, or 3.
inline int main(int count, char **words) {
    Options o;
    try {
        o = detail::options(count, words);
    } catch (const std::invalid_argument &error) {
        std::fprintf(stderr, "%s: %s\n", words[0], error.what());
        std::fprintf(stderr, detail::usage, words[0], words[0]);
        return 2;
    }
    try {
        const auto begun = std::chrono::steady_clock::now();
        Printed printed(stdout);
        struct rusage kernel {};
        const Result result = o.stdio ? stdio() : run(o, o.quiet ? nullptr : &printed, Registry::global(), &kernel);
        const std::chrono::duration<double> elapsed = std::chrono::steady_clock::now() - begun;
        if (std::fflush(stdout) != 0 || std::ferror(stdout)) throw ProtocolError("output fault");
        if (!result.fault.empty())
            std::fprintf(stderr, "the kernel aborts the run at line %llu of the answers: %s\n", static_cast<unsigned long long>(result.fault_line), result.fault.c_str());
        if (o.count) detail::print_counts(result, elapsed.count(), kernel);
        return result.status;
    } catch (const ProtocolError &error) {
        std::fflush(stdout);
        std::fprintf(stderr, "%s: %s\n", words[0], error.what());
        return error.status;
    } catch (const std::exception &error) {
        std::fflush(stdout);
        std::fprintf(stderr, "%s: %s\n", words[0], error.what());
        return 3;
    } catch (...) {
        std::fflush(stdout);
        std::fprintf(stderr, "%s: an exception that is not a std::exception\n", words[0]);
        return 3;
    }
}

#endif // GEQIWLLA_POSIX

} // namespace geqiwlla

#endif
