// A greeter in C++, for crates/example_hello/data/hello.toml.
#include "geqiwlla.hpp"

struct Greeter : geqiwlla::Component {
    void run_phase() override {
        raise_objection();
        wait(10);
    }
    void wake(uint32_t) override {
        info("HELLO", "hello", geqiwlla::UVM_LOW);
        drop_objection();
    }
};
GEQIWLLA_TYPE("greeter", Greeter);

int main(int count, char **words) { return geqiwlla::main(count, words); }
