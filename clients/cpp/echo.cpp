// An object that only answers, to measure questions a second: ./echo --count --quiet --kernel PATH echo.toml
#include "geqiwlla.hpp"

struct Echo : geqiwlla::Component {
    int64_t left = 0;

    void build_phase() override { get_config("count"); }
    void config(std::string_view, std::optional<int64_t> value) override { left = value.value_or(0); }
    void run_phase() override {
        raise_objection();
        wait(1);
    }
    void wake(uint32_t) override {
        if (--left > 0) wait(1);
        else drop_objection();
    }
};
GEQIWLLA_TYPE("echo", Echo);

int main(int count, char **words) { return geqiwlla::main(count, words); }
