// A stand-in, written by hand, for Verilator's writer of waves: it writes the ports of the device.
#ifndef STUB_VERILATED_VCD_C_H
#define STUB_VERILATED_VCD_C_H

#include "verilated.h"

#include <cstdio>

class VerilatedVcdC {
public:
    ~VerilatedVcdC() { close(); }
    void add(const StubModel *model) { model_ = model; }
    void open(const char *file) {
        file_ = std::fopen(file, "w");
        if (!file_) return;
        std::fputs("$timescale 1ns $end\n$scope module mem $end\n", file_);
        for (int i = 0; i < COUNT; i++) std::fprintf(file_, "$var wire %d %c %s $end\n", PORTS[i].bits, 'a' + i, PORTS[i].name);
        std::fputs("$upscope $end\n$enddefinitions $end\n", file_);
    }
    bool isOpen() const { return file_; }
    void dump(uint64_t ticks) {
        if (!file_ || !model_) return;
        std::fprintf(file_, "#%llu\n", static_cast<unsigned long long>(ticks));
        const uint32_t now[COUNT] = {model_->clk,  model_->rst_n, model_->req,   model_->gnt,  model_->we,
                                     model_->addr, model_->valid, model_->wdata, model_->rdata};
        for (int i = 0; i < COUNT; i++) {
            if (dumped_ && now[i] == was_[i]) continue;
            was_[i] = now[i];
            if (PORTS[i].bits > 1) std::fputc('b', file_);
            for (int bit = PORTS[i].bits; bit-- > 0;) std::fputc('0' + (now[i] >> bit & 1), file_);
            std::fprintf(file_, PORTS[i].bits > 1 ? " %c\n" : "%c\n", 'a' + i);
        }
        dumped_ = true;
    }
    void close() {
        if (file_) std::fclose(file_);
        file_ = nullptr;
    }

private:
    struct Port {
        const char *name;
        int bits;
    };
    static constexpr int COUNT = 9;
    static constexpr Port PORTS[COUNT] = {{"clk", 1},  {"rst_n", 1}, {"req", 1},    {"gnt", 1},   {"we", 1},
                                          {"addr", 8}, {"valid", 1}, {"wdata", 32}, {"rdata", 32}};

    const StubModel *model_ = nullptr;
    std::FILE *file_ = nullptr;
    bool dumped_ = false;
    uint32_t was_[COUNT] = {};
};

#endif
