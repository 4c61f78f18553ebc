// A stand-in, written by hand, for the class that Verilator makes of mem.sv: the same ports and behavior.
#ifndef STUB_VMEM_H
#define STUB_VMEM_H

#include "verilated_vcd_c.h"

#include <array>

template <int Stuck> class StubMem : public StubModel {
public:
    explicit StubMem(VerilatedContext *) {}
    void trace(VerilatedVcdC *waves, int) { waves->add(this); }
    void final() {}
    void eval() {
        const bool rises = clk && !clk_;
        clk_ = clk;
        if (rises) {
            const bool granted = rst_n && !busy_;
            valid = 0;
            if (!rst_n) {
                busy_ = false, left_ = 0, rdata = 0;
            } else if (req && granted) {
                busy_ = true, left_ = 1, writes_ = we, at_ = addr;
                if (we) words_[addr] = wdata;
            } else if (busy_) {
                if (left_) left_--;
                else busy_ = false, valid = 1, rdata = writes_ || Stuck < 0 ? words_[at_] : words_[at_] | 1u << (Stuck < 0 ? 0 : Stuck);
            }
        }
        gnt = rst_n && !busy_;
    }

private:
    std::array<uint32_t, 256> words_{};
    bool clk_ = false, busy_ = false, writes_ = false;
    unsigned left_ = 0;
    uint8_t at_ = 0;
};

using Vmem = StubMem<-1>;

#endif
