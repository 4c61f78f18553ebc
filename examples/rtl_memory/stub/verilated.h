// Stand-ins, written by hand, for the part of Verilator's library that geqiwlla_rtl.hpp uses. Its assertions always hold.
#ifndef STUB_VERILATED_H
#define STUB_VERILATED_H

#include <cstdint>

class VerilatedContext {
public:
    void traceEverOn(bool) {}
    void time(uint64_t) {}
    void fatalOnError(bool) {}
    void gotFinish(bool) {}
    void gotError(bool) {}
    bool gotError() const { return false; }
};

class Verilated {
public:
    static void threadContextp(VerilatedContext *) {}
};

// The ports of the device.
struct StubModel {
    uint8_t clk = 0, rst_n = 0, req = 0, gnt = 0, we = 0, addr = 0, valid = 0;
    uint32_t wdata = 0, rdata = 0;
};

#endif
