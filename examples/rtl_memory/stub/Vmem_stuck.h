// A stand-in, written by hand, for the class that Verilator makes of mem.sv with STUCK = 3.
#ifndef STUB_VMEM_STUCK_H
#define STUB_VMEM_STUCK_H

#include "Vmem.h"

using Vmem_stuck = StubMem<3>;

#endif
