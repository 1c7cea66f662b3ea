// The package and the shim: -F nr_dpi.f, with the folder of nr.h for the C compiler, and libnr.a for the linker.
nr_dpi_pkg.sv
nr_dpi.c
nr_golden.c
nr_golden_receiver.c
nr_beats.c
nr_suite.c
nr_packed.c
