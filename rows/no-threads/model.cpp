#include <systemc.h>
SC_MODULE(M) { SC_CTOR(M) { } };
int sc_main(int argc, char* argv[]) { M m("m"); sc_start(1, SC_NS); return 0; }
