/* Two threads,
   one of which prints "texts" // with escapes. */
#include <systemc>   // the library
# include "systemc.h"//
SC_MODULE(M) { // a module/*
  void a() { cout << "a\tb\\c\"d\"\n" << "// no comment /* */" << endl; /**/ wait(/* ten */10, SC_NS); }
  void b() { cout << "\\n" << endl; }
  SC_CTOR(M) { SC_THREAD(a); SC_THREAD(b); } /***/
};
int sc_main(int argc, char* argv[]) {
  M m("m\"\\"); sc_start(100, SC_NS); return 0x0ull;
}
// the end
