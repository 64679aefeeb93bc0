#include <systemc.h>
SC_MODULE(M) {
  int x;
  void f() { x = 1; x = 1; x = 1; x = 1; x = 1; x = 1; x = 1; x = 1; x = 1; x = 1; x = 1; x = 1; x = 1; x = 1; x = 1; }
  void g() { f(); f(); f(); f(); f(); f(); f(); f(); f(); f(); f(); f(); f(); f(); f(); x = 1; x = 1; x = 1; x = 1; x = 1; x = 1; x = 1; x = 1; x = 1; x = 1; x = 1; x = 1; x = 1; x = 1; x = 1; }
  void h() { g(); g(); g(); g(); g(); g(); g(); g(); g(); g(); g(); g(); g(); g(); g(); f(); f(); f(); f(); f(); f(); f(); f(); f(); f(); f(); f(); f(); f(); f(); x = 1; x = 1; x = 1; x = 1; x = 1; x = 1; x = 1; x = 1; x = 1; x = 1; x = 1; x = 1; x = 1; x = 1; x = 1; }
  void a() {
    h(); h(); h(); h(); h(); h(); h(); h(); h(); h(); h(); h(); h(); h(); h();
    g(); g(); g(); g(); g(); g(); g(); g(); g(); g(); g(); g(); g(); g(); g();
    f(); f(); f(); f(); f(); f(); f(); f(); f(); f(); f(); f(); f(); f(); f();
    x = 1; x = 1; x = 1; x = 1; x = 1; x = 1; x = 1; x = 1; x = 1; x = 1; x = 1; x = 1; x = 1; x = 1; x = 1;
  }
  SC_CTOR(M) { SC_THREAD(a); }
};
int sc_main(int argc, char* argv[]) {
  M m("m");
  sc_start(100, SC_NS);
  return 0;
}
