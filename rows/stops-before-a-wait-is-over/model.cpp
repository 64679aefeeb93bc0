#include "systemc"
SC_MODULE(M) {
  void late() { cout << sc_time_stamp() << "|"; wait(1500, SC_PS); cout << sc_time_stamp(); wait(2, SC_US); cout << "never"; }
  void unused() { cout << "unused" << endl; }
  SC_CTOR(M) { SC_THREAD(late); }
};
int sc_main(int argc, char* argv[]) {
  M top("other");
  sc_start(2, SC_US);
  return 7;
}
