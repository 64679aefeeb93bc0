#include <systemc.h>
SC_MODULE(Source) { sc_fifo_out<int> out;
  void run() { for (int i = 0; i < 65536; i++) out.write(i); }
  SC_CTOR(Source) { SC_THREAD(run); } };
SC_MODULE(Reader) { sc_fifo_in<int> in;
  void run() { int sum = 0;
    for (int i = 0; i < 2000; i++) { wait(1, SC_NS); if (i % 100 == 0) { int v = in.read(); sum = sum + v; } }
    cout << sum << endl; sc_stop(); }
  SC_CTOR(Reader) { SC_THREAD(run); } };
int sc_main(int argc, char* argv[]) {
  sc_fifo<int> f(65536);
  Source s("s"); Reader r("r");
  s.out(f); r.in(f);
  sc_start(1, SC_MS);
  return 0; }
