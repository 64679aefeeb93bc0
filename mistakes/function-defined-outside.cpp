#include <systemc.h>

void Counter::step() {
  count = count + 1;
}

SC_MODULE(Counter) {
  int count;
};

int sc_main(int argc, char* argv[]) {
  Counter counter("counter");
  sc_start(100, SC_NS);
  return 0;
}
