#include <systemc.h>

SC_MODULE(Counter) {
  sc_in<bool> clk;
  sc_in<bool> reset;
  sc_out<int> value;
  static const int STEP = 2;
  int count;
  void step() {
    if (reset.read()) {
      count = 0;
    } else {
      count = count + STEP;
    }
    value.write(count);
  }
  SC_CTOR(Counter) : STEP(1) {
    SC_METHOD(step);
    sensitive << clk.pos();
    dont_initialize();
  }
};

SC_MODULE(Monitor) {
  sc_in<int> value;
  void show() {
    cout << sc_time_stamp() << ": " << value.read() << endl;
  }
  SC_CTOR(Monitor) {
    SC_METHOD(show);
    sensitive << value;
    dont_initialize();
  }
};

int sc_main(int argc, char* argv[]) {
  sc_clock clk("clk", 10, SC_NS);
  sc_signal<bool> reset;
  sc_signal<int> value;
  Counter counter("counter");
  Monitor monitor("monitor");
  counter.clk(clk);
  counter.reset(reset);
  counter.value(value);
  monitor.value(value);
  sc_start(100, SC_NS);
  return 0;
}
