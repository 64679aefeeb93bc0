// A FIR filter of four taps, one sample a clock. The source plays an impulse, which the filter answers by its
// coefficients, and then a step of height 10, which it answers by ten times their running sum.
#include <systemc.h>

static const int TAPS = 4;

SC_MODULE(Source) {
  sc_in<bool> clk;
  sc_out<int> sample;

  void play() {
    wait();
    sample.write(1);
    wait();
    sample.write(0);
    for (int i = 0; i < 6; i++) {
      wait();
    }
    sample.write(10);
  }

  SC_CTOR(Source) {
    SC_THREAD(play);
    sensitive << clk.pos();
  }
};

SC_MODULE(Fir) {
  sc_in<bool> clk;
  sc_in<int> x;
  sc_out<int> y;

  int coefficient[TAPS];
  int delayed[TAPS];

  void filter() {
    coefficient[0] = 3;
    coefficient[1] = -1;
    coefficient[2] = 4;
    coefficient[3] = 2;
    for (int i = 0; i < TAPS; i++) {
      delayed[i] = 0;
    }
    while (true) {
      wait();
      for (int i = TAPS - 1; i > 0; i--) {
        delayed[i] = delayed[i - 1];
      }
      delayed[0] = x.read();
      int sum = 0;
      for (int i = 0; i < TAPS; i++) {
        sum += coefficient[i] * delayed[i];
      }
      y.write(sum);
    }
  }

  SC_CTOR(Fir) {
    SC_THREAD(filter);
    sensitive << clk.pos();
  }
};

SC_MODULE(Monitor) {
  sc_in<bool> clk;
  sc_in<int> x;
  sc_in<int> y;

  void print() {
    cout << sc_time_stamp() << ": x = " << x.read() << ", y = " << y.read() << endl;
  }

  SC_CTOR(Monitor) {
    SC_METHOD(print);
    sensitive << clk.neg();
    dont_initialize();
  }
};

int sc_main(int argc, char* argv[]) {
  sc_clock clk("clk", 10, SC_NS);
  sc_signal<int> x;
  sc_signal<int> y;

  Source source("source");
  source.clk(clk);
  source.sample(x);

  Fir fir("fir");
  fir.clk(clk);
  fir.x(x);
  fir.y(y);

  Monitor monitor("monitor");
  monitor.clk(clk);
  monitor.x(x);
  monitor.y(y);

  sc_start(149, SC_NS);
  return 0;
}
