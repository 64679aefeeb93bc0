#include <systemc.h>

SC_MODULE(Source) {
  sc_in<bool> tick;
  sc_fifo_out<int> out;
  int step;
  int sent;

  void send() {
    while (true) {
      wait(tick.posedge_event());
      sent = sent + step;
      out.write(sent);
    }
  }

  SC_HAS_PROCESS(Source);
  Source(sc_module_name name, int by) : step(by) {
    SC_THREAD(send);
  }
};

SC_MODULE(Sum) {
  sc_fifo_in<int> a;
  sc_fifo_in<int> b;
  sc_out<int> sum;

  void add() {
    while (true) {
      int x = a.read();
      int y = b.read();
      sum.write(x + y);
    }
  }

  SC_HAS_PROCESS(Sum);
  Sum(sc_module_name name) {
    SC_THREAD(add);
  }
};

SC_MODULE(Shower) {
  sc_in<int> value;
  sc_in<int> other;

  void show() {
    cout << sc_time_stamp() << ": " << value.read() << " " << other.read() << endl;
  }

  SC_CTOR(Shower) {
    SC_METHOD(show);
    sensitive << value << other;
    dont_initialize();
  }
};

int sc_main(int argc, char* argv[]) {
  sc_clock fast("fast", 10, SC_NS), slow("slow", 20, SC_NS);
  sc_fifo<int> ones("ones", 2), tens("tens", 2), more, halves("halves");
  sc_signal<int> sum, other("other");
  Source one("one", 1), ten("ten", 10), third("third", 100), fourth("fourth", 5);
  Sum add("add"), again("again");
  Shower shower("shower");
  one.tick(fast);
  one.out(ones);
  ten.tick(slow);
  ten.out(tens);
  third.tick(slow);
  third.out(more);
  fourth.tick(fast);
  fourth.out(halves);
  add.a(ones);
  add.b(tens);
  add.sum(sum);
  again.a(more);
  again.b(halves);
  again.sum(other);
  shower.value(sum);
  shower.other(other);
  sc_start(78, SC_NS);
  return 0;
}
