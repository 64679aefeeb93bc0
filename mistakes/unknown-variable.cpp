#include <systemc.h>

SC_MODULE(Producer) {
  sc_fifo_out<int> out;
  int sent;
  void run() {
    for (int i = 0; i < 8; i++) {
      out.write(i);
      wait(5, SC_NS);
    }
  }
  SC_CTOR(Producer) {
    SC_THREAD(run);
  }
};

SC_MODULE(Consumer) {
  sc_fifo_in<int> in;
  int sum;
  void run() {
    while (true) {
      v = in.read();
      sum = sum + v;
      cout << sum << endl;
    }
  }
  SC_CTOR(Consumer) {
    SC_THREAD(run);
  }
};

int sc_main(int argc, char* argv[]) {
  sc_fifo<int> queue(4);
  Producer producer("producer");
  Consumer consumer("consumer");
  producer.out(queue);
  consumer.in(queue);
  sc_start(100, SC_NS);
  return 0;
}
