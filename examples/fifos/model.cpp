// A fast producer, a slow consumer and a fifo of three places between them: the producer is stopped by a full fifo, the
// consumer by an empty one.
#include <systemc.h>

static const int BURST = 5;
static const int BURSTS = 2;

SC_MODULE(Producer) {
  sc_fifo_out<int> out;

  void produce() {
    for (int burst = 0; burst < BURSTS; burst++) {
      for (int i = 0; i < BURST; i++) {
        int item = burst * 10 + i;
        if (out.num_free() == 0) {
          cout << sc_time_stamp() << ": the fifo is full, " << item << " has to wait" << endl;
        }
        out.write(item);
        cout << sc_time_stamp() << ": wrote " << item << endl;
        wait(1, SC_NS);
      }
      wait(100, SC_NS);
    }
  }

  SC_CTOR(Producer) {
    SC_THREAD(produce);
  }
};

SC_MODULE(Consumer) {
  sc_fifo_in<int> in;

  void consume() {
    wait(500, SC_PS);
    while (true) {
      if (in.num_available() == 0) {
        cout << sc_time_stamp() << ": the fifo is empty" << endl;
      }
      int item = in.read();
      cout << sc_time_stamp() << ":   read " << item << endl;
      wait(10, SC_NS);
    }
  }

  SC_CTOR(Consumer) {
    SC_THREAD(consume);
  }
};

int sc_main(int argc, char* argv[]) {
  sc_fifo<int> queue(3);

  Producer producer("producer");
  producer.out(queue);

  Consumer consumer("consumer");
  consumer.in(queue);

  sc_start(1, SC_US);
  return 0;
}
