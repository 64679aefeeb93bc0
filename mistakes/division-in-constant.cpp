#include <systemc.h>

const int SIZE = 16 / 0;

SC_MODULE(Memory) {
  sc_event request;
  sc_event done;
  sc_signal<int> address;
  int cells[SIZE];
  int data;
  int next(int a) {
    return (a + 3) % SIZE;
  }
  void cpu() {
    int a = 0;
    for (int i = 0; i < 4; i++) {
      address = a;
      request.notify(SC_ZERO_TIME);
      wait(done);
      cout << a << " " << data << endl;
      a = next(a);
    }
  }
  void serve() {
    while (true) {
      wait(request);
      wait(2, SC_NS);
      data = cells[address.read()];
      done.notify(1, SC_NS);
    }
  }
  SC_CTOR(Memory) {
    SC_THREAD(cpu);
    SC_THREAD(serve);
  }
};

int sc_main(int argc, char* argv[]) {
  Memory memory("memory");
  sc_start(1, SC_US);
  return 0;
}
