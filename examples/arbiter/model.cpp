// A round-robin arbiter: four masters ask for one bus and keep it for some clocks. Whoever had the bus last comes last
// in the next round, so that even the greedy master 0 waits for its turn.
#include <systemc.h>

static const int MASTERS = 4;
static const int NOBODY = -1;

SC_MODULE(Master) {
  sc_in<bool> clk;
  sc_in<int> owner;
  sc_out<bool> request;

  const int id;
  const int pause; // clocks between two uses of the bus
  const int hold;  // clocks of one use

  void use_bus() {
    while (true) {
      for (int i = 0; i < pause; i++) {
        wait();
      }
      request.write(true);
      do {
        wait();
      } while (owner.read() != id);
      for (int i = 1; i < hold; i++) {
        wait();
      }
      request.write(false);
      do {
        wait();
      } while (owner.read() == id);
    }
  }

  SC_HAS_PROCESS(Master);
  Master(sc_module_name name, int i, int p, int h) : sc_module(name), id(i), pause(p), hold(h) {
    SC_THREAD(use_bus);
    sensitive << clk.pos();
  }
};

SC_MODULE(Arbiter) {
  sc_in<bool> clk;
  sc_in<bool> request0, request1, request2, request3;
  sc_out<int> owner;

  bool asks[MASTERS];
  int last;
  int grants;

  void arbitrate() {
    asks[0] = request0.read();
    asks[1] = request1.read();
    asks[2] = request2.read();
    asks[3] = request3.read();
    int now = owner.read();
    if (now != NOBODY && asks[now]) {
      return; // the bus is in use
    }
    int next = NOBODY;
    for (int i = 1; i <= MASTERS && next == NOBODY; i++) {
      int candidate = (last + i) % MASTERS;
      if (asks[candidate]) {
        next = candidate;
      }
    }
    owner.write(next);
    if (next != NOBODY) {
      last = next;
      grants++;
      cout << sc_time_stamp() << ": grant " << grants << " goes to master " << next << ", asking:";
      for (int i = 0; i < MASTERS; i++) {
        if (asks[i]) {
          cout << " " << i;
        }
      }
      cout << endl;
    }
  }

  SC_CTOR(Arbiter) : last(MASTERS - 1), grants(0) {
    SC_METHOD(arbitrate);
    sensitive << clk.pos();
    dont_initialize();
  }
};

int sc_main(int argc, char* argv[]) {
  sc_clock clk("clk", 10, SC_NS);
  sc_signal<int> owner;
  sc_signal<bool> request0;
  sc_signal<bool> request1;
  sc_signal<bool> request2;
  sc_signal<bool> request3;

  Master master0("master0", 0, 1, 2);
  Master master1("master1", 1, 2, 1);
  Master master2("master2", 2, 3, 3);
  Master master3("master3", 3, 9, 1);
  Arbiter arbiter("arbiter");

  master0.clk(clk); master0.owner(owner); master0.request(request0);
  master1.clk(clk); master1.owner(owner); master1.request(request1);
  master2.clk(clk); master2.owner(owner); master2.request(request2);
  master3.clk(clk); master3.owner(owner); master3.request(request3);
  arbiter.clk(clk); arbiter.owner(owner);
  arbiter.request0(request0);
  arbiter.request1(request1);
  arbiter.request2(request2);
  arbiter.request3(request3);

  sc_start(399, SC_NS);
  return 0;
}
