// A packet switch with four inputs and four outputs. In each clock an output takes one packet at most; the inputs take
// turns in being served first, and a packet that finds its output taken waits at its input.
#include <systemc.h>

static const int PORTS = 4;
static const int PACKETS = 3; // from each source

// A packet is one number: destination + 4 * source + 16 * its place in the source's sequence.
SC_MODULE(Source) {
  sc_in<bool> clk;
  sc_fifo_out<int> out;

  const int id;
  const int stride; // from one packet's destination to that of the next

  void send() {
    for (int i = 0; i < PACKETS; i++) {
      wait();
      int destination = (id + i * stride) % PORTS;
      out.write(destination + 4 * id + 16 * i);
    }
  }

  SC_HAS_PROCESS(Source);
  Source(sc_module_name name, int i, int s) : sc_module(name), id(i), stride(s) {
    SC_THREAD(send);
    sensitive << clk.pos();
  }
};

SC_MODULE(Switch) {
  sc_in<bool> clk;
  sc_fifo_in<int> in0, in1, in2, in3;
  sc_fifo_out<int> out0, out1, out2, out3;
  sc_out<int> collisions;

  bool holds[PORTS]; // a packet waits at this input
  int head[PORTS];
  bool taken[PORTS]; // the output has had its packet of this clock
  int first;

  void fetch(int port) {
    int packet = 0;
    bool got = false;
    if (port == 0) {
      got = in0.nb_read(packet);
    } else if (port == 1) {
      got = in1.nb_read(packet);
    } else if (port == 2) {
      got = in2.nb_read(packet);
    } else {
      got = in3.nb_read(packet);
    }
    head[port] = packet;
    holds[port] = got;
  }

  bool deliver(int port, int packet) {
    bool done = false;
    if (port == 0) {
      done = out0.nb_write(packet);
    } else if (port == 1) {
      done = out1.nb_write(packet);
    } else if (port == 2) {
      done = out2.nb_write(packet);
    } else {
      done = out3.nb_write(packet);
    }
    return done;
  }

  void run() {
    for (int i = 0; i < PORTS; i++) {
      holds[i] = false;
    }
    while (true) {
      wait();
      for (int i = 0; i < PORTS; i++) {
        taken[i] = false;
      }
      int collided = 0;
      for (int i = 0; i < PORTS; i++) {
        int port = (first + i) % PORTS;
        if (!holds[port]) {
          fetch(port);
        }
        int destination = head[port] % PORTS;
        if (holds[port] && taken[destination]) {
          collided++;
        } else if (holds[port]) {
          bool done = deliver(destination, head[port]);
          taken[destination] = true;
          holds[port] = !done;
        }
      }
      collisions.write(collisions.read() + collided);
      first = (first + 1) % PORTS;
    }
  }

  SC_CTOR(Switch) : first(0) {
    SC_THREAD(run);
    sensitive << clk.pos();
  }
};

SC_MODULE(Sink) {
  sc_in<bool> clk;
  sc_fifo_in<int> in0, in1, in2, in3;
  sc_in<int> collisions;

  int received;

  void show(int port, int packet) {
    received++;
    cout << sc_time_stamp() << ": output " << port << " has packet " << packet / 16;
    cout << " from source " << packet / 4 % 4;
    if (packet % 4 != port) {
      cout << ", which is wrong";
    }
    cout << endl;
    if (received == PORTS * PACKETS) {
      cout << "all " << received << " packets arrived, after " << collisions.read() << " collisions" << endl;
    }
  }

  void receive() {
    int packet = 0;
    bool got = in0.nb_read(packet);
    if (got) {
      show(0, packet);
    }
    got = in1.nb_read(packet);
    if (got) {
      show(1, packet);
    }
    got = in2.nb_read(packet);
    if (got) {
      show(2, packet);
    }
    got = in3.nb_read(packet);
    if (got) {
      show(3, packet);
    }
  }

  SC_CTOR(Sink) : received(0) {
    SC_METHOD(receive);
    sensitive << clk.neg();
    dont_initialize();
  }
};

int sc_main(int argc, char* argv[]) {
  sc_clock clk("clk", 10, SC_NS);
  sc_fifo<int> in0(2);
  sc_fifo<int> in1(2);
  sc_fifo<int> in2(2);
  sc_fifo<int> in3(2);
  sc_fifo<int> out0(2);
  sc_fifo<int> out1(2);
  sc_fifo<int> out2(2);
  sc_fifo<int> out3(2);
  sc_signal<int> collisions;

  Source source0("source0", 0, 1);
  Source source1("source1", 1, 2);
  Source source2("source2", 2, 3);
  Source source3("source3", 3, 0);
  source0.clk(clk); source0.out(in0);
  source1.clk(clk); source1.out(in1);
  source2.clk(clk); source2.out(in2);
  source3.clk(clk); source3.out(in3);

  Switch crossbar("crossbar");
  crossbar.clk(clk);
  crossbar.in0(in0); crossbar.in1(in1); crossbar.in2(in2); crossbar.in3(in3);
  crossbar.out0(out0); crossbar.out1(out1); crossbar.out2(out2); crossbar.out3(out3);
  crossbar.collisions(collisions);

  Sink sink("sink");
  sink.clk(clk);
  sink.in0(out0); sink.in1(out1); sink.in2(out2); sink.in3(out3);
  sink.collisions(collisions);

  sc_start(99, SC_NS);
  return 0;
}
