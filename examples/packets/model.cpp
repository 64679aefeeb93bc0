// A packet processor. Packets go to four engines in turn, and leave in the order in which they came. An engine has two
// stages: one looks up the port that a packet leaves by, and one encrypts it. Each stage has a wait before its work and
// one behind it, and the work touches nothing that another process touches. So `run` does the work of several stages at
// once, though they are hardly ever due at the same time.
#include <systemc.h>

static const int RULES = 512; // in the routing table
static const int ROUNDS = 32; // of the cipher, for each block

// A packet is known by one number: how many blocks it has beyond the first in the lowest 3 bits, its destination in the
// next 16, and above them its port, once that was looked up.
SC_MODULE(Ingress) {
  sc_fifo_out<unsigned int> to0, to1, to2, to3;

  unsigned int state;

  unsigned int next() {
    state = state * 1664525u + 1013904223u;
    return state >> 13;
  }

  void run() {
    while (true) {
      unsigned int packet = next();
      to0.write(packet);
      wait(8, SC_NS);
      packet = next();
      to1.write(packet);
      wait(8, SC_NS);
      packet = next();
      to2.write(packet);
      wait(8, SC_NS);
      packet = next();
      to3.write(packet);
      wait(8, SC_NS);
    }
  }

  SC_CTOR(Ingress) : state(1) {
    SC_THREAD(run);
  }
};

// Finds the longest prefix in the routing table that a packet's destination begins with.
SC_MODULE(Lookup) {
  sc_fifo_in<unsigned int> in;
  sc_fifo_out<unsigned int> out;

  unsigned int prefix[RULES];
  int bits[RULES]; // of the prefix

  void run() {
    for (int i = 0; i < RULES; i++) {
      bits[i] = 1 + i % 12;
      prefix[i] = unsigned(i) * 40503u % 65536u >> (16 - bits[i]);
    }
    while (true) {
      unsigned int packet = in.read();
      wait(2, SC_NS); // the packet is in the stage's register
      unsigned int destination = packet >> 3;
      unsigned int port = 0;
      int longest = 0;
      for (int i = 0; i < RULES; i++) {
        if (bits[i] > longest && destination >> (16 - bits[i]) == prefix[i]) {
          longest = bits[i];
          port = unsigned(i) % 8u;
        }
      }
      wait(24, SC_NS); // what a lookup takes
      out.write(packet | port << 19);
    }
  }

  SC_CTOR(Lookup) {
    SC_THREAD(run);
  }
};

// Encrypts each block of a packet by XTEA, and gives its port with what the encrypted blocks come to.
SC_MODULE(Cipher) {
  sc_fifo_in<unsigned int> in;
  sc_fifo_out<unsigned int> out;

  unsigned int key[4];

  void run() {
    for (int i = 0; i < 4; i++) {
      key[i] = unsigned(i + 1) * 2654435769u;
    }
    while (true) {
      unsigned int packet = in.read();
      int blocks = 1 + int(packet % 8u);
      wait(blocks, SC_NS); // a block comes in each nanosecond
      unsigned int check = 0;
      for (int i = 0; i < blocks; i++) {
        unsigned int left = packet;
        unsigned int right = unsigned(i);
        unsigned int sum = 0;
        for (int round = 0; round < ROUNDS; round++) {
          left += (((right << 4) ^ (right >> 5)) + right) ^ (sum + key[sum & 3u]);
          sum += 0x9e3779b9u;
          right += (((left << 4) ^ (left >> 5)) + left) ^ (sum + key[(sum >> 11) & 3u]);
        }
        check ^= left ^ right;
      }
      wait(24, SC_NS); // what the last block takes through all rounds
      out.write(packet >> 19 | check << 3);
    }
  }

  SC_CTOR(Cipher) {
    SC_THREAD(run);
  }
};

SC_MODULE(Engine) {
  sc_fifo_in<unsigned int> in;
  sc_fifo_out<unsigned int> out;

  Lookup lookup;
  Cipher cipher;
  sc_fifo<unsigned int> routed;

  SC_CTOR(Engine) : lookup("lookup"), cipher("cipher"), routed(4) {
    lookup.in(in);
    lookup.out(routed);
    cipher.in(routed);
    cipher.out(out);
  }
};

SC_MODULE(Egress) {
  sc_fifo_in<unsigned int> from0, from1, from2, from3;

  int packets;

  void show(unsigned int packet) {
    packets++;
    cout << sc_time_stamp() << ": packet " << packets << " leaves by port " << packet % 8u;
    cout << ", check " << packet / 8u << endl;
  }

  void run() {
    while (true) {
      unsigned int packet = from0.read();
      show(packet);
      packet = from1.read();
      show(packet);
      packet = from2.read();
      show(packet);
      packet = from3.read();
      show(packet);
    }
  }

  SC_CTOR(Egress) : packets(0) {
    SC_THREAD(run);
  }
};

int sc_main(int argc, char* argv[]) {
  sc_fifo<unsigned int> in0(4), in1(4), in2(4), in3(4);
  sc_fifo<unsigned int> out0(4), out1(4), out2(4), out3(4);

  Ingress ingress("ingress");
  ingress.to0(in0);
  ingress.to1(in1);
  ingress.to2(in2);
  ingress.to3(in3);

  Engine engine0("engine0");
  engine0.in(in0);
  engine0.out(out0);

  Engine engine1("engine1");
  engine1.in(in1);
  engine1.out(out1);

  Engine engine2("engine2");
  engine2.in(in2);
  engine2.out(out2);

  Engine engine3("engine3");
  engine3.in(in3);
  engine3.out(out3);

  Egress egress("egress");
  egress.from0(out0);
  egress.from1(out1);
  egress.from2(out2);
  egress.from3(out3);

  sc_start(399, SC_NS);
  return 0;
}
