// A direct-mapped cache of four lines of four words, with a slow memory behind it: a read that hits takes 1 ns, one
// that misses fetches a whole line, and writes go through to the memory.
#include <systemc.h>

static const int LINES = 4;
static const int WORDS = 4; // in a line
static const int CELLS = 64; // of the memory

SC_MODULE(Memory) {
  sc_fifo_in<bool> is_write;
  sc_fifo_in<int> address;
  sc_fifo_in<int> data_in;
  sc_fifo_out<int> data_out;

  int cells[CELLS];

  void serve() {
    for (int i = 0; i < CELLS; i++) {
      cells[i] = 1000 + i;
    }
    while (true) {
      bool write = is_write.read();
      int a = address.read();
      wait(20, SC_NS);
      if (write) {
        cells[a] = data_in.read();
      } else {
        for (int i = 0; i < WORDS; i++) { // a burst
          data_out.write(cells[a + i]);
          wait(2, SC_NS);
        }
      }
    }
  }

  SC_CTOR(Memory) {
    SC_THREAD(serve);
  }
};

SC_MODULE(Cache) {
  sc_fifo_in<bool> is_write;
  sc_fifo_in<int> address;
  sc_fifo_in<int> data_in;
  sc_fifo_out<int> data_out;
  sc_fifo_out<bool> memory_is_write;
  sc_fifo_out<int> memory_address;
  sc_fifo_out<int> memory_data_in;
  sc_fifo_in<int> memory_data_out;
  sc_out<int> hits;
  sc_out<int> misses;

  bool valid[LINES];
  int tags[LINES];
  int words[LINES * WORDS];

  void serve() {
    for (int i = 0; i < LINES; i++) {
      valid[i] = false;
    }
    while (true) {
      bool write = is_write.read();
      int a = address.read();
      int line = a / WORDS % LINES;
      int tag = a / WORDS / LINES;
      int place = line * WORDS + a % WORDS;
      bool hit = valid[line] && tags[line] == tag;
      wait(1, SC_NS);
      if (write) {
        int value = data_in.read();
        if (hit) {
          words[place] = value;
        }
        memory_is_write.write(true);
        memory_address.write(a);
        memory_data_in.write(value);
        continue;
      }
      if (hit) {
        hits.write(hits.read() + 1);
      } else {
        misses.write(misses.read() + 1);
        memory_is_write.write(false);
        memory_address.write(a - a % WORDS);
        for (int i = 0; i < WORDS; i++) {
          words[line * WORDS + i] = memory_data_out.read();
        }
        tags[line] = tag;
        valid[line] = true;
      }
      data_out.write(words[place]);
    }
  }

  SC_CTOR(Cache) {
    SC_THREAD(serve);
  }
};

SC_MODULE(Testbench) {
  sc_fifo_out<bool> is_write;
  sc_fifo_out<int> address;
  sc_fifo_out<int> data_in;
  sc_fifo_in<int> data_out;
  sc_in<int> hits;
  sc_in<int> misses;

  bool writes[12];
  int addresses[12];
  int planned;

  void plan(bool write, int a) {
    writes[planned] = write;
    addresses[planned] = a;
    planned++;
  }

  void run() {
    plan(false, 0);  // misses: the cache is empty
    plan(false, 1);  // hits the same line
    plan(false, 3);
    plan(false, 16); // misses: the same line with another tag
    plan(false, 2);  // misses: that threw it out
    plan(true, 2);   // changes the line and the memory
    plan(false, 2);  // hits
    plan(true, 33);  // changes the memory alone
    plan(false, 33); // misses
    plan(false, 35); // hits
    plan(false, 2);  // misses, and the memory has what was written
    for (int i = 0; i < planned; i++) {
      int a = addresses[i];
      is_write.write(writes[i]);
      address.write(a);
      if (writes[i]) {
        data_in.write(500 + i);
        cout << sc_time_stamp() << ": write " << a << " = " << 500 + i << endl;
      } else {
        cout << sc_time_stamp() << ": read " << a;
        int value = data_out.read();
        cout << " = " << value << " at " << sc_time_stamp() << endl;
      }
      wait(5, SC_NS);
    }
    cout << hits.read() << " hits, " << misses.read() << " misses" << endl;
  }

  SC_CTOR(Testbench) : planned(0) {
    SC_THREAD(run);
  }
};

int sc_main(int argc, char* argv[]) {
  sc_fifo<bool> is_write(1);
  sc_fifo<int> address(1);
  sc_fifo<int> data_in(1);
  sc_fifo<int> data_out(1);
  sc_fifo<bool> memory_is_write(1);
  sc_fifo<int> memory_address(1);
  sc_fifo<int> memory_data_in(1);
  sc_fifo<int> memory_data_out(4);
  sc_signal<int> hits;
  sc_signal<int> misses;

  Testbench testbench("testbench");
  testbench.is_write(is_write);
  testbench.address(address);
  testbench.data_in(data_in);
  testbench.data_out(data_out);
  testbench.hits(hits);
  testbench.misses(misses);

  Cache cache("cache");
  cache.is_write(is_write);
  cache.address(address);
  cache.data_in(data_in);
  cache.data_out(data_out);
  cache.memory_is_write(memory_is_write);
  cache.memory_address(memory_address);
  cache.memory_data_in(memory_data_in);
  cache.memory_data_out(memory_data_out);
  cache.hits(hits);
  cache.misses(misses);

  Memory memory("memory");
  memory.is_write(memory_is_write);
  memory.address(memory_address);
  memory.data_in(memory_data_in);
  memory.data_out(memory_data_out);

  sc_start(1, SC_US);
  return 0;
}
