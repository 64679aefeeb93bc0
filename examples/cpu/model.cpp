// An accumulator CPU, one instruction a clock. The program in its array multiplies 6 by 7 by adding 7 six times, and
// puts out each sum: 7, 14, 21, 28, 35, 42.
#include <systemc.h>

static const int HALT = 0;
static const int SET = 1;     // accumulator = argument
static const int LOAD = 2;    // accumulator = data[argument]
static const int STORE = 3;   // data[argument] = accumulator
static const int ADD = 4;     // accumulator = accumulator + data[argument]
static const int SUB = 5;     // accumulator = accumulator - data[argument]
static const int JUMP_NZ = 6; // to the argument, unless the accumulator is zero
static const int OUT = 7;     // puts the accumulator out

// Where the program keeps its data.
static const int TOTAL = 0;
static const int FACTOR = 1;
static const int TIMES = 2;
static const int ONE = 3;

SC_MODULE(Cpu) {
  sc_in<bool> clk;
  sc_out<int> pc;
  sc_out<int> out;
  sc_out<bool> halted;

  int program[32];
  int data[4];
  int length;

  void put(int operation, int argument) {
    program[length] = operation * 16 + argument;
    length++;
  }

  void load() {
    put(SET, 7);
    put(STORE, FACTOR);
    put(SET, 1);
    put(STORE, ONE);
    put(SET, 0);
    put(STORE, TOTAL);
    put(SET, 6);
    put(STORE, TIMES);
    put(LOAD, TOTAL); // 8: the loop
    put(ADD, FACTOR);
    put(STORE, TOTAL);
    put(OUT, 0);
    put(LOAD, TIMES);
    put(SUB, ONE);
    put(STORE, TIMES);
    put(JUMP_NZ, 8);
    put(HALT, 0);
  }

  void run() {
    load();
    int accumulator = 0;
    int next = 0;
    bool halt = false;
    while (!halt) {
      wait();
      int operation = program[next] / 16;
      int argument = program[next] % 16;
      pc.write(next);
      next++;
      if (operation == HALT) {
        halt = true;
        halted.write(true);
      } else if (operation == SET) {
        accumulator = argument;
      } else if (operation == LOAD) {
        accumulator = data[argument];
      } else if (operation == STORE) {
        data[argument] = accumulator;
      } else if (operation == ADD) {
        accumulator += data[argument];
      } else if (operation == SUB) {
        accumulator -= data[argument];
      } else if (operation == JUMP_NZ) {
        if (accumulator != 0) {
          next = argument;
        }
      } else if (operation == OUT) {
        out.write(accumulator);
      }
    }
  }

  SC_CTOR(Cpu) : length(0) {
    SC_THREAD(run);
    sensitive << clk.pos();
  }
};

SC_MODULE(Monitor) {
  sc_in<int> pc;
  sc_in<int> out;
  sc_in<bool> halted;

  void print() {
    if (halted.read()) {
      cout << sc_time_stamp() << ": halted at " << pc.read() << endl;
    } else {
      cout << sc_time_stamp() << ": out = " << out.read() << endl;
    }
  }

  SC_CTOR(Monitor) {
    SC_METHOD(print);
    sensitive << out << halted;
    dont_initialize();
  }
};

int sc_main(int argc, char* argv[]) {
  sc_clock clk("clk", 10, SC_NS);
  sc_signal<int> pc;
  sc_signal<int> out;
  sc_signal<bool> halted;

  Cpu cpu("cpu");
  cpu.clk(clk);
  cpu.pc(pc);
  cpu.out(out);
  cpu.halted(halted);

  Monitor monitor("monitor");
  monitor.pc(pc);
  monitor.out(out);
  monitor.halted(halted);

  sc_start(599, SC_NS);
  return 0;
}
