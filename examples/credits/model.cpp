// A link with credits: the sender starts with one credit for each place in the receiver's buffer, spends one with each
// word, and gets it back when the word has left the buffer. The buffer never overflows, however slowly it is drained.
#include <systemc.h>

static const int DEPTH = 4;  // places in the receiver's buffer
static const int WORDS = 12; // words to send

SC_MODULE(Sender) {
  sc_in<bool> clk;
  sc_in<bool> credit_return;
  sc_out<bool> valid;
  sc_out<int> data;
  sc_out<int> credits;

  int left;
  int sent;

  void step() {
    if (credit_return.read()) {
      left++;
    }
    if (left > 0 && sent < WORDS) {
      left--;
      sent++;
      valid.write(true);
      data.write(100 + sent);
    } else {
      valid.write(false);
    }
    credits.write(left);
  }

  SC_CTOR(Sender) : left(DEPTH), sent(0) {
    SC_METHOD(step);
    sensitive << clk.pos();
    dont_initialize();
  }
};

// One register in each direction: what the wires between two chips cost.
SC_MODULE(Wires) {
  sc_in<bool> clk;
  sc_in<bool> valid_in, credit_in;
  sc_in<int> data_in;
  sc_out<bool> valid_out, credit_out;
  sc_out<int> data_out;

  void step() {
    valid_out.write(valid_in.read());
    data_out.write(data_in.read());
    credit_out.write(credit_in.read());
  }

  SC_CTOR(Wires) {
    SC_METHOD(step);
    sensitive << clk.pos();
    dont_initialize();
  }
};

SC_MODULE(Receiver) {
  sc_in<bool> clk;
  sc_in<bool> valid;
  sc_in<int> data;
  sc_out<bool> credit_return;

  int buffer[DEPTH];
  int first;
  int filled;
  int most;  // that were filled at one time
  int taken; // from the buffer until now
  int cycle;

  void step() {
    cycle++;
    if (valid.read()) {
      if (filled == DEPTH) {
        cout << sc_time_stamp() << ": overflow" << endl;
        return;
      }
      buffer[(first + filled) % DEPTH] = data.read();
      filled++;
      if (filled > most) {
        most = filled;
      }
    }
    bool drain = cycle % 3 == 0 && filled > 0; // one word in three clocks at most
    if (drain) {
      taken++;
      cout << sc_time_stamp() << ": took " << buffer[first] << ", the buffer held " << filled << endl;
      if (buffer[first] != 100 + taken) {
        cout << "a word was lost" << endl;
      }
      if (taken == WORDS) {
        cout << "all words came, and the buffer held " << most << " of " << DEPTH << " at most" << endl;
      }
      first = (first + 1) % DEPTH;
      filled--;
    }
    credit_return.write(drain);
  }

  SC_CTOR(Receiver) : first(0), filled(0), most(0), taken(0), cycle(0) {
    SC_METHOD(step);
    sensitive << clk.pos();
    dont_initialize();
  }
};

int sc_main(int argc, char* argv[]) {
  sc_clock clk("clk", 4, SC_NS);
  sc_signal<bool> valid_near;
  sc_signal<bool> valid_far;
  sc_signal<int> data_near;
  sc_signal<int> data_far;
  sc_signal<bool> credit_near;
  sc_signal<bool> credit_far;
  sc_signal<int> credits;

  Sender sender("sender");
  sender.clk(clk);
  sender.credit_return(credit_near);
  sender.valid(valid_near);
  sender.data(data_near);
  sender.credits(credits);

  Wires wires("wires");
  wires.clk(clk);
  wires.valid_in(valid_near);
  wires.data_in(data_near);
  wires.credit_in(credit_far);
  wires.valid_out(valid_far);
  wires.data_out(data_far);
  wires.credit_out(credit_near);

  Receiver receiver("receiver");
  receiver.clk(clk);
  receiver.valid(valid_far);
  receiver.data(data_far);
  receiver.credit_return(credit_far);

  sc_start(151, SC_NS);
  return 0;
}
