// A UART at 115200 baud: eight data bits, lowest first, one stop bit. The transmitter and the receiver share one wire
// and no clock: the receiver starts at the falling edge of the start bit and samples each bit in its middle.
#include <systemc.h>

static const int BIT = 8680; // nanoseconds

SC_MODULE(Transmitter) {
  sc_fifo_in<int> data;
  sc_out<bool> tx;

  void send() {
    tx.write(true); // the line is idle
    wait(2 * BIT, SC_NS);
    while (true) {
      int value = data.read();
      tx.write(false); // start bit
      wait(BIT, SC_NS);
      for (int i = 0; i < 8; i++) {
        tx.write(((value >> i) & 1) == 1);
        wait(BIT, SC_NS);
      }
      tx.write(true); // stop bit
      wait(BIT, SC_NS);
    }
  }

  SC_CTOR(Transmitter) {
    SC_THREAD(send);
  }
};

SC_MODULE(Receiver) {
  sc_in<bool> rx;
  sc_fifo_out<int> data;
  sc_out<bool> framing_error;

  void receive() {
    while (true) {
      wait(rx.negedge_event());
      wait(BIT / 2, SC_NS); // to the middle of the start bit
      int value = 0;
      for (int i = 0; i < 8; i++) {
        wait(BIT, SC_NS);
        if (rx.read()) {
          value |= 1 << i;
        }
      }
      wait(BIT, SC_NS);
      if (rx.read()) {
        data.write(value);
      } else {
        framing_error.write(true);
      }
    }
  }

  SC_CTOR(Receiver) {
    SC_THREAD(receive);
  }
};

SC_MODULE(Testbench) {
  sc_fifo_out<int> to_send;
  sc_fifo_in<int> received;
  sc_in<bool> framing_error;

  int bytes[4];

  void send() {
    bytes[0] = 0x55;
    bytes[1] = 0x00;
    bytes[2] = 0xff;
    bytes[3] = 0x2a;
    for (int i = 0; i < 4; i++) {
      to_send.write(bytes[i]);
    }
  }

  void check() {
    for (int i = 0; i < 4; i++) {
      int value = received.read();
      cout << sc_time_stamp() << ": received " << value;
      if (value == bytes[i] && !framing_error.read()) {
        cout << ", as it was sent" << endl;
      } else {
        cout << ", but " << bytes[i] << " was sent" << endl;
      }
    }
  }

  SC_CTOR(Testbench) {
    SC_THREAD(send);
    SC_THREAD(check);
  }
};

int sc_main(int argc, char* argv[]) {
  sc_fifo<int> outgoing(2);
  sc_signal<bool> line;
  sc_fifo<int> incoming(2);
  sc_signal<bool> framing_error;

  Testbench testbench("testbench");
  testbench.to_send(outgoing);
  testbench.received(incoming);
  testbench.framing_error(framing_error);

  Transmitter transmitter("transmitter");
  transmitter.data(outgoing);
  transmitter.tx(line);

  Receiver receiver("receiver");
  receiver.rx(line);
  receiver.data(incoming);
  receiver.framing_error(framing_error);

  sc_start(1, SC_MS);
  return 0;
}
