// A sorting network for six numbers: twelve comparators in five layers, all combinational. The testbench applies
// numbers, lets the network settle, and looks whether what comes out ascends.
#include <systemc.h>

SC_MODULE(Comparator) {
  sc_in<int> a, b;
  sc_out<int> low, high;

  void compare() {
    bool ascends = a.read() <= b.read();
    low.write(ascends ? a.read() : b.read());
    high.write(ascends ? b.read() : a.read());
  }

  SC_CTOR(Comparator) {
    SC_METHOD(compare);
    sensitive << a << b;
  }
};

SC_MODULE(Sorter) {
  sc_in<int> in0, in1, in2, in3, in4, in5;
  sc_out<int> out0, out1, out2, out3, out4, out5;

  // wI_J: wire I behind layer J
  sc_signal<int> w0_1, w5_1, w1_1, w3_1, w2_1, w4_1;
  sc_signal<int> w1_2, w2_2, w3_2, w4_2;
  sc_signal<int> w0_3, w3_3, w2_3, w5_3;
  sc_signal<int> w1_4, w2_4, w3_4, w4_4;

  // layerJ_IK: compares the wires I and K
  Comparator layer1_05, layer1_13, layer1_24;
  Comparator layer2_12, layer2_34;
  Comparator layer3_03, layer3_25;
  Comparator layer4_01, layer4_23, layer4_45;
  Comparator layer5_12, layer5_34;

  SC_CTOR(Sorter) :
      layer1_05("layer1_05"), layer1_13("layer1_13"), layer1_24("layer1_24"),
      layer2_12("layer2_12"), layer2_34("layer2_34"), layer3_03("layer3_03"),
      layer3_25("layer3_25"), layer4_01("layer4_01"), layer4_23("layer4_23"),
      layer4_45("layer4_45"), layer5_12("layer5_12"), layer5_34("layer5_34") {
    // layer 1
    layer1_05.a(in0); layer1_05.b(in5); layer1_05.low(w0_1); layer1_05.high(w5_1);
    layer1_13.a(in1); layer1_13.b(in3); layer1_13.low(w1_1); layer1_13.high(w3_1);
    layer1_24.a(in2); layer1_24.b(in4); layer1_24.low(w2_1); layer1_24.high(w4_1);
    // layer 2
    layer2_12.a(w1_1); layer2_12.b(w2_1); layer2_12.low(w1_2); layer2_12.high(w2_2);
    layer2_34.a(w3_1); layer2_34.b(w4_1); layer2_34.low(w3_2); layer2_34.high(w4_2);
    // layer 3
    layer3_03.a(w0_1); layer3_03.b(w3_2); layer3_03.low(w0_3); layer3_03.high(w3_3);
    layer3_25.a(w2_2); layer3_25.b(w5_1); layer3_25.low(w2_3); layer3_25.high(w5_3);
    // layer 4
    layer4_01.a(w0_3); layer4_01.b(w1_2); layer4_01.low(out0); layer4_01.high(w1_4);
    layer4_23.a(w2_3); layer4_23.b(w3_3); layer4_23.low(w2_4); layer4_23.high(w3_4);
    layer4_45.a(w4_2); layer4_45.b(w5_3); layer4_45.low(w4_4); layer4_45.high(out5);
    // layer 5
    layer5_12.a(w1_4); layer5_12.b(w2_4); layer5_12.low(out1); layer5_12.high(out2);
    layer5_34.a(w3_4); layer5_34.b(w4_4); layer5_34.low(out3); layer5_34.high(out4);
  }
};

SC_MODULE(Testbench) {
  sc_out<int> in0, in1, in2, in3, in4, in5;
  sc_in<int> out0, out1, out2, out3, out4, out5;

  int seed;

  int random() {
    seed = (seed * 61 + 17) % 251;
    return seed % 100;
  }

  void test() {
    bool right = true;
    for (int round = 0; round < 5; round++) {
      int next = random();
      in0.write(next);
      next = random();
      in1.write(next);
      next = random();
      in2.write(next);
      next = random();
      in3.write(next);
      next = random();
      in4.write(next);
      next = random();
      in5.write(next);
      wait(10, SC_NS);
      cout << in0.read() << " " << in1.read() << " " << in2.read() << " " << in3.read() << " " << in4.read() << " "
           << in5.read() << " -> " << out0.read() << " " << out1.read() << " " << out2.read() << " " << out3.read()
           << " " << out4.read() << " " << out5.read() << endl;
      right = right && out0.read() <= out1.read() && out1.read() <= out2.read() && out2.read() <= out3.read()
           && out3.read() <= out4.read() && out4.read() <= out5.read();
    }
    if (right) {
      cout << "all sorted" << endl;
    } else {
      cout << "not sorted" << endl;
    }
  }

  SC_CTOR(Testbench) : seed(42) {
    SC_THREAD(test);
  }
};

int sc_main(int argc, char* argv[]) {
  sc_signal<int> in0;
  sc_signal<int> in1;
  sc_signal<int> in2;
  sc_signal<int> in3;
  sc_signal<int> in4;
  sc_signal<int> in5;
  sc_signal<int> out0;
  sc_signal<int> out1;
  sc_signal<int> out2;
  sc_signal<int> out3;
  sc_signal<int> out4;
  sc_signal<int> out5;

  Testbench testbench("testbench");
  testbench.in0(in0); testbench.in1(in1); testbench.in2(in2);
  testbench.in3(in3); testbench.in4(in4); testbench.in5(in5);
  testbench.out0(out0); testbench.out1(out1); testbench.out2(out2);
  testbench.out3(out3); testbench.out4(out4); testbench.out5(out5);

  Sorter sorter("sorter");
  sorter.in0(in0); sorter.in1(in1); sorter.in2(in2);
  sorter.in3(in3); sorter.in4(in4); sorter.in5(in5);
  sorter.out0(out0); sorter.out1(out1); sorter.out2(out2);
  sorter.out3(out3); sorter.out4(out4); sorter.out5(out5);

  sc_start(1, SC_US);
  return 0;
}
