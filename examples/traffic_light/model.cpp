// Traffic lights where a side road meets a main road. The main road keeps its green until a car waits in the side road,
// which then has green for 10 s, or less if the cars are gone before; one timer is started anew for each phase.
#include <systemc.h>

static const int RED = 0;
static const int YELLOW = 1;
static const int GREEN = 2;

SC_MODULE(Timer) {
  sc_in<bool> start; // each change starts the timer anew
  sc_in<int> seconds;
  sc_out<bool> expired; // changes when the time is over

  sc_event over;

  void begin() {
    over.cancel();
    over.notify(seconds.read(), SC_SEC);
  }

  void expire() {
    expired.write(!expired.read());
  }

  SC_CTOR(Timer) {
    SC_METHOD(begin);
    sensitive << start;
    dont_initialize();
    SC_METHOD(expire);
    sensitive << over;
    dont_initialize();
  }
};

SC_MODULE(Controller) {
  sc_in<bool> car;
  sc_out<bool> timer_start;
  sc_out<int> timer_seconds;
  sc_in<bool> timer_expired;
  sc_out<int> main_light;
  sc_out<int> side_light;

  void show(int light) {
    if (light == RED) {
      cout << "red";
    } else if (light == YELLOW) {
      cout << "yellow";
    } else {
      cout << "green";
    }
  }

  void phase(int main_road, int side_road, int seconds) {
    main_light.write(main_road);
    side_light.write(side_road);
    timer_seconds.write(seconds);
    timer_start.write(!timer_start.read());
    cout << sc_time_stamp() << ": main road ";
    show(main_road);
    cout << ", side road ";
    show(side_road);
    cout << endl;
  }

  void control() {
    while (true) {
      phase(GREEN, RED, 20);
      wait(timer_expired.value_changed_event());
      if (!car.read()) {
        wait(car.posedge_event());
      }
      phase(YELLOW, RED, 3);
      wait(timer_expired.value_changed_event());
      phase(RED, RED, 1);
      wait(timer_expired.value_changed_event());
      phase(RED, GREEN, 10);
      wait(timer_expired.value_changed_event() | car.negedge_event());
      phase(RED, YELLOW, 3);
      wait(timer_expired.value_changed_event());
      phase(RED, RED, 1);
      wait(timer_expired.value_changed_event());
    }
  }

  SC_CTOR(Controller) {
    SC_THREAD(control);
  }
};

SC_MODULE(SideRoad) {
  sc_out<bool> car;

  void drive() {
    wait(7500, SC_MS); // a car comes while the main road has its green
    car.write(true);
    wait(20, SC_SEC);
    car.write(false);
    wait(60, SC_SEC); // nobody comes for a minute
    car.write(true);
    wait(30, SC_SEC); // more cars than one green lets through
    car.write(false);
  }

  SC_CTOR(SideRoad) {
    SC_THREAD(drive);
  }
};

int sc_main(int argc, char* argv[]) {
  sc_signal<bool> car;
  sc_signal<bool> timer_start;
  sc_signal<int> timer_seconds;
  sc_signal<bool> timer_expired;
  sc_signal<int> main_light;
  sc_signal<int> side_light;

  SideRoad side_road("side_road");
  side_road.car(car);

  Timer timer("timer");
  timer.start(timer_start);
  timer.seconds(timer_seconds);
  timer.expired(timer_expired);

  Controller controller("controller");
  controller.car(car);
  controller.timer_start(timer_start);
  controller.timer_seconds(timer_seconds);
  controller.timer_expired(timer_expired);
  controller.main_light(main_light);
  controller.side_light(side_light);

  sc_start(200, SC_SEC);
  return 0;
}
