// a model
  #include <systemc.h> x
