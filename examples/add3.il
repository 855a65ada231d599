# Increments by relaxed updates of 3 threads: none is lost, and each meets another value.
il 1
atomic count = 0;
fn count_on() {
  reg r;
  r = add rlx count, 1;
  print r;
  return 0;
}
thread count_on();
thread count_on();
thread count_on();
