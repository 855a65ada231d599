# Increments of three threads by a load and a store: one may be lost, and two.
il 1
atomic count = 0;
fn count_on() {
  reg r, s;
  r = load acq count;
  s = r + 1;
  store rel count, s;
  return 0;
}
thread count_on();
thread count_on();
thread count_on();
