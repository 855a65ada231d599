il 1
# The first store is overwritten on each path before anybody may read it, so it is removed. Where another thread
# stores in between, the source has a race and fails; the optimised program does not.
na data = 0;
atomic flag = 0;
fn first() {
  reg seen;
  store data, 1;
  print 5;
  seen = load acq flag;
  store data, 2;
  print 6;
  return 0;
}
fn second() {
  store data, 7;
  store rel flag, 1;
  return 0;
}
thread first();
thread second();
