# A read and a later write of one non-atomic location, ordered by relaxed accesses alone: a data race in C11, and none here,
# since without promises the write can't come before the read.
il 1
na x = 0;
atomic f = 0;
fn p() {
  reg r;
  r = load x;
  store rlx f, 1;
  print r;
  return r;
}
fn q() {
  reg s;
  s = load rlx f;
  if s {
    store x, 2;
  }
  return 0;
}
thread p();
thread q();
