# Store buffering with a fence between the store and the load: both may still read 0, since the strongest fence here is
# acquire and release, and not sequentially consistent.
il 2
atomic a = 0;
atomic b = 0;
fn p() {
  reg r;
  store rlx a, 1;
  fence acqrel;
  r = load rlx b;
  print r;
  return 0;
}
fn q() {
  reg r;
  store rlx b, 1;
  fence acqrel;
  r = load rlx a;
  print r;
  return 0;
}
thread p();
thread q();
