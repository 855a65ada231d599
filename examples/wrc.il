il 1
atomic a = 0;
atomic f = 0;
fn p() {
  store rlx a, 1;
  return 0;
}
fn q() {
  reg r;
  r = load rlx a;
  store rel f, 1;
  print r;
  return 0;
}
fn v() {
  reg s, t;
  s = load acq f;
  t = load rlx a;
  print s;
  print t;
  return 0;
}
thread p();
thread q();
thread v();
