il 1
na x = 0;
atomic f = 0;
fn p() {
  store x, 5;
  store rel f, 1;
  return 0;
}
fn u() {
  reg r;
  r = add rlx f, 1;
  return 0;
}
fn q() {
  reg s, t;
  s = load acq f;
  t = load x;
  print s;
  print t;
  return 0;
}
thread p();
thread u();
thread q();
