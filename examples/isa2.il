il 1
na x = 0;
atomic f = 0;
atomic g = 0;
fn p() {
  store x, 1;
  store rel f, 1;
  return 0;
}
fn q() {
  reg r;
  r = load acq f;
  if r {
    store rel g, 1;
  }
  return 0;
}
fn v() {
  reg s, t;
  s = load acq g;
  if s {
    t = load x;
    print t;
  }
  return 0;
}
thread p();
thread q();
thread v();
