il 1
atomic a = 0;
atomic b = 0;
fn p() {
  store rlx a, 1;
  store rlx b, 2;
  return 0;
}
fn q() {
  store rlx b, 1;
  store rlx a, 2;
  return 0;
}
fn observer() {
  reg r, s;
  r = load rlx a;
  s = load rlx b;
  print r;
  print s;
  return 0;
}
thread p();
thread q();
thread observer();
