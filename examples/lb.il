il 1
atomic a = 0;
atomic b = 0;
fn p() {
  reg r;
  r = load rlx a;
  store rlx b, 1;
  print r;
  return 0;
}
fn q() {
  reg r;
  r = load rlx b;
  store rlx a, 1;
  print r;
  return 0;
}
thread p();
thread q();
