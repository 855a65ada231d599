il 1
atomic a = 0;
atomic b = 0;
fn p() {
  reg r;
  store rlx a, 1;
  r = load rlx b;
  print r;
  return 0;
}
fn q() {
  reg r;
  store rlx b, 1;
  r = load rlx a;
  print r;
  return 0;
}
thread p();
thread q();
