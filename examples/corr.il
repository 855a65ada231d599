il 1
atomic a = 0;
fn writer() {
  store rlx a, 1;
  return 0;
}
fn reader() {
  reg r, s;
  r = load rlx a;
  s = load rlx a;
  print r;
  print s;
  return 0;
}
thread writer();
thread reader();
