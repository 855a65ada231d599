il 1
na x = 0;
fn writer() {
  store x, 5;
  return 0;
}
fn reader() {
  reg r;
  r = load x;
  print r;
  return 0;
}
thread writer();
thread reader();
