il 1
na x = 0;
atomic f = 0;
fn three() {
  reg a;
  skip;
  return 3;
}
fn mine(p) {
  reg a;
  a = p + 1;
  return a;
}
fn main() {
  reg r;
  r = call three();
  print r;
  r = call mine(r);
  print r;
  return 0;
}
thread main();
