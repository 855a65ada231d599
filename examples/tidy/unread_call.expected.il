il 1
na x = 0;
atomic f = 0;
fn same(p) {
  skip;
  return p;
}
fn main() {
  reg a, r;
  skip;
  r = call same(3);
  return 0;
}
thread main();
