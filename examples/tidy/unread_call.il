il 1
na x = 0;
atomic f = 0;
fn same(p) {
  skip;
  return p;
}
fn main() {
  reg a, r;
  a = 3;
  r = call same(a);
  return 0;
}
thread main();
