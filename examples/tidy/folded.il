il 1
na x = 0;
atomic f = 0;
fn main() {
  reg a, b, r;
  a = 2;
  b = 3;
  r = a * b;
  print r;
  return 0;
}
thread main();
