il 1
na x = 0;
atomic f = 0;
fn main() {
  reg a, b, r;
  skip;
  skip;
  r = 6;
  print r;
  return 0;
}
thread main();
