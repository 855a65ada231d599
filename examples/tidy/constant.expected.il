il 1
na x = 0;
atomic f = 0;
fn main() {
  reg a;
  skip;
  store x, 3;
  print 3;
  return 0;
}
thread main();
