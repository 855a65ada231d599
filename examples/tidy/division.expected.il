il 1
na x = 0;
atomic f = 0;
fn main() {
  reg r, s;
  skip;
  s = 1 / 0;
  print s;
  return 0;
}
thread main();
