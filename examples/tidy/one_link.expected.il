il 1
na x = 0;
atomic f = 0;
fn main(p) {
  reg a, b;
  a = p;
  skip;
  print a;
  return 0;
}
thread main(7);
