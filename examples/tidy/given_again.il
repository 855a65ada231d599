il 1
na x = 0;
atomic f = 0;
fn main(p) {
  reg b;
  b = p;
  p = 4;
  print b;
  print p;
  return 0;
}
thread main(7);
