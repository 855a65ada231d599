il 1
na x = 0;
atomic f = 0;
fn main(p) {
  reg b;
  b = p;
  skip;
  print b;
  print 4;
  return 0;
}
thread main(7);
