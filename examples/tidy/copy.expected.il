il 1
na x = 0;
atomic f = 0;
fn main(p) {
  reg b;
  skip;
  store rel f, p;
  print p;
  return 0;
}
thread main(7);
