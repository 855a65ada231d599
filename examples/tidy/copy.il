il 1
na x = 0;
atomic f = 0;
fn main(p) {
  reg b;
  b = p;
  store rel f, b;
  print b;
  return 0;
}
thread main(7);
