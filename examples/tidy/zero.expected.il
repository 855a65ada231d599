il 1
na x = 0;
atomic f = 0;
fn main(p) {
  reg r;
  print 0;
  print p;
  return 0;
}
thread main(7);
