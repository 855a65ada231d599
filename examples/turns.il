il 1
fn first() {
  reg r;
  r = 10;
  print r;
  r = 11;
  print r;
  return 0;
}
fn second() {
  print 20;
  skip;
  print 21;
  return 0;
}
thread first();
thread second();
