il 1
na data = 0;
atomic flag = 0;
fn one() {
  reg r;
  skip;
  r = 1;
  print r;
  store data, 2;
  r = 2;
  print r;
  return 0;
}
thread one();
