il 1
na data = 0;
atomic flag = 0;
fn one() {
  reg r;
  store data, 1;
  store rel flag, 1;
  r = 1;
  print r;
  return 0;
}
thread one();
