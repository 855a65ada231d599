il 1
na data = 0;
atomic flag = 0;
fn one() {
  reg c, r;
  store data, 1;
  store rel flag, 1;
  c = load acq flag;
  r = load data;
  print r;
  return c;
}
thread one();
