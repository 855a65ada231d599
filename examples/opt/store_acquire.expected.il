il 1
na data = 0;
atomic flag = 0;
fn one() {
  reg c, r;
  store data, 1;
  c = load acq flag;
  r = 1;
  print r;
  return c;
}
thread one();
