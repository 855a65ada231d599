il 1
na data = 0;
atomic flag = 0;
fn one() {
  reg c, r;
  c = load rlx flag;
  store data, 1;
  if c {
    store data, 2;
  }
  r = load data;
  print r;
  return 0;
}
thread one();
