il 1
na data = 0;
atomic flag = 0;
fn one() {
  reg c, r, s;
  r = load data;
  c = load rlx flag;
  s = load data;
  print s;
  return r;
}
thread one();
