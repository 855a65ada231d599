il 1
na data = 0;
atomic flag = 0;
fn one() {
  reg r, s, t;
  r = load data;
  s = load data;
  t = load data;
  print t;
  return s;
}
thread one();
