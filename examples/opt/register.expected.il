il 1
na data = 0;
atomic flag = 0;
fn one() {
  reg r, s;
  r = load data;
  r = r + 1;
  s = load data;
  print s;
  return r;
}
thread one();
