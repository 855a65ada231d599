il 1
na data = 0;
atomic flag = 0;
fn one() {
  reg c, r, s;
  store data, 1;
  c = add acqrel flag, 1;
  r = 1;
  print r;
  c = add acqrel flag, 1;
  s = load data;
  print s;
  return 0;
}
thread one();
