il 1
na data = 0;
atomic flag = 0;
fn other() {
  return 0;
}
fn one() {
  reg c, r;
  store data, 1;
  c = call other();
  r = load data;
  print r;
  return c;
}
thread one();
