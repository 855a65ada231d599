il 1
na data = 0;
atomic flag = 0;
fn one() {
  reg r;
  store data, 1;
  r = load data;
  print r;
  return 0;
}
thread one();
