il 1
na data = 0;
atomic flag = 0;
fn one() {
  reg c, r;
  store data, 1;
  c = load rlx flag;
  while c {
    r = load data;
    print r;
    store data, 2;
    c = load rlx flag;
  }
  return 0;
}
thread one();
