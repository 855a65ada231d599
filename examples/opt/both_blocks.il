il 1
na data = 0;
atomic flag = 0;
fn one() {
  reg c, r;
  c = load rlx flag;
  if c {
    store data, 1;
    print 7;
  } else {
    store data, 1;
  }
  r = load data;
  print r;
  return 0;
}
thread one();
