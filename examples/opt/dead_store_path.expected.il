il 1
na data = 0;
atomic flag = 0;
fn writer() {
  reg c;
  c = load rlx flag;
  store data, 1;
  if c {
    store data, 2;
  }
  return 0;
}
thread writer();
