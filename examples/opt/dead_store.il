il 1
na data = 0;
atomic flag = 0;
fn writer() {
  reg r;
  store data, 1;
  r = load acq flag;
  if r {
    store data, 2;
  }
  store data, 3;
  return 0;
}
thread writer();
