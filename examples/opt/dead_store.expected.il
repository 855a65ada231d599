il 1
na data = 0;
atomic flag = 0;
fn writer() {
  reg r;
  skip;
  r = load acq flag;
  if r {
    skip;
  }
  store data, 3;
  return 0;
}
thread writer();
