il 1
na data = 0;
atomic flag = 0;
fn writer() {
  store data, 5;
  store rel flag, 1;
  return 0;
}
fn reader() {
  reg seen, got;
  seen = load acq flag;
  if seen {
    got = load data;
    print got;
  }
  return 0;
}
thread writer();
thread reader();
