il 1
na data = 0;
atomic flag = 0;
fn writer() {
  store data, 1;
  store rel flag, 1;
  store data, 2;
  return 0;
}
thread writer();
