il 1
na limit = 3;
atomic ready = 0;
fn wait() {
  reg c, r;
  c = load rlx ready;
  while c {
    r = load limit;
    r = r - 1;
    store limit, r;
    c = load rlx ready;
  }
  return 0;
}
thread wait();
