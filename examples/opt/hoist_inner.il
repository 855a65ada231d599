il 1
na limit = 3;
atomic ready = 0;
fn wait() {
  reg c, d, r;
  c = load rlx ready;
  while c {
    d = load rlx ready;
    while d {
      r = load limit;
      d = load rlx ready;
    }
    c = load rlx ready;
  }
  return 0;
}
thread wait();
