il 1
na limit = 3;
atomic ready = 0;
fn wait() {
  reg c, d, r, _h0;
  c = load rlx ready;
  _h0 = load limit;
  while c {
    d = load rlx ready;
    while d {
      r = _h0;
      d = load rlx ready;
    }
    c = load rlx ready;
  }
  return 0;
}
thread wait();
