il 1
na limit = 3;
atomic ready = 0;
fn wait() {
  reg c, r, _h0;
  c = load rlx ready;
  _h0 = load limit;
  while c {
    r = _h0;
    print r;
    c = load rlx ready;
  }
  return 0;
}
thread wait();
