il 2
na limit = 3;
atomic ready = 0;
fn giving() {
  reg c, r, _h0;
  c = load rlx ready;
  _h0 = load limit;
  while c {
    r = _h0;
    fence rel;
    c = load rlx ready;
  }
  return 0;
}
fn taking() {
  reg c, r;
  c = load rlx ready;
  while c {
    r = load limit;
    fence acq;
    c = load rlx ready;
  }
  return 0;
}
thread giving();
thread taking();
