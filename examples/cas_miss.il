# A compare-exchange may miss on an older message, though a newer one would match.
il 1
atomic x = 0;
fn write() {
  store rlx x, 1;
  return 0;
}
fn change() {
  reg seen;
  seen = cas acq x, 1, 2;
  print seen;
  return 0;
}
thread write();
thread change();
