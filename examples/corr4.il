# Four readers that each read twice while one thread writes: none goes back from the new value to the old one.
il 1
atomic x = 0;
fn write() {
  store rlx x, 1;
  return 0;
}
fn read() {
  reg r, s;
  r = load rlx x;
  s = load rlx x;
  print r;
  print s;
  return 0;
}
thread write();
thread read();
thread read();
thread read();
thread read();
