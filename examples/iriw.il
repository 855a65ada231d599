il 1
atomic a = 0;
atomic b = 0;
fn write_a() {
  store rel a, 1;
  return 0;
}
fn write_b() {
  store rel b, 1;
  return 0;
}
fn read_ab() {
  reg r, s;
  r = load acq a;
  s = load acq b;
  print r;
  print s;
  return 0;
}
fn read_ba() {
  reg r, s;
  r = load acq b;
  s = load acq a;
  print r;
  print s;
  return 0;
}
thread write_a();
thread write_b();
thread read_ab();
thread read_ba();
