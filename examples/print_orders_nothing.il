# What is printed synchronises nothing: that the first thread has printed tells the second nothing of what it wrote.
il 1
na x = 0;
fn write() {
  store x, 1;
  print 1;
  return 0;
}
fn read() {
  reg r;
  print 2;
  r = load x;
  print r;
  return 0;
}
thread write();
thread read();
