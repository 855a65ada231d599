il 1
# Thread 1 reads x beside a write that it doesn't know of, which is a race, and nobody reads what it gets.
na x = 0;
fn writes() {
  store x, 1;
  return 0;
}
fn reads() {
  reg r;
  r = load x;
  print 2;
  return 0;
}
thread writes();
thread reads();
