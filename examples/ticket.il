# A ticket lock: who draws a ticket waits until it is served, and whoever leaves serves the next one.
il 1
na count = 0;
atomic next = 0;
atomic served = 0;
fn main() {
  reg mine, now, wait, n;
  mine = add rlx next, 1;
  wait = 1;
  while wait {
    now = load acq served;
    wait = now != mine;
  }
  n = load count;
  n = n + 1;
  store count, n;
  print n;
  n = mine + 1;
  store rel served, n;
  return 0;
}
thread main();
thread main();
