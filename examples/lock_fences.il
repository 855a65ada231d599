# A spin lock over a relaxed compare-exchange: an acquire fence when it is taken, a release fence before it is given back.
il 2
na count = 0;
atomic lock = 0;
fn main() {
  reg seen, n;
  seen = 1;
  while seen {
    seen = cas rlx lock, 0, 1;
  }
  fence acq;
  n = load count;
  n = n + 1;
  store count, n;
  print n;
  fence rel;
  store rlx lock, 0;
  return 0;
}
thread main();
thread main();
