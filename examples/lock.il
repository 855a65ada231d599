il 1
na count = 0;
atomic lock = 0;
fn main() {
  reg seen, n;
  seen = 1;
  while seen {
    seen = cas acq lock, 0, 1;
  }
  n = load count;
  n = n + 1;
  store count, n;
  print n;
  store rel lock, 0;
  return 0;
}
thread main();
thread main();
