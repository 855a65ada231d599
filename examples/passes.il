il 1
na limit = 3;
na total = 0;
fn main() {
  reg n, r;
  store total, 1;
  r = load total;
  n = 2;
  while n {
    r = load limit;
    n = n - 1;
  }
  store total, r;
  print r;
  return 0;
}
thread main();
