il 1
na x = 0;
atomic f = 0;
fn main() {
  reg m, n;
  m = 5;
  n = 2;
  while n {
    print m;
    n = n - 1;
  }
  return 0;
}
thread main();
