il 1
na x = 0;
atomic f = 0;
fn main() {
  reg m, n;
  skip;
  n = 2;
  while n {
    print 5;
    n = n - 1;
  }
  return 0;
}
thread main();
