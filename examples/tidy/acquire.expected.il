il 1
na x = 0;
atomic f = 0;
fn main() {
  reg a, r, s;
  skip;
  r = load acq f;
  if r {
    skip;
    print 3;
  }
  return 0;
}
thread main();
