il 1
na x = 0;
atomic f = 0;
fn main() {
  reg a, r, s;
  a = 3;
  r = load acq f;
  if r {
    s = load x;
    print a;
  }
  return 0;
}
thread main();
