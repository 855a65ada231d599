il 1
na x = 0;
atomic f = 0;
fn main() {
  reg a, c;
  c = load rlx f;
  if c {
    skip;
  } else {
    skip;
  }
  print 1;
  return 0;
}
thread main();
