il 1
na x = 0;
atomic f = 0;
fn main() {
  reg a, c;
  c = load rlx f;
  a = 1;
  if c {
    a = 2;
  }
  print a;
  return 0;
}
thread main();
