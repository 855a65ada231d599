il 1
na x = 0;
atomic f = 0;
fn main() {
  reg a, c;
  c = load rlx f;
  if c {
    a = 1;
  } else {
    a = 1;
  }
  print a;
  return 0;
}
thread main();
