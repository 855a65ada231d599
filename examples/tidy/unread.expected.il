il 1
na x = 0;
atomic f = 0;
fn main() {
  reg r, s, t;
  skip;
  s = load rlx f;
  t = add rlx f, 1;
  return 0;
}
thread main();
