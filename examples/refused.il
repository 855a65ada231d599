il 1
na x = 0;
fn main() {
  reg r;
  r = load acq x;
  return r;
}
thread main();
