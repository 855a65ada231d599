il 1
na x = 0;
atomic f = 0;
fn main() {
  reg r;
  r = 9223372036854775807 + 1;
  print r;
  return 0;
}
thread main();
