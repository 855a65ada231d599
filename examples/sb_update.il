# Store buffering with an update of one location in each thread between the store and the load: whoever updates it second
# reads from the first, so not both can read 0. An update that acquires and releases stands in for the full fence.
il 1
atomic a = 0;
atomic b = 0;
atomic z = 0;
fn p() {
  reg r;
  store rlx a, 1;
  r = add acqrel z, 0;
  r = load rlx b;
  print r;
  return 0;
}
fn q() {
  reg r;
  store rlx b, 1;
  r = add acqrel z, 0;
  r = load rlx a;
  print r;
  return 0;
}
thread p();
thread q();
