il 1
na data = 0;
atomic lock = 0;
fn enter(value) {
  reg old, r, s;
  old = swap acq lock, 1;
  if old {
  } else {
    store data, value;
    r = load data;
    print r;
    store rel lock, 0;
    old = swap acq lock, 1;
    if old {
    } else {
      s = load data;
      print s;
      store rel lock, 0;
    }
  }
  return 0;
}
thread enter(1);
thread enter(2);
