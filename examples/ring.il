il 1
na c0 = 0;
na c1 = 0;
na c2 = 0;
na c3 = 0;
atomic head = 0;
atomic tail = 0;
fn put(v) {
  reg h, t, full, k, q;
  h = load rlx head;
  full = 1;
  while full {
    t = load acq tail;
    q = h - t;
    full = 4 <= q;
  }
  k = h % 4;
  q = k == 0;
  if q {
    store c0, v;
  }
  q = k == 1;
  if q {
    store c1, v;
  }
  q = k == 2;
  if q {
    store c2, v;
  }
  q = k == 3;
  if q {
    store c3, v;
  }
  h = h + 1;
  store rel head, h;
  return 0;
}
fn get() {
  reg h, t, empty, k, q, v;
  t = load rlx tail;
  empty = 1;
  while empty {
    h = load acq head;
    empty = h == t;
  }
  k = t % 4;
  q = k == 0;
  if q {
    v = load c0;
  }
  q = k == 1;
  if q {
    v = load c1;
  }
  q = k == 2;
  if q {
    v = load c2;
  }
  q = k == 3;
  if q {
    v = load c3;
  }
  t = t + 1;
  store rel tail, t;
  return v;
}
fn producer(n) {
  reg r;
  while n {
    r = call put(n);
    n = n - 1;
  }
  return 0;
}
fn consumer(n) {
  reg v;
  while n {
    v = call get();
    print v;
    n = n - 1;
  }
  return 0;
}
thread producer(6);
thread consumer(6);
