// Right steps of LLVM that `validate` refuses, or that have no pair: docs/OPTIMISATIONS.md says why they are right.
extern long x, y;

// A store of what is there already.
long again(void) { long r = x; x = r; return r; }

// A value that paths bring.
long brought(long c) { if (c) x = 1; else x = 2; return x; }

// A load that is put in on one path.
long partly(long c) { if (c) y = x; return x; }

// A store moved down, behind the loop.
void down(long n) { do { x = n; n = n - 1; } while (n); }
