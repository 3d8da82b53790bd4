$tainted int a; int c; void f(void) { c = a; }
