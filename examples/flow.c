$tainted int a; $untainted int b; void f(void) { b = a; }
