typedef struct { int a; $tainted char *s; } T;
enum { K = 3 };
T v, *p;
int (*fp)(int, ...), g(T *t);
void f(int n, __builtin_va_list ap, __builtin_va_list aq) {
  n = K ? 'c' : (n, 1);
  *p = v;
  p->a += v.a++ - -n;
  p[n].s = "text" "more";
  fp = g;
  (*fp)(n, g(&v)) << (int *)0;
  (T){ .a = n, .s = 0 }.a;
  __extension__ ({ n; p; });
  sizeof n + _Alignof(T *) + __builtin_offsetof(T, s);
  __builtin_va_start(ap, n);
  __builtin_va_copy(aq, ap);
  h(__builtin_va_arg(ap, T), n ?: p, !n);
}
