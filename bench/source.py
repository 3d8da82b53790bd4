#!/usr/bin/env python3
"""Writes a C source of a wanted size to standard output, the same for the same arguments.

usage: source.py KIND BYTES [FIRST]

KIND is `preprocessed` for one part again and again with linemarkers, structs, functions with bodies, strings and comments,
as a preprocessor writes them; `ordinary` for parts of six forms in turn, with lists, tables, unions, pointers to functions,
initialisers, every statement, and calls of earlier parts; `nested` for functions of which each has 400 blocks and statements
inside one another, and an expression with 400 parentheses; or `objects` for global ints and functions that assign them (the
tool analyses it). All are C of gcc too: `gcc -fsyntax-only` takes them. Parts are numbered from FIRST on, a multiple of 6, or from 0: sources
of different numbers have no name in common but those of the library.

usage: source.py errors COUNT

A function that assigns one tainted int to so many untainted ones: each is an exceeded bound of `share/cqual/lattices/taint.q`.

usage: source.py members|names|tags|scopes COUNT

A struct of so many members, each read and written; so many names in one scope, each used there; so many structs that are used by
their tags; or so many functions that use names of the file inside 60 open scopes.
"""
import sys

PREPROCESSED = """# %(line)d "part%(n)d.h" 1 3 4
extern int part%(n)d_print (const char *__restrict __format, ...) __attribute__ ((__nothrow__));
/* Entry %(n)d of the table, with its neighbours. */
struct part%(n)d { unsigned long key; struct part%(n)d *next; char name[16]; };
# %(line)d "main.c" 2
static unsigned long part%(n)d_sum (struct part%(n)d *at, int limit)
{
  unsigned long sum = 0x%(n)xUL; // of all keys
  for (int i = 0; at != 0 && i <= limit; i++, at = at->next)
    sum += at->key >> 3 & 0xffu ? at->key * 31 : (sum << 5) - 'a';
  part%(n)d_print ("sum of \\"%%s\\" is %%lu\\n", at ? at->name : "none", sum);
  return sum;
}
"""

OBJECTS = """# %(line)d "main.c"
$tainted int source%(n)d;
const int target%(n)d; int middle%(n)d; /* %(n)d */
void flow%(n)d(void) { middle%(n)d = source%(n)d; target%(n)d = middle%(n)d; }
"""

HEAD = """typedef unsigned long size_t;
extern void *malloc (size_t __size) __attribute__ ((__nothrow__, __malloc__));
extern void free (void *__ptr) __attribute__ ((__nothrow__));
extern int printf (const char *__restrict __format, ...);
"""

# a list with a cursor
LIST = """typedef struct node%(n)d { struct node%(n)d *next, **link; long key; const char *name; } node%(n)d;
static node%(n)d *first%(n)d = (void *)0, spare%(n)d[4];
static node%(n)d *push%(n)d(long key, const char *name)
{
  node%(n)d *made = malloc(sizeof *made);
  if (!made)
    return first%(n)d;
  made->key = key, made->name = name ? name : "none";
  made->link = &first%(n)d;
  made->next = first%(n)d;
  return first%(n)d = made;
}
long sum%(n)d(int limit)
{
  long sum = 0;
  for (node%(n)d *at = first%(n)d; at && limit-- > 0; at = at->next)
    sum += at->key %% %(m)d ? at->key << 2 : -at->key;
  while (first%(n)d) {
    node%(n)d *gone = first%(n)d;
    first%(n)d = gone->next;
    free(gone);
  }
  return sum + (long)sizeof spare%(n)d / spare%(n)d[0].key;
}
"""

# a table with designators, an enum, a switch, pointers to functions
TABLE = """enum kind%(n)d { PLAIN%(n)d, LINE%(n)d = %(m)d, BLOCK%(n)d, LAST%(n)d };
typedef int (*handler%(n)d)(enum kind%(n)d kind, const unsigned char *text, size_t length);
struct row%(n)d { const char *name; handler%(n)d run; unsigned flags : 5, : 3, level : 8; };
static int plain%(n)d(enum kind%(n)d kind, const unsigned char *text, size_t length)
{
  size_t i;
  int count = 0;
  for (i = 0; i < length; i++)
    switch (text[i]) {
    case ' ': case '\\t':
      continue;
    case '\\n':
      count++;
      break;
    default:
      if (text[i] >= 'a' && text[i] <= 'z')
        count += text[i] - 'a';
      else if (text[i] == '%%')
        return -1;
      else
        count ^= 0x%(n)x;
    }
  return kind == PLAIN%(n)d ? count : count + (int)kind;
}
static const struct row%(n)d rows%(n)d[LAST%(n)d - LINE%(n)d + 2] = {
  { "plain", plain%(n)d, 1, 2 }, [1] = { .name = "line" "%(n)d", .run = &plain%(n)d, .flags = 1 << 2 | 3 },
  { .level = 7u, .name = 0, },
};
int table%(n)d(const char *text, size_t length)
{
  const struct row%(n)d *row = rows%(n)d;
  int all = 0;
  do {
    if (row->run == 0)
      goto end;
    all += row->run((enum kind%(n)d)(row - rows%(n)d), (const unsigned char *)text, length) * (row->flags & 1 ? 2 : 3);
  } while ((++row)->name);
end:
  return all;
}
"""

# arrays, unions, compound literals, casts
GRID = """union word%(n)d { unsigned bits; float value; unsigned char bytes[sizeof(unsigned)]; };
struct grid%(n)d { int width, height; double cell[%(m)d][4]; union word%(n)d tag; };
static inline double at%(n)d(const struct grid%(n)d *g, int x, int y)
{
  return x >= 0 && x < g->width && y >= 0 && y < g->height ? g->cell[x][y] : 0.5e-%(k)d;
}
double blur%(n)d(struct grid%(n)d *g, int rounds)
{
  static struct grid%(n)d other;
  double most = 0.0;
  for (int round = 0; round < rounds; ++round) {
    int x, y;
    for (x = 0; x != g->width; x++)
      for (y = 0; y != g->height; y++) {
        double sum = at%(n)d(g, x - 1, y) + at%(n)d(g, x + 1, y) + at%(n)d(g, x, y - 1) + at%(n)d(g, x, y + 1);
        other.cell[x][y] = (sum / 4.0 + g->cell[x][y]) * .5;
        if (!(other.cell[x][y] <= most))
          most = other.cell[x][y];
      }
    *g = other;
  }
  g->tag = (union word%(n)d){ .bits = 0x%(n)xu };
  g->tag.bytes[0] ^= ~(unsigned char)rounds;
  return most * *(int[2]){ %(k)d, %(m)d };
}
"""

# a reader of text
SCAN = """struct scan%(n)d { const char *at, *end; unsigned long line; };
static int skip%(n)d(struct scan%(n)d *s)
{
  for (;;) {
    if (s->at == s->end)
      return -1;
    if (*s->at == '\\n')
      s->line++;
    else if (*s->at != ' ' && *s->at != '\\t' && *s->at != '\\r')
      break;
    s->at++;
  }
  return *s->at == '#' ? 1 : 0;
}
unsigned long number%(n)d(struct scan%(n)d *s, unsigned base)
{
  unsigned long value = 0;
  int c = skip%(n)d(s);
  if (c < 0 || base < 2 || (base > 10 && base != 16))
    return ~0UL;
  while (s->at < s->end) {
    unsigned digit = 99;
    c = *s->at;
    if (c >= '0' && c <= '9')
      digit = (unsigned)c - '0';
    else if (base == 16 && ((c | 040) >= 'a' && (c | 040) <= 'f'))
      digit = (unsigned)(c | 0x20) - 'a' + 10;
    if (digit >= base)
      return value;
    value = value * base + digit, s->at++;
  }
  return value;
}
"""

# what the headers of a system have
SYSTEM = """# %(line)d "/usr/include/part%(n)d.h" 1 3 4
__extension__ typedef long long int wide%(n)d;
extern int open%(n)d (const char *__file, int __flag, ...) __asm__ ("" "open%(k)d") __attribute__ ((__nonnull__ (1)));
static __inline __attribute__ ((__always_inline__)) unsigned short swap%(n)d (unsigned short __x)
{
  return (unsigned short) ((((__x) >> 8) & 0xff) | (((__x) & 0xff) << 8));
}
_Static_assert (sizeof (wide%(n)d) == 8, "a wide number");
typedef __builtin_va_list list%(n)d;
# %(line)d "main.c" 2
int total%(n)d(int count, ...)
{
  list%(n)d list;
  int all = 0;
  __builtin_va_start(list, count);
  while (count--)
    all += __builtin_va_arg(list, int);
  __builtin_va_end(list);
  return __extension__ ({ int least = all < %(m)d ? all : %(m)d; least; }) + swap%(n)d((unsigned short)all);
}
"""

# calls of what came before
CALLS = """long all%(n)d(const char *text, size_t length)
{
  struct scan%(b)d scan = { text, text + length, 1 };
  struct grid%(c)d grid = { .width = 2, .height = 2, .cell = { { 1.0, 2 }, { 3, [2] = 4.5, } } };
  long value = (long)number%(b)d(&scan, length > %(m)dUL ? 10 : 16);
  if (value == -1 || !push%(e)d(value, text))
    return printf("%%s: line %%lu\\n", text, scan.line), -1L;
  value += (long)blur%(c)d(&grid, %(k)d) + table%(d)d(text, length);
  value ^= total%(a)d(3, (int)value, 'a', sizeof grid == 0);
  return value < 0 ? -value : value + sum%(e)d(%(m)d);
}
"""

ORDINARY = (LIST, TABLE, GRID, SCAN, SYSTEM, CALLS)
DEPTH = 400


def nested(n):
    """A function with blocks and statements inside one another, and one with parentheses."""
    openings = ("{ int a%d = x;", "if (x > %d) {", "while (x-- > %d) {", "{ x += %d;", "do {", "for (int i = 0; i < %d; i++) {", "switch (x) { case %d:")
    closings = ("}", "}", "}", "}", "} while (x > 0);", "}", "}")
    # each of these forms is one or two nodes higher than what stands in it
    lines, ends, high, i = [], [], 0, 0
    while True:
        form = i % len(openings)
        rise = 1 if openings[form].startswith("{") else 3 if "case" in openings[form] else 2
        if high + rise > DEPTH:
            break
        lines.append(openings[form] % i if "%d" in openings[form] else openings[form])
        ends.append(closings[form])
        high, i = high + rise, i + 1
    inside = "\n".join(lines) + "\nx = x + 1;\n" + " ".join(reversed(ends))
    return "int deep%d(int x)\n{\n%s\nreturn x;\n}\nint wide%d(int x) { return %sx%s; }\n" % (n, inside, n, "(" * DEPTH, ")" * DEPTH)


def part(kind, n, line):
    if kind == "nested":
        return nested(n)
    if kind == "preprocessed":
        return PREPROCESSED % {"n": n, "line": line}
    if kind == "objects":
        return OBJECTS % {"n": n, "line": line}
    words = {"n": n, "line": line, "m": n % 13 + 4, "k": n % 7 + 1, "a": n - 1, "b": n - 2, "c": n - 3, "d": n - 4, "e": n - 5}
    return ORDINARY[n % len(ORDINARY)] % words


def errors(count):
    """One source that flows into so many targets."""
    targets = "".join("$untainted int target%d;\n" % n for n in range(count))
    return "$tainted int source;\n" + targets + "void flow(void) {\n" + "".join("  target%d = source;\n" % n for n in range(count)) + "}\n"


def members(count):
    fields = "".join("int m%d; " % n for n in range(count))
    return "struct wide { %s};\nvoid all(struct wide *at, int x) {\n%s}\n" % (fields, "".join("x = at->m%d; at->m%d = x;\n" % (n, n) for n in range(count)))


def names(count):
    return "void all(void) {\n%s%s}\n" % ("".join("int v%d;\n" % n for n in range(count)), "".join("v%d = v%d;\n" % (n, count - 1 - n) for n in range(count)))


def tags(count):
    return "".join("struct t%d { struct t%d *next; int at; };\nint f%d(struct t%d *it) { struct t%d *next = it->next; return next->at; }\n"
                   % (n, n, n, n, n) for n in range(count))


def scopes(count):
    inside = "first = second; second = third; third = first;\n"
    for n in range(60):
        inside = "{ int v%d;\n%s}\n" % (n, inside)
    return "int first, second, third;\n" + "".join("void f%d(void) {\n%s}\n" % (n, inside) for n in range(count))


COUNTED = {"errors": errors, "members": members, "names": names, "tags": tags, "scopes": scopes}


def main():
    if len(sys.argv) == 3 and sys.argv[1] in COUNTED and sys.argv[2].isdigit():
        sys.stdout.write(COUNTED[sys.argv[1]](int(sys.argv[2])))
        return 0
    first = sys.argv.pop(3) if len(sys.argv) == 4 and sys.argv[3].isdigit() else "0"
    if len(sys.argv) != 3 or sys.argv[1] not in ("preprocessed", "ordinary", "nested", "objects") or not sys.argv[2].isdigit():
        print(__doc__, file=sys.stderr)
        return 2
    room, n, line = int(sys.argv[2]), int(first), 1
    if sys.argv[1] == "ordinary":
        sys.stdout.write(HEAD)
        room -= len(HEAD)
    while True:
        text = part(sys.argv[1], n, line)
        if len(text) > room:
            break
        sys.stdout.write(text)
        room, n, line = room - len(text), n + 1, line + 7
    sys.stdout.write(" " * max(room, 0))
    return 0


sys.exit(main())
