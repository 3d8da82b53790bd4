const int limit;
int count;
void reset(void) { count = limit; }
