// A running sum: what comes in is added, what leaves the window is taken off.
#include <tapa.h>

void Load(tapa::mmap<const int> a, int n, tapa::ostream<int>& values) {
  for (int i = 0; i < n; ++i) {
    int value = a[i];
    values << value;
  }
}

void Window(tapa::istream<int>& values, int n, tapa::ostream<int>& sums) {
  int last[4];
  int sum = 0;
  for (int i = 0; i < n; ++i) {
    int value = values.read();
    sum += value - last[i & 3];
    last[i & 3] = value;
    sums << sum;
  }
}

void Store(tapa::istream<int>& sums, int n, tapa::mmap<int> b) {
  for (int i = 0; i < n; ++i) b[i] = sums.read();
}

void Sums(tapa::mmap<const int> a, tapa::mmap<int> b, int n) {
  tapa::stream<int> values("values"), sums("sums");
  tapa::task().invoke(Load, a, n, values).invoke(Window, values, n, sums).invoke(Store, sums, n, b);
}
