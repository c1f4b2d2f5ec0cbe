// The sums of the last four values, as one would write it for a scheduler that pipelines loops.
#include <tapa.h>

void Load(tapa::mmap<const int> a, int n, tapa::ostream<int>& values) {
  for (int i = 0; i < n; ++i) {
    int value = a[i];
    values << value;
  }
}

void Window(tapa::istream<int>& values, int n, tapa::ostream<int>& sums) {
  int last[4];
  for (int i = 0; i < n; ++i) {
    for (int k = 3; k > 0; --k) last[k] = last[k - 1];
    last[0] = values.read();
    int sum = 0;
    for (int k = 0; k < 4; ++k) sum += last[k];
    sums << sum;
  }
}

void Store(tapa::istream<int>& sums, int n, tapa::mmap<int> b) {
  for (int i = 0; i < n; ++i) b[i] = sums.read();
}

void Sums(tapa::mmap<const int> a, tapa::mmap<int> b, int n) {
  tapa::stream<int> values("values"), sums("sums");
  tapa::task().invoke(Load, a, n, values).invoke(Window, values, n, sums).invoke(Store, sums, n, b);
}
