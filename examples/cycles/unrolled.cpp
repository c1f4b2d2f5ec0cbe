// Four values a turn: the window stands in four variables, and a turn has one test and one step for all of them.
#include <tapa.h>

void Load(tapa::mmap<const int> a, int n, tapa::ostream<int>& values) {
  for (int i = 0; i < n; i += 4) values << a[i] << a[i + 1] << a[i + 2] << a[i + 3];
}

void Window(tapa::istream<int>& values, int n, tapa::ostream<int>& sums) {
  int w, x, y, z;
  for (int i = 0; i < n; i += 4) {
    values >> w;
    sums << w + x + y + z;
    values >> x;
    sums << w + x + y + z;
    values >> y;
    sums << w + x + y + z;
    values >> z;
    sums << w + x + y + z;
  }
}

void Store(tapa::istream<int>& sums, int n, tapa::mmap<int> b) {
  for (int i = 0; i < n; i += 4) {
    b[i] = sums.read();
    b[i + 1] = sums.read();
    b[i + 2] = sums.read();
    b[i + 3] = sums.read();
  }
}

void Sums(tapa::mmap<const int> a, tapa::mmap<int> b, int n) {
  tapa::stream<int> values("values"), sums("sums");
  tapa::task().invoke(Load, a, n, values).invoke(Window, values, n, sums).invoke(Store, sums, n, b);
}
