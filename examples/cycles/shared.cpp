// Two windows at once, fed by one Load and emptied by one Store; the later one begins with the three values before its half.
#include <tapa.h>

void Load(tapa::mmap<const int> a, int n, tapa::ostream<int>& early, tapa::ostream<int>& late) {
  late << a[n - 3] << a[n - 2] << a[n - 1];
  for (int i = 0; i < n; i += 4) {
    early << a[i] << a[i + 1] << a[i + 2] << a[i + 3];
    late << a[n + i] << a[n + i + 1] << a[n + i + 2] << a[n + i + 3];
  }
}

void Window(tapa::istream<int>& values, bool is_late, int n, tapa::ostream<int>& sums) {
  int w, x, y, z;
  if (is_late) { values >> x >> y >> z; }
  for (int i = 0; i < n; i += 4) {
    values >> w;
    sums << w + x + y + z;
    values >> x;
    sums << w + x + y + z;
    values >> y;
    sums << w + x + y + z;
    values >> z;
    sums << w + x + y + z;
  }
}

void Store(tapa::istream<int>& early, tapa::istream<int>& late, int n, tapa::mmap<int> b) {
  for (int i = 0; i < n; i += 4) {
    b[i] = early.read();
    b[i + 1] = early.read();
    b[i + 2] = early.read();
    b[i + 3] = early.read();
  }
  for (int i = n; i < n + n; i += 4) {
    b[i] = late.read();
    b[i + 1] = late.read();
    b[i + 2] = late.read();
    b[i + 3] = late.read();
  }
}

void Sums(tapa::mmap<const int> a, tapa::mmap<int> b, int half) {
  tapa::stream<int> early, late;
  tapa::stream<int> sums_early;
  tapa::stream<int> sums_late;
  tapa::task().invoke(Load, a, half, early, late).invoke(Window, early, false, half, sums_early).invoke(Window, late, true, half, sums_late).invoke(Store, sums_early, sums_late, half, b);
}
