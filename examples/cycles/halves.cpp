// Both halves at once, each from a memory of its own; the later one has the four values before its half in front.
#include <tapa.h>

void Load(tapa::mmap<const int> a, int n, tapa::ostream<int>& values) {
  for (int i = 0; i < n; i += 4) values << a[i] << a[i + 1] << a[i + 2] << a[i + 3];
}

void Window(tapa::istream<int>& values, bool is_late, int n, tapa::ostream<int>& sums) {
  int w, x, y, z;
  if (is_late) { values >> w >> x >> y >> z; }
  for (int i = 0; i < n; i += 4) {
    values >> w;
    sums << w + x + y + z;
    values >> x;
    sums << w + x + y + z;
    values >> y;
    sums << w + x + y + z;
    values >> z;
    sums << w + x + y + z;
  }
}

void Store(tapa::istream<int>& sums, int n, tapa::mmap<int> b) {
  for (int i = 0; i < n; i += 4) {
    b[i] = sums.read();
    b[i + 1] = sums.read();
    b[i + 2] = sums.read();
    b[i + 3] = sums.read();
  }
}

void Sums(tapa::mmap<const int> a_early, tapa::mmap<const int> a_late, tapa::mmap<int> b_early, tapa::mmap<int> b_late) {
  tapa::stream<int> values_early, values_late, sums_early, sums_late;
  tapa::task()
      .invoke(Load, a_early, 8, values_early).invoke(Window, values_early, false, 8, sums_early).invoke(Store, sums_early, 8, b_early)
      .invoke(Load, a_late, 12, values_late).invoke(Window, values_late, true, 8, sums_late).invoke(Store, sums_late, 8, b_late);
}
