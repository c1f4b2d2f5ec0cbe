void Producer(tapa::ostream<int>& data, tapa::ostream<int>& ready) { data << 1; data << 2; ready << 3; }
void Consumer(tapa::istream<int>& data, tapa::istream<int>& ready, tapa::mmap<int> m) { m[0] = ready.read(); m[1] = data.read(); m[2] = data.read(); }
void T(tapa::mmap<int> m) {
  tapa::stream<int, 1> data;
  tapa::stream<int, 1> ready;
  tapa::task().invoke(Producer, data, ready).invoke(Consumer, data, ready, m);
}
