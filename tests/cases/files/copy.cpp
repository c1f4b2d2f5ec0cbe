void Copy(tapa::mmap<uint64_t> a) { a[0] = a[1]; } void T(tapa::mmap<uint64_t> a) { tapa::task().invoke(Copy, a); }
