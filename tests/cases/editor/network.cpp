const int /*N*/N = 4;
const int WIDE = /*N in a constant*/N * 2;

/*odd: é𝄞*/void /*Load*/Load(tapa::mmap<const int> /*a of Load*/a, int n, tapa::/*ostream*/ostream<int>& /*q of Load*/q) {
  for (int /*i*/i = 0; i < n; ++i) {
    q./*write*/write(a[/*i in an index*/i]);
  }
  q./*close*/close();
}

void /*Sum*/Sum(tapa::istream<int>& /*q of Sum*/q, tapa::ostream<long>& sum) {
  long /*total*/total = 0;
  int window[N];
  /*TAPA_WHILE_NOT_EOT*/TAPA_WHILE_NOT_EOT(q) {
    const int next = q./*read*/read();
    window[next % N] = next;
    total = /*total on the right*/total + next;
    if (total > 100) {
      int /*inner total*/total = /*outer total in an initialiser*/total + 1;
      window[0] = /*inner total used*/total;
    }
  }
  q.open();
  sum << /*total below*/total;
}

void /*Pair*/Pair(tapa::mmap<const int> a, int n, tapa::ostream<long>& /*sum of Pair*/sum) {
  tapa::stream<int, /*N as a depth*/N> /*q of Pair*/q("q");
  tapa::task()
      ./*invoke*/invoke(/*Load in Pair*/Load, a, n, /*q in Pair*/q)
      .invoke<tapa::/*join*/join>(Sum, q, sum);
}

void Store(tapa::istream<long>& one, tapa::istream<long>& other, tapa::mmap<long> /*c of Store*/c) {
  c[0] = one.read();
  c[1] = other.read();
}

void /*Top*/Top(tapa::mmap<const int> a, tapa::mmap<const int> b, tapa::mmap<long> /*c*/c, int /*n*/n) {
  tapa::streams<long, 2> /*sums*/sums;
  tapa::task().invoke(Pair, a, n, sums[0]).invoke(Pair, b, n, /*sums in Top*/sums[1]).invoke(Store, sums[0], sums[1], c);
}
