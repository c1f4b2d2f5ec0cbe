// Three tasks that each send to both others, and read from both.
void Node(int n, tapa::ostream<int>& a, tapa::ostream<int>& b, tapa::istream<int>& c, tapa::istream<int>& d) {
  for (int i = 0; i < n; ++i) {
    a << i;
    b << i;
    c.read();
    d.read();
  }
}
void Top(int n) {
  tapa::stream<int, 2> xy; tapa::stream<int, 2> xz; tapa::stream<int, 2> yx; tapa::stream<int, 2> yz; tapa::stream<int, 2> zx; tapa::stream<int, 2> zy;
  tapa::task().invoke(Node, n, xy, xz, yx, zx).invoke(Node, n, yx, yz, xy, zy).invoke(Node, n, zx, zy, xz, yz);
}
